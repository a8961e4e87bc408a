// Eight threads use one pool under one mutex: each reuses connections, and all are told in the end.
#include "curlpool.h"
#include <pthread.h>
#include <stdio.h>
#include <stdlib.h>

enum { THREADS = 8, ROUNDS = 2000 };

static curlpool pool;
static pthread_mutex_t lock = PTHREAD_MUTEX_INITIALIZER;
static const struct curlpool_facts kept = {.version = 1, .framing = CURLPOOL_COUNTED, .whole = true};
static uint64_t opened, told;

static void want(uint32_t status, uint32_t wanted) {
    if (status == wanted) return;
    fprintf(stderr, "threads: %s\n", curlpool_strstatus(status));
    exit(1);
}

static void *use(void *place) {
    uint64_t transfer = (uint64_t)(uintptr_t)place, slot, token;
    for (int round = 0; round < ROUNDS; round++) {
        pthread_mutex_lock(&lock);
        uint32_t status = curlpool_acquire(&pool, 0, transfer, 0, 118, 0, 0, 1, &slot, &token);
        if (status == CURLPOOL_NEW) want(curlpool_attach(&pool, slot, ++opened), CURLPOOL_OK);
        else want(status, CURLPOOL_REUSED);
        pthread_mutex_unlock(&lock);
        pthread_mutex_lock(&lock);
        want(curlpool_give_back_as(&pool, slot, &kept, 1), CURLPOOL_OK);
        pthread_mutex_unlock(&lock);
    }
    return NULL;
}

int main(void) {
    pthread_t threads[THREADS];
    want(curlpool_open(&pool, 1, 0, 0, THREADS), CURLPOOL_OK);
    for (uintptr_t place = 0; place < THREADS; place++) {
        if (pthread_create(&threads[place], NULL, use, (void *)place) != 0) return 1;
    }
    for (int place = 0; place < THREADS; place++) pthread_join(threads[place], NULL);
    want(curlpool_close_all(&pool, 1), CURLPOOL_OK);
    for (uint64_t token; curlpool_closed(&pool, &token) == CURLPOOL_OK;) told++;
    want(curlpool_close(&pool), CURLPOOL_OK);
    printf("%ju opened, %ju told\n", (uintmax_t)opened, (uintmax_t)told);
    return opened != told;
}
