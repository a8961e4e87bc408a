// What raw_load.c and curl_load.c have in common: threads that draw requests until all are sent.
#pragma once
#include <pthread.h>
#include <stdio.h>
#include <stdlib.h>

enum { MOST_THREADS = 64, MOST_SITES = 64 };

// What came of the requests of a thread, or of all.
struct counts {
    long good;
    long opened;
    long bytes;
};

// What is requested, and what came of it.
struct load {
    long requests;
    long sites;
    char **ports;
    long next;
    struct counts counts;
};

// The number of the next request; -1 where none is left.
static inline long next_request(struct load *load) {
    long number = __atomic_fetch_add(&load->next, 1, __ATOMIC_SEQ_CST);
    return number < load->requests ? number : -1;
}

// Adds what came of the requests of a thread.
static inline void add_counts(struct load *load, const struct counts *counts) {
    __atomic_fetch_add(&load->counts.good, counts->good, __ATOMIC_SEQ_CST);
    __atomic_fetch_add(&load->counts.opened, counts->opened, __ATOMIC_SEQ_CST);
    __atomic_fetch_add(&load->counts.bytes, counts->bytes, __ATOMIC_SEQ_CST);
}

// Sends the requests that the words ask for, by so many threads, the first of which is this one.
static inline int run_load(const char *usage, int count, char **words, void *(*send_some)(void *)) {
    int threads = count > 3 ? atoi(words[1]) : 0;
    if (threads < 1 || threads > MOST_THREADS || count > 3 + MOST_SITES) {
        fprintf(stderr, "%s\n", usage);
        return 2;
    }
    struct load load = {.requests = atol(words[2]), .sites = count - 3, .ports = words + 3};
    pthread_t others[MOST_THREADS];
    for (int thread = 1; thread < threads; thread++) {
        if (pthread_create(&others[thread], NULL, send_some, &load) != 0) {
            fputs("a thread can't be started\n", stderr);
            return 1;
        }
    }
    send_some(&load);
    for (int thread = 1; thread < threads; thread++) {
        pthread_join(others[thread], NULL);
    }
    printf("good %ld opened %ld bytes %ld\n", load.counts.good, load.counts.opened, load.counts.bytes);
    return 0;
}
