// Two transfers share one connection: the second one waits, and is told once it has it.
#include <curlpool.h>
#include <stdio.h>
#include <string.h>

int main(void) {
    const char *host = "example.com", *answer = "HTTP/1.1 200 OK\r\nContent-Length: 2\r\n\r\nok";
    curlpool pool = {0};
    uint32_t site;
    uint64_t first, second, slot, token;

    // One site; at most one connection is open to it, 16 to all, and 8 are kept after their use.
    curlpool_open(&pool, 1, 1, 16, 8);
    curlpool_site(&pool, (const uint8_t *)host, strlen(host), 80, &site);

    // Transfer 1 gets a new connection. A client dials it, and its descriptor is the token.
    curlpool_acquire(&pool, site, 1, 0, 118, 0, 0, 0, &first, &token);
    curlpool_attach(&pool, first, 42);

    // Transfer 2 waits until transfer 1 gives its connection back, after a response that lets it persist.
    uint32_t status = curlpool_acquire(&pool, site, 2, 0, 118, 0, 0, 1, &second, &token);
    printf("transfer 2: %s\n", curlpool_strstatus(status));
    curlpool_begin(&pool, first, false, false);
    curlpool_feed(&pool, first, (const uint8_t *)answer, strlen(answer));
    curlpool_give_back(&pool, first, 2);
    while (curlpool_granted(&pool, &slot) == CURLPOOL_OK) {
        status = curlpool_claim(&pool, slot, &token);
        printf("transfer 2: %s %ju\n", curlpool_strstatus(status), (uintmax_t)token);
    }

    // All is ended: each socket is told once.
    curlpool_close_all(&pool, 3);
    while (curlpool_closed(&pool, &token) == CURLPOOL_OK) printf("close %ju\n", (uintmax_t)token);
    return curlpool_close(&pool) != CURLPOOL_OK;
}
