// Calls the library for C: WHAT LEASES ROUNDS. A round is an acquire that reuses the one idle connection and a give
// back, while so many other leases are out; with facts of the caller's own, or, where WHAT is `read`, of a response
// that is fed.
#include <curlpool.h>
#include <stdlib.h>
#include <string.h>

static const uint8_t answer[] = "HTTP/1.1 200 OK\r\nContent-Length: 2\r\n\r\nok";
static const struct curlpool_facts kept = {.version = 1, .framing = CURLPOOL_COUNTED, .whole = true};

int main(int count, char **words) {
    curlpool pool = {0};
    uint64_t slot, token, leases, rounds;
    if (count != 4) return 2;
    leases = strtoull(words[2], 0, 10);
    rounds = strtoull(words[3], 0, 10);
    bool is_read = strcmp(words[1], "read") == 0;
    if (curlpool_open(&pool, 1, 0, 0, 65535) != CURLPOOL_OK) return 1;
    for (uint64_t transfer = 1; transfer <= leases + 1; transfer++) {
        if (curlpool_acquire(&pool, 0, transfer, 0, 118, 0, 0, 1, &slot, &token) != CURLPOOL_NEW) return 1;
        if (curlpool_attach(&pool, slot, transfer) != CURLPOOL_OK) return 1;
    }
    if (curlpool_give_back_as(&pool, slot, &kept, 1) != CURLPOOL_OK) return 1;
    for (uint64_t now = 2; now < rounds + 2; now++) {
        if (curlpool_acquire(&pool, 0, 0, 0, 118, 0, 0, now, &slot, &token) != CURLPOOL_REUSED) return 1;
        if (is_read) {
            if (curlpool_begin(&pool, slot, false, false) != CURLPOOL_OK) return 1;
            if (curlpool_feed(&pool, slot, answer, sizeof answer - 1) != CURLPOOL_WHOLE) return 1;
            if (curlpool_give_back(&pool, slot, now) != CURLPOOL_OK) return 1;
        } else if (curlpool_give_back_as(&pool, slot, &kept, now) != CURLPOOL_OK) {
            return 1;
        }
    }
    return 0;
}
