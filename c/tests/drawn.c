// Draws so many calls, of any value and order, and looks that no token is lost or told twice: drawn SEED CALLS.
#include "curlpool.h"
#include <stdio.h>
#include <stdlib.h>
#include <string.h>

enum { SITES = 5, KEPT = 64, TOKENS = 1 << 20 };

static uint64_t state;

// xorshift64*
static uint64_t draw(void) {
    state ^= state >> 12;
    state ^= state << 25;
    state ^= state >> 27;
    return state * 2685821657736338717u;
}

static uint64_t below(uint64_t bound) {
    return (draw() >> 32) % bound;
}

static const char *const pieces[] = {
    "HTTP/1.1 200 OK\r\n", "Content-Length: 2\r\n", "Content-Length: 0\r\n", "Transfer-Encoding: chunked\r\n",
    "Connection: close\r\n", "\r\n", "ok", "0\r\n\r\n", "2\r\nok\r\n", "HTTP/1.0 204 No\r\n\r\n", "\xff", "",
    "HTTP/1.1 100 Continue\r\n\r\n", "HTTP/1.1 200 OK\r\nContent-Length: 2\r\n\r\nok",
};

static const char *const urls[] = {
    "http://a.test/", "http://[::1]:80/x?y", "ftp://a.test", "nothing", "http://\xff", "", "http://A.b:99999/",
};

static curlpool pool;
static uint64_t kept[KEPT], last;
static uint8_t told[TOKENS];

static void stop(const char *what) {
    fprintf(stderr, "drawn: %s\n", what);
    exit(1);
}

// A number that is mostly small, and sometimes any.
static uint64_t number(void) {
    return below(8) > 0 ? below(12) : draw();
}

// A slot that was told, or any number.
static uint64_t slot(void) {
    return below(16) > 0 ? kept[below(KEPT)] : number();
}

static void drain(void) {
    for (uint64_t token; curlpool_closed(&pool, &token) == CURLPOOL_OK;) {
        if (token == 0 || token > last || token >= TOKENS) stop("a token was told that is none");
        if (told[token]++) stop("a token was told twice");
    }
}

static void acquire(void) {
    uint64_t got = 0, token = 0;
    uint32_t status = curlpool_acquire(&pool, (uint32_t)(below(9) ? below(SITES) : number()), below(24),
                                       (uint32_t)below(3), below(4) ? 118 : number(), below(4) ? 0 : number(),
                                       (uint32_t)(below(4) ? 0 : number()), number(), &got, &token);
    if (status == CURLPOOL_NEW || status == CURLPOOL_REUSED || status == CURLPOOL_WAIT) kept[below(KEPT)] = got;
    if (status == CURLPOOL_NEW && below(8) && last + 1 < TOKENS) {
        if (curlpool_attach(&pool, got, ++last) != CURLPOOL_OK) stop("no token was attached");
    }
    if (status == CURLPOOL_REUSED && (token == 0 || token > last || told[token])) stop("a closed token was reused");
}

static void attach(uint64_t to) {
    if (last + 1 < TOKENS && curlpool_attach(&pool, to, last + 1) == CURLPOOL_OK) last++;
}

static void feed(uint64_t to) {
    const char *piece = pieces[below(sizeof pieces / sizeof *pieces)];
    if (below(4) == 0) curlpool_begin(&pool, to, below(2), below(2));
    curlpool_feed(&pool, to, (const uint8_t *)piece, strlen(piece));
    if (below(16) == 0) curlpool_end(&pool, to);
}

static void give_back(uint64_t to) {
    struct curlpool_facts facts = {
        .version = (uint32_t)below(3), .framing = (uint32_t)below(6), .close = below(9) == 0, .keep_alive = below(2),
        .request_close = below(9) == 0, .both_lengths = below(9) == 0, .upgraded = below(9) == 0,
        .whole = below(9) > 0, .surplus = below(9) == 0,
    };
    if (below(2)) curlpool_give_back(&pool, to, number());
    else curlpool_give_back_as(&pool, to, &facts, number());
}

static void ask(void) {
    struct curlpool_response response;
    struct curlpool_look look;
    struct curlpool_counts counts;
    struct curlpool_target target;
    uint8_t buffer[200];
    size_t written = 0;
    uint32_t small, site = (uint32_t)(below(9) ? below(SITES) : number());
    const char *url = urls[below(sizeof urls / sizeof *urls)];
    size_t room = below(sizeof buffer + 1);
    switch (below(8)) {
    case 0: curlpool_response(&pool, slot(), &response); break;
    case 1: curlpool_look(&pool, site, &look); break;
    case 2: curlpool_counts(&pool, site, &counts); break;
    case 3: curlpool_target((const uint8_t *)url, strlen(url), buffer, room, &target); break;
    case 4: curlpool_take_log(&pool, site, buffer, room, &written); break;
    case 5: curlpool_upkeep(&pool, &small); break;
    case 6: curlpool_site(&pool, (const uint8_t *)url, below(strlen(url) + 1), (uint16_t)draw(), &small); break;
    default: curlpool_drop_logs(&pool);
    }
    if (written > room) stop("more was written than there is room");
}

static void one_call(void) {
    uint64_t token, got;
    uint32_t count;
    switch (below(18)) {
    case 0: case 1: case 2: case 3: case 4: acquire(); break;
    case 5: attach(slot()); break;
    case 6: curlpool_claim(&pool, slot(), &token); break;
    case 7: while (curlpool_granted(&pool, &got) == CURLPOOL_OK) kept[below(KEPT)] = got; break;
    case 8: case 9: feed(slot()); break;
    case 10: case 11: case 12: give_back(slot()); break;
    case 13: curlpool_abandon(&pool, slot(), number()); break;
    case 14: curlpool_withdraw(&pool, slot(), number()); break;
    case 15: curlpool_prune(&pool, number(), number(), number(), &count); break;
    case 16: curlpool_set_host_limit(&pool, (uint32_t)number(), (uint32_t)number(), number()); break;
    default: ask();
    }
    drain();
}

// Ends the pool: then each token was told once.
static void end(void) {
    if (curlpool_close(&pool) != CURLPOOL_MORE) stop("an open pool was closed");
    if (curlpool_close_all(&pool, number()) != CURLPOOL_OK) stop("a pool was not ended");
    drain();
    if (curlpool_close(&pool) != CURLPOOL_OK) stop("an ended pool was not closed");
    for (uint64_t token = 1; token <= last; token++) {
        if (told[token] != 1) stop("a token was lost");
    }
    memset(kept, 0, sizeof kept);
}

int main(int count, char **words) {
    if (count != 3) stop("SEED CALLS");
    state = strtoull(words[1], NULL, 10) * 2 + 1;
    for (uint64_t calls = strtoull(words[2], NULL, 10); calls > 0; calls--) {
        if (!pool.there && curlpool_open(&pool, SITES, (uint32_t)below(4), (uint32_t)below(8), 1 + (uint32_t)below(4))
                != CURLPOOL_OK) {
            stop("no pool was opened");
        }
        if (below(4000) == 0) end();
        else one_call();
    }
    if (pool.there) end();
    printf("%ju tokens\n", (uintmax_t)last);
    return 0;
}
