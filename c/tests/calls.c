// Calls each function of the library to each of its answers, and writes a line for each: its name and its status.
// Allocations fail in turn: with the word `memory` each call that takes memory is tried so, until it needs no more.
#include "curlpool.h"
#include <stdio.h>
#include <stdlib.h>
#include <string.h>

void *__real_malloc(size_t size);
void *__real_realloc(void *old, size_t size);

// How many allocations still succeed; none fails while it is negative.
static long left = -1;

static bool fails(void) {
    return left >= 0 && left-- == 0;
}

void *__wrap_malloc(size_t size) {
    return fails() ? NULL : __real_malloc(size);
}

void *__wrap_realloc(void *old, size_t size) {
    return fails() ? NULL : __real_realloc(old, size);
}

static curlpool pool;
static uint32_t site, number;
static uint64_t slot, other, third, token;
static int wrong;

static uint32_t told(const char *call, uint32_t status) {
    printf("%s %u\n", call, status);
    return status;
}

static void looked(bool is_right, int line) {
    if (is_right) return;
    fprintf(stderr, "line %d: it is not so\n", line);
    wrong++;
}

#define LOOK(what) looked(what, __LINE__)

#define CALL(name, ...) told(#name, curlpool_##name(__VA_ARGS__))

#define WANT(status, name, ...) \
    do { \
        uint32_t got = CALL(name, __VA_ARGS__); \
        if (got != CURLPOOL_##status) { \
            fprintf(stderr, "line %d: %s answered %s, not %s\n", __LINE__, #name, curlpool_strstatus(got), #status); \
            wrong++; \
        } \
    } while (0)

// The call is tried with each of its allocations failing in turn, until it has another answer than that.
#define WITHOUT_MEMORY(status, name, ...) \
    do { \
        uint32_t got = CURLPOOL_NO_MEMORY; \
        for (long count = 0; got == CURLPOOL_NO_MEMORY; count++) { \
            left = count; \
            got = CALL(name, __VA_ARGS__); \
            left = -1; \
        } \
        if (got != CURLPOOL_##status) { \
            fprintf(stderr, "line %d: %s answered %s, not %s\n", __LINE__, #name, curlpool_strstatus(got), #status); \
            wrong++; \
        } \
    } while (0)

static const struct curlpool_facts kept = {.version = 1, .framing = CURLPOOL_COUNTED, .whole = true};

static const uint8_t *bytes(const char *text) {
    return (const uint8_t *)text;
}

static uint32_t acquire(uint64_t transfer, uint64_t *into) {
    return curlpool_acquire(&pool, site, transfer, 0, 118, 0, 0, 1, into, &token);
}

// Each call without a pool.
static void calls_without_a_pool(void) {
    struct curlpool_response response;
    struct curlpool_look look;
    struct curlpool_counts counts;
    uint8_t buffer[8];
    size_t written;
    WANT(CLOSED, site, &pool, bytes("a"), 1, 80, &site);
    WANT(CLOSED, acquire, &pool, 0, 1, 0, 0, 0, 0, 0, &slot, &token);
    WANT(CLOSED, attach, &pool, 1, 1);
    WANT(CLOSED, claim, &pool, 1, &token);
    WANT(CLOSED, granted, &pool, &slot);
    WANT(CLOSED, begin, &pool, 1, false, false);
    WANT(CLOSED, feed, &pool, 1, bytes("a"), 1);
    WANT(CLOSED, end, &pool, 1);
    WANT(CLOSED, response, &pool, 1, &response);
    WANT(CLOSED, give_back, &pool, 1, 0);
    WANT(CLOSED, give_back_as, &pool, 1, &kept, 0);
    WANT(CLOSED, abandon, &pool, 1, 0);
    WANT(CLOSED, withdraw, &pool, 1, 0);
    WANT(CLOSED, prune, &pool, 0, 0, 0, &number);
    WANT(CLOSED, upkeep, &pool, &number);
    WANT(CLOSED, set_host_limit, &pool, 0, 1, 0);
    WANT(CLOSED, look, &pool, 0, &look);
    WANT(CLOSED, counts, &pool, 0, &counts);
    WANT(CLOSED, closed, &pool, &token);
    WANT(CLOSED, take_log, &pool, 0, buffer, sizeof buffer, &written);
    WANT(CLOSED, drop_logs, &pool);
    WANT(CLOSED, close_all, &pool, 0);
    WANT(OK, close, &pool);
}

static void opens_a_pool(void) {
    WANT(BAD_LIMIT, open, &pool, 2, 1, 2, 0);
    WANT(BAD_LIMIT, open, &pool, 1025, 1, 2, 2);
    WANT(BAD_LIMIT, open, &pool, 2, 65536, 2, 2);
    WITHOUT_MEMORY(OK, open, &pool, 2, 1, 2, 2);
    WANT(ALREADY_OPEN, open, &pool, 2, 1, 2, 2);
}

static void finds_sites(void) {
    uint32_t another;
    WITHOUT_MEMORY(OK, site, &pool, bytes("a.test"), 6, 80, &site);
    WANT(OK, site, &pool, bytes("b.test"), 6, 80, &another);
    WANT(NOT_TEXT, site, &pool, bytes("\xff"), 1, 80, &another);
    WITHOUT_MEMORY(NEW, acquire, &pool, site, 1, 0, 118, 0, 0, 1, &slot, &token);
    WANT(OK, site, &pool, bytes("c.test"), 6, 80, &another);
    LOOK(another != site);
    LOOK(curlpool_acquire(&pool, another, 1, 0, 118, 0, 0, 1, &other, &token) == CURLPOOL_NEW);
    WANT(FULL, site, &pool, bytes("d.test"), 6, 80, &another);
    WANT(OK, abandon, &pool, slot, 1);
    WANT(OK, abandon, &pool, other, 1);
}

static void acquires_and_gives_back(void) {
    struct curlpool_facts bad = kept;
    WANT(NEW, acquire, &pool, site, 1, 0, 118, 0, 0, 1, &slot, &token);
    WANT(BAD_SITE, acquire, &pool, 2, 1, 0, 118, 0, 0, 1, &other, &token);
    WANT(BUSY, acquire, &pool, site, 1, 0, 118, 0, 0, 1, &other, &token);
    WANT(BAD_VALUE, acquire, &pool, site, 2, 0, 118, 0, 4, 1, &other, &token);
    WANT(UNATTACHED, give_back_as, &pool, slot, &kept, 1);
    WANT(NEW, claim, &pool, slot, &token);
    WITHOUT_MEMORY(OK, attach, &pool, slot, 77);
    WANT(ATTACHED, attach, &pool, slot, 78);
    WANT(STRANGER, attach, &pool, slot + 1, 78);
    WANT(WAIT, acquire, &pool, site, 2, 0, 118, 0, 0, 1, &other, &token);
    WANT(WAIT, claim, &pool, other, &token);
    WANT(NONE, granted, &pool, &third);
    bad.framing = 5;
    WANT(BAD_VALUE, give_back_as, &pool, slot, &bad, 1);
    WANT(OK, give_back_as, &pool, slot, &kept, 1);
    WANT(STRANGER, give_back_as, &pool, slot, &kept, 1);
    WANT(OK, granted, &pool, &third);
    LOOK(third == other);
    WANT(REUSED, claim, &pool, other, &token);
    LOOK(token == 77);
    WANT(STRANGER, claim, &pool, slot, &token);
    WANT(STRANGER, withdraw, &pool, other, 1);
    WANT(WAIT, acquire, &pool, site, 3, 0, 118, 0, 0, 1, &slot, &token);
    WANT(STRANGER, abandon, &pool, slot, 1);
    WANT(OK, withdraw, &pool, slot, 1);
    WANT(NONE, closed, &pool, &token);
    WANT(OK, give_back_as, &pool, other, &kept, 1);
    WANT(REUSED, acquire, &pool, site, 1, 0, 118, 0, 0, 1, &slot, &token);
    WANT(OK, abandon, &pool, slot, 1);
    WANT(OK, closed, &pool, &token);
    LOOK(token == 77);
}

// A response of that text, to its status.
#define READS(status, text) \
    do { \
        WANT(OK, begin, &pool, slot, false, false); \
        WANT(status, feed, &pool, slot, bytes(text), strlen(text)); \
    } while (0)

static void reads_long_responses(void) {
    static char text[20000];
    strcpy(text, "HTTP/1.1 200 OK\r\nA: ");
    memset(text + strlen(text), 'a', 17000);
    READS(HEAD_TOO_LONG, text);
    strcpy(text, "HTTP/1.1 200 OK\r\nTransfer-Encoding: chunked\r\n\r\n0\r\nA: ");
    memset(text + strlen(text), 'a', 9000);
    READS(TRAILER_TOO_LONG, text);
    memset(text, 0, sizeof text);
    for (int i = 0; i < 9; i++) strcat(text, "HTTP/1.1 100 Continue\r\n\r\n");
    READS(TOO_MANY_INTERIMS, text);
}

static void reads_responses(void) {
    static const char answer[] = "HTTP/1.1 200 OK\r\nContent-Length: 2\r\n\r\nok";
    struct curlpool_response response;
    WANT(STRANGER, begin, &pool, slot, false, false);
    LOOK(acquire(1, &slot) == CURLPOOL_NEW);
    WANT(UNREAD, give_back, &pool, slot, 2);
    WANT(UNREAD, feed, &pool, slot, bytes(answer), 3);
    WANT(UNREAD, end, &pool, slot);
    WANT(UNREAD, response, &pool, slot, &response);
    WITHOUT_MEMORY(OK, begin, &pool, slot, false, false);
    WITHOUT_MEMORY(MORE, feed, &pool, slot, bytes(answer), 30);
    WANT(UNATTACHED, give_back, &pool, slot, 2);
    READS(BAD_HEAD, "what is this?\r\n\r\n");
    READS(BAD_LENGTH, "HTTP/1.1 200 OK\r\nContent-Length: 1, 2\r\n\r\n");
    READS(BAD_CHUNK, "HTTP/1.1 200 OK\r\nTransfer-Encoding: chunked\r\n\r\nx\r\n");
    reads_long_responses();
    WANT(OK, begin, &pool, slot, true, false);
    WANT(OK, end, &pool, slot);
    WANT(ENDED, feed, &pool, slot, bytes(answer), 3);
    READS(WHOLE, answer);
    WANT(OK, response, &pool, slot, &response);
    LOOK(response.status == 200 && response.body_length == 2 && response.persists);
    WANT(OK, attach, &pool, slot, 9);
    WANT(OK, give_back, &pool, slot, 2);
    WANT(STRANGER, give_back, &pool, slot, 2);
}

static void tells_of_sites(void) {
    struct curlpool_look look;
    struct curlpool_counts counts;
    WANT(OK, look, &pool, site, &look);
    LOOK(look.idle == 1 && look.leased == 0);
    WANT(BAD_SITE, look, &pool, 2, &look);
    WANT(OK, counts, &pool, site, &counts);
    LOOK(counts.opened == 3 && counts.closed == 2 && counts.waited == 2 && counts.reused == 2);
    WANT(BAD_SITE, counts, &pool, 2, &counts);
    WANT(OK, upkeep, &pool, &number);
    for (uint32_t round = 0; round < 99; round++) WITHOUT_MEMORY(OK, set_host_limit, &pool, site, 3 - round % 2, 2);
    WANT(OK, set_host_limit, &pool, site, 2, 2);
    WANT(BAD_SITE, set_host_limit, &pool, 2, 2, 2);
    WANT(BAD_LIMIT, set_host_limit, &pool, site, 65536, 2);
    LOOK(acquire(4, &slot) == CURLPOOL_REUSED && acquire(5, &other) == CURLPOOL_NEW);
    WANT(LEASED, set_host_limit, &pool, site, 1, 2);
    WANT(OK, abandon, &pool, other, 2);
    WANT(OK, give_back_as, &pool, slot, &kept, 2);
    WANT(OK, prune, &pool, 5, 0, 9, &number);
    LOOK(number == 1);
    WANT(OK, closed, &pool, &token);
    LOOK(token == 9);
}

static void tells_logs(void) {
    uint8_t buffer[4096];
    size_t written = 0, all = 0;
    WANT(SMALL, take_log, &pool, site, buffer, 9, &written);
    LOOK(written == 0);
    uint32_t status = CURLPOOL_MORE;
    while (status == CURLPOOL_MORE) {
        status = CALL(take_log, &pool, site, buffer, 64, &written);
        all += written;
    }
    LOOK(status == CURLPOOL_OK && all > 0);
    WANT(OK, take_log, &pool, site, buffer, sizeof buffer, &written);
    LOOK(written == 0);
    LOOK(acquire(6, &slot) == CURLPOOL_NEW);
    WITHOUT_MEMORY(OK, take_log, &pool, site, buffer, sizeof buffer, &written);
    WANT(BAD_SITE, take_log, &pool, 2, buffer, sizeof buffer, &written);
    WANT(OK, attach, &pool, slot, 10);
    WANT(OK, give_back_as, &pool, slot, &kept, 9);
    WITHOUT_MEMORY(OK, drop_logs, &pool);
    WANT(OK, take_log, &pool, site, buffer, sizeof buffer, &written);
    LOOK(written == 0);
}

static void reads_urls(void) {
    static char url[3000] = "http://h.test/";
    uint8_t buffer[256];
    struct curlpool_target to = {0};
    const char *text = "http://A.test:81/b c?d#e";
    WITHOUT_MEMORY(OK, target, bytes(text), strlen(text), buffer, sizeof buffer, &to);
    LOOK(to.host_length == 6 && to.path_length == 8 && to.port == 81 && memcmp(buffer, "a.test/b%20c?d", 14) == 0);
    WANT(SMALL, target, bytes(text), strlen(text), buffer, 10, &to);
    WANT(NOT_TEXT, target, bytes("\xff"), 1, buffer, sizeof buffer, &to);
    WANT(NOT_URL, target, bytes("no url"), 6, buffer, sizeof buffer, &to);
    WANT(NOT_HTTP, target, bytes("ftp://a.test/"), 13, buffer, sizeof buffer, &to);
    memset(url + strlen(url), 'a', 2900);
    WANT(URL_TOO_LONG, target, bytes(url), strlen(url), buffer, sizeof buffer, &to);
}

static void closes(void) {
    LOOK(acquire(7, &slot) == CURLPOOL_REUSED && acquire(8, &other) == CURLPOOL_NEW);
    WANT(WAIT, acquire, &pool, site, 9, 0, 118, 0, 0, 9, &third, &token);
    WANT(MORE, close, &pool);
    WANT(OK, give_back_as, &pool, slot, &kept, 9);
    WANT(OK, close_all, &pool, 9);
    WANT(CLOSED, close_all, &pool, 9);
    WANT(CLOSED, claim, &pool, third, &token);
    WANT(ALREADY_OPEN, open, &pool, 2, 1, 2, 2);
    WANT(MORE, close, &pool);
    WANT(OK, closed, &pool, &token);
    LOOK(token == 10);
    WANT(NONE, closed, &pool, &token);
    WANT(OK, close, &pool);
    WANT(OK, close, &pool);
    WANT(OK, open, &pool, 1, 1, 1, 1);
    WANT(OK, close_all, &pool, 9);
    WANT(OK, close, &pool);
}

int main(void) {
    calls_without_a_pool();
    opens_a_pool();
    finds_sites();
    acquires_and_gives_back();
    reads_responses();
    tells_of_sites();
    tells_logs();
    reads_urls();
    closes();
    LOOK(strcmp(curlpool_version(), CURLPOOL_VERSION) == 0);
    LOOK(strcmp(curlpool_strstatus(99), "unknown status") == 0);
    return wrong > 0;
}
