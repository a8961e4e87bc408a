/* curlpool.h: libcurl's connection pool for HTTP/1.1, as a library for C (C99) and C++.
 *
 * The pool says which transfer gets which connection and who waits, within three limits, and whether a response lets
 * its connection persist. Sockets, TLS, requests and bodies are yours. A connection is known by its token: any 64-bit
 * number of yours, such as its file descriptor.
 *
 * What each call does to the pool is proved of its Rattle code (docs/proved.md). This header, C code and the C
 * library are outside of any proof. Your duties, which nothing checks:
 *
 * 1. A `curlpool` is zero at first (`curlpool pool = {0}`), is changed by calls alone, and never used as two copies. It
 *    may be moved. `curlpool_close` gives its memory back.
 * 2. Pointers are valid, aligned and not null, and do not overlap; a `bool` is 0 or 1. A pointer to no bytes, of a
 *    length of 0, may be anything but null.
 * 3. There is one call at a time for each pool, from any thread; not from a signal handler, nor in the forked child of
 *    a process with threads.
 * 4. `malloc`, `realloc` and `free` are those of one allocator, which aligns as libc's does.
 * 5. A token that `curlpool_closed` tells is that of a connection which the pool has closed: close its socket then,
 *    once, and close sockets with a token at no other time. Facts are those of the response; bytes that are fed are
 *    those of the connection, all of them, in their order; `now` is the time in seconds, of a clock that does not go
 *    back.
 *
 * Every other value, order and repetition of calls is answered by a status, and loses nothing. A call that is answered
 * by an error changes nothing and writes nothing, but for the logs (`curlpool_take_log`, `curlpool_drop_logs`).
 */
#ifndef CURLPOOL_H
#define CURLPOOL_H

#include <stdbool.h>
#include <stddef.h>
#include <stdint.h>

#define CURLPOOL_VERSION "0.3.0"

#ifdef __cplusplus
extern "C" {
#endif

/* What a call answers. */
enum {
    CURLPOOL_OK = 0,                 /* it is done */
    CURLPOOL_NEW = 1,                /* the transfer has a new connection: dial it, then attach its token */
    CURLPOOL_REUSED = 2,             /* the transfer has a connection that was idle, with this token */
    CURLPOOL_WAIT = 3,               /* the transfer waits */
    CURLPOOL_MORE = 4,               /* there is more: to feed, to take, or to close */
    CURLPOOL_WHOLE = 5,              /* the response is whole */
    CURLPOOL_NONE = 6,               /* there is nothing to tell */
    CURLPOOL_NO_MEMORY = 7,          /* there is no memory */
    CURLPOOL_FULL = 8,               /* each site has a host and is in use */
    CURLPOOL_STRANGER = 9,           /* the slot has nothing of that kind, or has it no more */
    CURLPOOL_CLOSED = 10,            /* there is no open pool */
    CURLPOOL_ALREADY_OPEN = 11,      /* there is a pool already */
    CURLPOOL_BAD_LIMIT = 12,         /* the numbers are no limits, or there are more than 1,024 hosts */
    CURLPOOL_BAD_SITE = 13,          /* there is no such site */
    CURLPOOL_BUSY = 14,              /* the transfer has a connection of this site already, or waits there */
    CURLPOOL_EXHAUSTED = 15,         /* the site has no numbers left */
    CURLPOOL_LEASED = 16,            /* more connections are leased than the limit allows */
    CURLPOOL_UNATTACHED = 17,        /* the connection has no token yet */
    CURLPOOL_ATTACHED = 18,          /* the connection has its token already */
    CURLPOOL_UNREAD = 19,            /* no response was begun for the slot's connection */
    CURLPOOL_ENDED = 20,             /* the response's connection has ended */
    CURLPOOL_BAD_VALUE = 21,         /* a flag or a number stands for nothing */
    CURLPOOL_BAD_HEAD = 22,          /* what should be the head of a response is none */
    CURLPOOL_BAD_LENGTH = 23,        /* the response has no valid content length */
    CURLPOOL_BAD_CHUNK = 24,         /* what should be a chunk is none */
    CURLPOOL_HEAD_TOO_LONG = 25,     /* a head of more than 16,384 bytes or 100 fields */
    CURLPOOL_TOO_MANY_INTERIMS = 26, /* more than 8 interim heads */
    CURLPOOL_TRAILER_TOO_LONG = 27,  /* a trailer section of more than 8,192 bytes or 100 fields */
    CURLPOOL_NOT_TEXT = 28,          /* the bytes are not UTF-8 */
    CURLPOOL_NOT_URL = 29,           /* the text is not a URL */
    CURLPOOL_NOT_HTTP = 30,          /* the URL is not an http URL */
    CURLPOOL_URL_TOO_LONG = 31,      /* a URL of more than 2,048 bytes */
    CURLPOOL_SMALL = 32              /* the buffer is too small */
};

/* Flags of an acquire. */
enum {
    CURLPOOL_FRESH = 1,       /* only a new connection will do (CURLOPT_FRESH_CONNECT) */
    CURLPOOL_FORBID_REUSE = 2 /* the connection is closed after this use (CURLOPT_FORBID_REUSE) */
};

/* How the end of a body is found (RFC 9112, section 6.3). */
enum {
    CURLPOOL_NO_BODY = 0,
    CURLPOOL_COUNTED = 1,
    CURLPOOL_CHUNKED = 2,
    CURLPOOL_UNTIL_CLOSE = 3,
    CURLPOOL_FAULTY = 4
};

/* A pool, in memory of yours. */
typedef struct curlpool {
    bool there;
    void *held;
} curlpool;

/* What decides whether a connection persists after its response (RFC 9112, sections 9.3 and 9.6). */
struct curlpool_facts {
    uint32_t version;   /* 0 for HTTP/1.0, 1 for HTTP/1.1 */
    uint32_t framing;   /* one of CURLPOOL_NO_BODY to CURLPOOL_FAULTY */
    bool close;         /* the response has the connection option `close` */
    bool keep_alive;    /* the response has the connection option `keep-alive` */
    bool request_close; /* the request had the connection option `close` */
    bool both_lengths;  /* the response has both Transfer-Encoding and Content-Length */
    bool upgraded;      /* the response's status is 101 */
    bool whole;         /* all of the response was read */
    bool surplus;       /* bytes came after the response's end */
};

/* What the bytes of a response tell so far. */
struct curlpool_response {
    uint64_t body_length; /* how many bytes of the body have come */
    uint32_t status;      /* of the final head; 0 before it has come */
    uint32_t version;
    uint32_t framing;
    bool persists; /* the connection may be used again */
    bool whole;
    bool surplus;
};

/* The counts of a site at a moment. */
struct curlpool_look {
    uint32_t alive;   /* connections that are open */
    uint32_t idle;    /* those of them that are idle */
    uint32_t leased;  /* those that a transfer has */
    uint32_t waiting; /* transfers that wait */
    bool queued;      /* whether the site waits for room among all */
};

/* What happened at a site since the pool was opened. */
struct curlpool_counts {
    uint64_t opened; /* connections that were opened */
    uint64_t reused; /* times that an idle connection was leased */
    uint64_t closed; /* connections that were closed */
    uint64_t waited; /* times that a transfer began to wait */
};

/* Where a URL leads to: a host of so many bytes, and behind it a path with its query. */
struct curlpool_target {
    size_t host_length;
    size_t path_length;
    uint16_t port;
};

/* Opens a pool of so many sites, at most 1,024: at most `host_limit` connections are open to one site, at most `total`
 * to all, and at most `connects` are kept open after their use. A limit is at most 65,535; 0 is none for the first
 * two.
 *
 * OK; ALREADY_OPEN; BAD_LIMIT; NO_MEMORY. */
uint32_t curlpool_open(curlpool *pool, uint32_t hosts, uint32_t host_limit, uint32_t total, uint32_t connects);

/* Tells the site of a host: its own, or else the next one that no host has, or else one where no connection is open and
 * nobody waits, which is the host's own from then on. Hosts are compared byte by byte: `curlpool_target` gives them in
 * one form. Ask again before each acquire, since a site without connections may be given to another host.
 *
 * OK; FULL; NOT_TEXT; NO_MEMORY; CLOSED. */
uint32_t curlpool_site(curlpool *pool, const uint8_t *host, size_t host_length, uint16_t port, uint32_t *site);

/* Acquires a connection of a site for a transfer, or begins its wait, and tells the slot that has it from then on.
 *
 * `transfer` is a number of yours that has nothing at this site yet. `lane` is a number for all that has to match
 * beside host and port, such as credentials or a proxy. A connection that was idle for more than `max_age` seconds, or
 * was opened more than `max_life` seconds ago (0: no limit), is not used. `flags` are CURLPOOL_FRESH and
 * CURLPOOL_FORBID_REUSE.
 *
 * NEW: dial, then `curlpool_attach`. REUSED: `token` is the connection's. WAIT: see `curlpool_granted`.
 * BAD_SITE; BUSY; EXHAUSTED; BAD_VALUE; NO_MEMORY; CLOSED. */
uint32_t curlpool_acquire(curlpool *pool, uint32_t site, uint64_t transfer, uint32_t lane, uint64_t max_age,
                          uint64_t max_life, uint32_t flags, uint64_t now, uint64_t *slot, uint64_t *token);

/* Gives the new connection of a slot its token. Until then it cannot be given back, but it can be abandoned.
 *
 * OK; STRANGER; ATTACHED; NO_MEMORY, and then the socket is still yours alone; CLOSED. */
uint32_t curlpool_attach(curlpool *pool, uint64_t slot, uint64_t token);

/* Tells what the slot has: NEW, REUSED with its token, or WAIT. A waiter's connection is claimed, if it has one.
 *
 * NEW; REUSED; WAIT; STRANGER; CLOSED. A connection whose token was attached is told as REUSED. */
uint32_t curlpool_claim(curlpool *pool, uint64_t slot, uint64_t *token);

/* Tells the slot of a waiter that has its connection since the last call; `curlpool_claim` says which. Call it after
 * connections came back, until it answers NONE: so no waiter is asked in vain.
 *
 * OK; NONE; CLOSED. */
uint32_t curlpool_granted(curlpool *pool, uint64_t *slot);

/* Begins the response that is read for the slot's connection: to a GET, or to a HEAD, whose request had the connection
 * option `close` or not. One that was begun before is forgotten.
 *
 * OK; STRANGER; NO_MEMORY; CLOSED. */
uint32_t curlpool_begin(curlpool *pool, uint64_t slot, bool is_head, bool request_close);

/* Reads one piece more of that response. Feed all bytes that come, also those after its end.
 *
 * MORE; WHOLE; UNREAD, if none was begun for the slot's connection; ENDED; BAD_HEAD, BAD_LENGTH, BAD_CHUNK,
 * HEAD_TOO_LONG, TOO_MANY_INTERIMS or TRAILER_TOO_LONG, of a response that cannot be read, and then the same again;
 * CLOSED. It takes no memory. */
uint32_t curlpool_feed(curlpool *pool, uint64_t slot, const uint8_t *bytes, size_t length);

/* Tells that the response's connection has ended, which is the end of a body without a length.
 *
 * OK; UNREAD; CLOSED. */
uint32_t curlpool_end(curlpool *pool, uint64_t slot);

/* Tells what the response says so far. It has no length of the head: if you need it, feed a response up to each line end,
 * until `status` is not 0. All that was fed is its heads then, an interim one of a status from 100 to 199 among them.
 *
 * OK; UNREAD; CLOSED. */
uint32_t curlpool_response(curlpool *pool, uint64_t slot, struct curlpool_response *response);

/* Gives the slot's connection back with the facts of the bytes that were fed: it becomes idle, or is closed. The slot
 * has nothing from then on.
 *
 * OK; UNREAD; STRANGER; UNATTACHED; CLOSED. */
uint32_t curlpool_give_back(curlpool *pool, uint64_t slot, uint64_t now);

/* Gives it back with facts of your own parser.
 *
 * OK; STRANGER; UNATTACHED; BAD_VALUE; CLOSED. */
uint32_t curlpool_give_back_as(curlpool *pool, uint64_t slot, const struct curlpool_facts *facts, uint64_t now);

/* Closes the slot's connection. The slot has nothing from then on. A socket without a token is yours to close.
 *
 * OK; STRANGER; CLOSED. */
uint32_t curlpool_abandon(curlpool *pool, uint64_t slot, uint64_t now);

/* Ends the wait of the slot. The slot has nothing from then on.
 *
 * OK; STRANGER; CLOSED. */
uint32_t curlpool_withdraw(curlpool *pool, uint64_t slot, uint64_t now);

/* Closes each idle connection that was idle for more than `max_age` seconds, or opened more than `max_life` seconds ago
 * (0: no limit), and tells how many.
 *
 * OK; CLOSED. */
uint32_t curlpool_prune(curlpool *pool, uint64_t max_age, uint64_t max_life, uint64_t now, uint32_t *closed);

/* Keeps connections alive, and tells how many. HTTP/1.1 has no way to: it changes nothing, and tells 0.
 *
 * OK; CLOSED. */
uint32_t curlpool_upkeep(curlpool *pool, uint32_t *kept);

/* Changes the most connections that may be open to the site's host.
 *
 * OK; BAD_SITE; BAD_LIMIT; LEASED; NO_MEMORY; CLOSED. */
uint32_t curlpool_set_host_limit(curlpool *pool, uint32_t site, uint32_t limit, uint64_t now);

/* Tells the counts of a site at this moment.
 *
 * OK; BAD_SITE; CLOSED. */
uint32_t curlpool_look(curlpool *pool, uint32_t site, struct curlpool_look *look);

/* Tells what happened at a site since the pool was opened. It scans what happened since its log was last taken.
 *
 * OK; BAD_SITE; CLOSED. */
uint32_t curlpool_counts(curlpool *pool, uint32_t site, struct curlpool_counts *counts);

/* Tells the token of the next connection that the pool has closed: close its socket. Call it after other calls until it
 * answers NONE. It takes no memory.
 *
 * OK; NONE; CLOSED. */
uint32_t curlpool_closed(curlpool *pool, uint64_t *token);

/* Writes what happened at a site since the last call, as lines of a transcript: as many whole lines as fit, and how
 * many bytes. The site's log is cut once all of it was told. A buffer of 128 bytes has room for any line.
 *
 * OK, all was told; MORE, call again; SMALL, the next line does not fit; NO_MEMORY or EXHAUSTED, and then too `written`
 * says how much was, since there may be no memory to cut the log; BAD_SITE; CLOSED. */
uint32_t curlpool_take_log(curlpool *pool, uint32_t site, uint8_t *buffer, size_t length, size_t *written);

/* Forgets what happened, so that the logs take no more memory: 48 bytes an event, two events a transfer.
 *
 * OK; NO_MEMORY, and then some logs are as they were; EXHAUSTED; CLOSED. */
uint32_t curlpool_drop_logs(curlpool *pool);

/* Ends all: what slots have is abandoned or withdrawn, and what is idle is closed. `curlpool_closed` then tells each
 * socket; every other call answers CLOSED. Take the logs before.
 *
 * OK; CLOSED. */
uint32_t curlpool_close_all(curlpool *pool, uint64_t now);

/* Gives all memory back. The handle is as new then.
 *
 * OK, also without a pool; MORE, and nothing is done, before `curlpool_close_all`, and while `curlpool_closed` has
 * tokens to tell. */
uint32_t curlpool_close(curlpool *pool);

/* Reads an http URL by the URL Standard's rules, without its user data and fragment: writes its host and behind it its
 * path with the query into the buffer, and their lengths and the port. The host is a name in lower case, an IPv4
 * address, or an IPv6 address in brackets.
 *
 * OK; NOT_TEXT; NOT_URL; NOT_HTTP; URL_TOO_LONG; SMALL; NO_MEMORY. */
uint32_t curlpool_target(const uint8_t *url, size_t url_length, uint8_t *buffer, size_t length,
                         struct curlpool_target *target);

/* The text of a status, as "no memory"; "unknown status" of a number that is none. */
const char *curlpool_strstatus(uint32_t status);

/* The version of the library, as CURLPOOL_VERSION. */
const char *curlpool_version(void);

#ifdef __cplusplus
}
#endif

#endif
