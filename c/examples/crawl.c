// A crawler: fetches many http URLs over nonblocking sockets, one thread and epoll, and keeps connections by curlpool.
//
//     crawl [-n AT_ONCE] [-h A_HOST] [-t TOTAL] [-m SECONDS] [-p] [FILE]
//
// FILE, or standard input, has a URL a line. At most AT_ONCE transfers (64) are under way at once, at most A_HOST
// connections (6) are open to one host, and TOTAL (64) in all; a transfer may take SECONDS (30). Bodies are read and not
// kept. -p shows a progress line. The last line is a summary; the status is 0 if each URL was fetched.
#define _GNU_SOURCE
#include <curlpool.h>
#include <errno.h>
#include <fcntl.h>
#include <netdb.h>
#include <netinet/in.h>
#include <netinet/tcp.h>
#include <stdio.h>
#include <stdlib.h>
#include <string.h>
#include <sys/epoll.h>
#include <sys/socket.h>
#include <time.h>
#include <unistd.h>

enum { MAX_AGE = 118, EVENTS = 256, PIECE = 65536, MOST_FDS = 65536, CUT_EVERY = 4096 };

typedef enum { VACANT, WAITING, SENDING, READING } state;

// A transfer: its URL, read, and the request that asks for it.
typedef struct {
    state state;
    bool reused, retried, has_bytes;
    uint16_t port;
    int fd;
    uint64_t number, slot, until;
    char host[256], request[8192];
    size_t length, sent;
} transfer;

static curlpool pool;
static int events;
static transfer *transfers, **by_slot, *by_fd[MOST_FDS];
static size_t at_once = 64, slots, active;
static uint64_t begun, done, failed, opened, reused, seconds = 30;
static FILE *urls;

static uint64_t now(void) {
    struct timespec time;
    clock_gettime(CLOCK_MONOTONIC, &time);
    return (uint64_t)time.tv_sec;
}

static void give_up(const char *what, uint32_t status) {
    fprintf(stderr, "crawl: %s: %s\n", what, curlpool_strstatus(status));
    exit(2);
}

// Closes the sockets of the connections that the pool has closed.
static void close_told(void) {
    for (uint64_t token; curlpool_closed(&pool, &token) == CURLPOOL_OK;) {
        by_fd[token] = NULL;
        close((int)token);
    }
}

// The transfer is over: its place is vacant.
static void end(transfer *it, bool is_fetched) {
    *(is_fetched ? &done : &failed) += 1;
    it->state = VACANT;
    active--;
    if ((done + failed) % CUT_EVERY == 0) curlpool_drop_logs(&pool);
}

static void start(transfer *it, uint32_t flags);

// The connection is of no use. Once, if the server closed it while it was idle, another one is tried.
static void fail(transfer *it) {
    bool is_stale = it->reused && !it->has_bytes && !it->retried;
    curlpool_abandon(&pool, it->slot, now());
    close_told();
    if (is_stale) {
        it->retried = true;
        start(it, CURLPOOL_FRESH);
    } else {
        end(it, false);
    }
}

// All of the response has come, or its connection has ended.
static void finish(transfer *it) {
    struct curlpool_response response;
    bool is_whole = curlpool_response(&pool, it->slot, &response) == CURLPOOL_OK && response.whole;
    by_fd[it->fd] = NULL;
    if (curlpool_give_back(&pool, it->slot, now()) != CURLPOOL_OK) curlpool_abandon(&pool, it->slot, now());
    close_told();
    end(it, is_whole);
}

static void receive(transfer *it) {
    static uint8_t piece[PIECE];
    for (;;) {
        ssize_t length = recv(it->fd, piece, sizeof piece, 0);
        if (length < 0) {
            if (errno != EAGAIN && errno != EINTR) fail(it);
            return;
        }
        if (length == 0) {
            if (!it->has_bytes) {
                fail(it);
                return;
            }
            curlpool_end(&pool, it->slot);
            finish(it);
            return;
        }
        it->has_bytes = true;
        uint32_t status = curlpool_feed(&pool, it->slot, piece, (size_t)length);
        if (status == CURLPOOL_WHOLE) {
            finish(it);
            return;
        }
        if (status != CURLPOOL_MORE) {
            fail(it);
            return;
        }
    }
}

static void send_on(transfer *it) {
    while (it->sent < it->length) {
        ssize_t sent = send(it->fd, it->request + it->sent, it->length - it->sent, MSG_NOSIGNAL);
        if (sent < 0) {
            if (errno != EAGAIN && errno != EINTR) fail(it);
            return;
        }
        it->sent += (size_t)sent;
    }
    it->state = READING;
}

// The connection is there: the response is read from here on.
static void use(transfer *it, int fd, bool is_reused) {
    it->fd = fd;
    it->reused = is_reused;
    it->has_bytes = false;
    it->sent = 0;
    it->state = SENDING;
    by_fd[fd] = it;
    uint32_t status = curlpool_begin(&pool, it->slot, false, false);
    if (status != CURLPOOL_OK) give_up("begin", status);
    if (is_reused) send_on(it);
}

// A socket that connects, or -1.
static int dial(const transfer *it) {
    char port[8], host[256];
    struct addrinfo hints = {.ai_socktype = SOCK_STREAM}, *found;
    size_t length = strlen(it->host);
    bool is_bracketed = length > 2 && it->host[0] == '[';
    snprintf(port, sizeof port, "%u", it->port);
    snprintf(host, sizeof host, "%.*s", (int)(length - 2 * is_bracketed), it->host + is_bracketed);
    hints.ai_flags = AI_NUMERICHOST;
    if (getaddrinfo(host, port, &hints, &found) != 0) {
        hints.ai_flags = 0;
        if (getaddrinfo(host, port, &hints, &found) != 0) return -1;
    }
    int fd = socket(found->ai_family, SOCK_STREAM | SOCK_NONBLOCK | SOCK_CLOEXEC, 0), one = 1;
    if (fd >= 0 && fd < MOST_FDS) setsockopt(fd, IPPROTO_TCP, TCP_NODELAY, &one, sizeof one);
    bool is_begun = fd >= 0 && fd < MOST_FDS
        && (connect(fd, found->ai_addr, found->ai_addrlen) == 0 || errno == EINPROGRESS);
    freeaddrinfo(found);
    if (is_begun) return fd;
    if (fd >= 0) close(fd);
    return -1;
}

// Dials a new connection. From the attach on its socket is closed only once the pool tells it.
static void use_new(transfer *it) {
    struct epoll_event event = {.events = EPOLLIN | EPOLLOUT | EPOLLRDHUP | EPOLLET};
    int fd = dial(it);
    event.data.fd = fd;
    if (fd < 0 || curlpool_attach(&pool, it->slot, (uint64_t)fd) != CURLPOOL_OK) {
        if (fd >= 0) close(fd);
        curlpool_abandon(&pool, it->slot, now());
        end(it, false);
        return;
    }
    opened++;
    if (epoll_ctl(events, EPOLL_CTL_ADD, fd, &event) != 0) give_up("epoll_ctl", CURLPOOL_NO_MEMORY);
    use(it, fd, false);
}

// Uses a connection that was idle, unless its server has closed it or sent what nobody asked for.
static void use_idle(transfer *it, int fd) {
    char byte;
    if (recv(fd, &byte, 1, MSG_PEEK | MSG_DONTWAIT) >= 0 || errno != EAGAIN) {
        curlpool_abandon(&pool, it->slot, now());
        close_told();
        start(it, CURLPOOL_FRESH);
        return;
    }
    reused++;
    use(it, fd, true);
}

static void use_what(transfer *it, uint32_t status, uint64_t token) {
    if (status == CURLPOOL_NEW) {
        use_new(it);
    } else if (status == CURLPOOL_REUSED) {
        use_idle(it, (int)token);
    }
}

// The transfer with that slot waits.
static void note_waiter(transfer *it) {
    size_t place = it->slot & 0xffffffff;
    if (place >= slots) {
        by_slot = realloc(by_slot, (place + 64) * sizeof *by_slot);
        if (by_slot == NULL) give_up("waiters", CURLPOOL_NO_MEMORY);
        slots = place + 64;
    }
    by_slot[place] = it;
    it->state = WAITING;
}

// Acquires a connection for the transfer.
static void start(transfer *it, uint32_t flags) {
    uint32_t site, status;
    uint64_t token;
    status = curlpool_site(&pool, (const uint8_t *)it->host, strlen(it->host), it->port, &site);
    if (status == CURLPOOL_OK) {
        status = curlpool_acquire(&pool, site, it->number, 0, MAX_AGE, 0, flags, now(), &it->slot, &token);
        close_told();
    }
    if (status == CURLPOOL_WAIT) {
        note_waiter(it);
    } else if (status == CURLPOOL_NEW || status == CURLPOOL_REUSED) {
        use_what(it, status, token);
    } else {
        end(it, false);
    }
}

// Begins the transfer of a URL.
static void begin(transfer *it, const char *url, size_t length) {
    static uint8_t text[8192];
    struct curlpool_target to;
    *it = (transfer){.state = SENDING, .number = ++begun, .until = now() + seconds};
    active++;
    if (curlpool_target((const uint8_t *)url, length, text, sizeof text, &to) != CURLPOOL_OK
        || to.host_length >= sizeof it->host) {
        end(it, false);
        return;
    }
    it->port = to.port;
    memcpy(it->host, text, to.host_length);
    int size = snprintf(it->request, sizeof it->request, "GET %.*s HTTP/1.1\r\nHost: %s:%u\r\nUser-Agent: crawl\r\n\r\n",
                        (int)to.path_length, (char *)text + to.host_length, it->host, it->port);
    it->length = (size_t)size;
    if (it->length >= sizeof it->request) {
        end(it, false);
        return;
    }
    start(it, 0);
}

// Begins transfers in vacant places while there are URLs; whether any may be left.
static bool begin_some(void) {
    static char *line;
    static size_t room;
    for (size_t place = 0; place < at_once && active < at_once; place++) {
        while (transfers[place].state == VACANT) {
            ssize_t length = getline(&line, &room, urls);
            if (length < 0) return false;
            while (length > 0 && strchr("\r\n", line[length - 1])) length--;
            if (length > 0) begin(&transfers[place], line, (size_t)length);
        }
    }
    return true;
}

// Waiters that have their connections go on.
static void go_on(void) {
    uint64_t slot, token;
    while (curlpool_granted(&pool, &slot) == CURLPOOL_OK) {
        uint32_t status = curlpool_claim(&pool, slot, &token);
        use_what(by_slot[slot & 0xffffffff], status, token);
    }
}

// What takes too long has failed.
static void end_late(void) {
    for (size_t place = 0; place < at_once; place++) {
        transfer *it = &transfers[place];
        if (it->state == VACANT || it->until >= now()) continue;
        it->retried = true;
        if (it->state == WAITING) {
            curlpool_withdraw(&pool, it->slot, now());
            end(it, false);
        } else {
            fail(it);
        }
    }
}

static void handle(const struct epoll_event *event) {
    transfer *it = by_fd[event->data.fd];
    if (it == NULL) return;
    if (it->state == SENDING && event->events & EPOLLERR) {
        fail(it);
        return;
    }
    if (it->state == SENDING && event->events & EPOLLOUT) send_on(it);
    if (by_fd[event->data.fd] == it && it->state == READING && event->events & (EPOLLIN | EPOLLRDHUP | EPOLLHUP)) {
        receive(it);
    }
}

static void run(bool shows_progress) {
    struct epoll_event found[EVENTS];
    uint64_t shown = 0;
    while (begin_some() || active > 0) {
        int count = epoll_wait(events, found, EVENTS, active > 0 ? 1000 : 0);
        for (int i = 0; i < count; i++) handle(&found[i]);
        go_on();
        if (now() == shown) continue;
        shown = now();
        end_late();
        if (shows_progress) fprintf(stderr, "\r%ju done, %ju failed, %zu active", done, failed, active);
    }
    if (shows_progress) fprintf(stderr, "\r\033[K");
}

int main(int count, char **words) {
    uint32_t a_host = 6, total = 64;
    bool shows_progress = false;
    for (int option; (option = getopt(count, words, "n:h:t:m:p")) != -1;) {
        if (option == 'n') at_once = strtoul(optarg, NULL, 10);
        else if (option == 'h') a_host = (uint32_t)strtoul(optarg, NULL, 10);
        else if (option == 't') total = (uint32_t)strtoul(optarg, NULL, 10);
        else if (option == 'm') seconds = strtoul(optarg, NULL, 10);
        else if (option == 'p') shows_progress = true;
        else return 2;
    }
    urls = optind < count ? fopen(words[optind], "r") : stdin;
    transfers = at_once > 0 ? calloc(at_once, sizeof *transfers) : NULL;
    events = epoll_create1(EPOLL_CLOEXEC);
    if (urls == NULL || transfers == NULL || events < 0) {
        perror("crawl");
        return 2;
    }
    uint32_t status = curlpool_open(&pool, 1024, a_host, total, total > 0 ? total : 1024);
    if (status != CURLPOOL_OK) give_up("open", status);
    struct timespec from, to;
    clock_gettime(CLOCK_MONOTONIC, &from);
    run(shows_progress);
    clock_gettime(CLOCK_MONOTONIC, &to);
    curlpool_close_all(&pool, now());
    close_told();
    if (curlpool_close(&pool) != CURLPOOL_OK) give_up("close", CURLPOOL_MORE);
    double took = (double)(to.tv_sec - from.tv_sec) + (double)(to.tv_nsec - from.tv_nsec) / 1e9;
    printf("%ju fetched, %ju failed, %ju connections opened, %ju reused, %.2f s, %.0f a second\n", done, failed, opened,
           reused, took, (double)(done + failed) / took);
    free(transfers);
    free(by_slot);
    return failed > 0;
}
