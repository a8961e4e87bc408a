// raw_load THREADS REQUESTS PORT..: the least that a client can do which keeps its connections. It sends so many requests
// to the ports of 127.0.0.1 in turn; each thread sends one after another, over a connection of its own to each port, whose
// reads never wait; where nothing has come it waits in an epoll of its own. It prints what came of them.
#define _GNU_SOURCE
#include "loopback.h"
#include "threads.h"
#include <errno.h>
#include <string.h>
#include <sys/epoll.h>
#include <unistd.h>

enum { MOST_READ = 4096, MOST_WRITTEN = 128, MOST_MILLISECONDS = 10 };
static const char LENGTH[] = "Content-Length:";

// Opens a connection, of which the epoll tells whenever more has come.
static int dial(int epoll, uint16_t port) {
    struct sockaddr_in place = place_of(port);
    int connection = socket(AF_INET, SOCK_STREAM | SOCK_CLOEXEC, 0);
    need(connect(connection, (struct sockaddr *)&place, sizeof place) == 0, "connect");
    send_at_once(connection);
    struct epoll_event event = {.events = EPOLLIN | EPOLLET};
    need(epoll_ctl(epoll, EPOLL_CTL_ADD, connection, &event) == 0, "epoll_ctl");
    return connection;
}

static void send_request(int connection, long number, uint16_t port) {
    char text[MOST_WRITTEN];
    int length = sprintf(text, "GET /%ld HTTP/1.1\r\nHost: 127.0.0.1:%d\r\n\r\n", number, port);
    need(send(connection, text, (size_t)length, MSG_NOSIGNAL) == length, "send");
}

// How many bytes the body of a response has; -1 as long as the response has not come whole.
static long whole_body(const char *came, size_t count) {
    const char *end = memmem(came, count, "\r\n\r\n", 4);
    if (end == NULL) {
        return -1;
    }
    const char *field = memmem(came, (size_t)(end - came), LENGTH, sizeof LENGTH - 1);
    if (field == NULL) {
        fputs("a response does not say how long it is\n", stderr);
        exit(1);
    }
    long length = atol(field + sizeof LENGTH - 1);
    return came + count - (end + 4) >= length ? length : -1;
}

// Reads a response; how many bytes its body has.
static long read_response(int epoll, int connection) {
    char came[MOST_READ];
    size_t count = 0;
    for (;;) {
        ssize_t more = recv(connection, came + count, sizeof came - count, MSG_DONTWAIT);
        if (more < 0 && errno == EAGAIN) {
            struct epoll_event event;
            epoll_wait(epoll, &event, 1, MOST_MILLISECONDS);
            continue;
        }
        need(more > 0, "recv");
        count += (size_t)more;
        long length = whole_body(came, count);
        if (length >= 0) {
            return length;
        }
    }
}

// Sends requests until all are sent.
static void *send_some(void *load_of_all) {
    struct load *load = load_of_all;
    int connections[MOST_SITES] = {0};
    int epoll = epoll_create1(EPOLL_CLOEXEC);
    struct counts counts = {0};
    long number;
    need(epoll >= 0, "epoll_create1");
    while ((number = next_request(load)) >= 0) {
        long site = number % load->sites;
        uint16_t port = (uint16_t)atoi(load->ports[site]);
        if (connections[site] == 0) {
            connections[site] = dial(epoll, port);
            counts.opened++;
        }
        send_request(connections[site], number, port);
        counts.bytes += read_response(epoll, connections[site]);
        counts.good++;
    }
    add_counts(load, &counts);
    return NULL;
}

int main(int count, char **words) {
    return run_load("raw_load THREADS REQUESTS PORT..", count, words, send_some);
}
