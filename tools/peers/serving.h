// What server.c and closing_server.c have in common: one thread with one epoll, which serves the connections to the
// ports of sites until its standard input ends.
#pragma once
#include "loopback.h"
#include <sys/epoll.h>
#include <unistd.h>

enum { MOST_EVENTS = 256, MOST_WAITING = 1024, MOST_READ = 65536 };

// What a descriptor is.
enum kind { INPUT, LISTENER, CONNECTION };

// Has the epoll tell whenever that descriptor can be read.
static inline void watch(int epoll, int descriptor, enum kind kind) {
    struct epoll_event event = {
        .events = EPOLLIN,
        .data.u64 = (uint64_t)kind << 32 | (uint32_t)descriptor,
    };
    need(epoll_ctl(epoll, EPOLL_CTL_ADD, descriptor, &event) == 0, "epoll_ctl");
}

// Listens at a free port, and gives its number.
static inline uint16_t listen_at_a_port(int epoll) {
    struct sockaddr_in place = place_of(0);
    socklen_t length = sizeof place;
    int listener = socket(AF_INET, SOCK_STREAM | SOCK_NONBLOCK | SOCK_CLOEXEC, 0);
    need(bind(listener, (struct sockaddr *)&place, length) == 0, "bind");
    need(listen(listener, MOST_WAITING) == 0, "listen");
    need(getsockname(listener, (struct sockaddr *)&place, &length) == 0, "getsockname");
    watch(epoll, listener, LISTENER);
    return ntohs(place.sin_port);
}

// Listens at so many ports, and prints them in one line.
static inline void listen_at_ports(int epoll, int sites) {
    for (int site = 0; site < sites; site++) {
        printf("%s%d", site > 0 ? " " : "", listen_at_a_port(epoll));
    }
    puts("");
    fflush(stdout);
}

// Accepts all connections that wait. How many these are.
static inline unsigned long accept_all(int epoll, int listener) {
    unsigned long accepted = 0;
    int connection;
    while ((connection = accept4(listener, NULL, NULL, SOCK_NONBLOCK | SOCK_CLOEXEC)) >= 0) {
        accepted++;
        send_at_once(connection);
        watch(epoll, connection, CONNECTION);
    }
    return accepted;
}

// Serves at as many sites as the first word says, or at one. `answer` is called with each connection whose client has
// sent something, or has closed it. How many connections were accepted.
static inline unsigned long serve(int count, char **words, void (*answer)(int connection)) {
    struct epoll_event events[MOST_EVENTS];
    unsigned long accepted = 0;
    int epoll = epoll_create1(EPOLL_CLOEXEC);
    need(epoll >= 0, "epoll_create1");
    watch(epoll, STDIN_FILENO, INPUT);
    listen_at_ports(epoll, count > 1 ? atoi(words[1]) : 1);
    for (;;) {
        int ready = epoll_wait(epoll, events, MOST_EVENTS, -1);
        for (int place = 0; place < ready; place++) {
            int descriptor = (int)(uint32_t)events[place].data.u64;
            enum kind kind = (enum kind)(events[place].data.u64 >> 32);
            if (kind == INPUT) {
                return accepted;
            }
            if (kind == LISTENER) {
                accepted += accept_all(epoll, descriptor);
            } else {
                answer(descriptor);
            }
        }
    }
}
