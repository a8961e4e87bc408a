// What serving.h and raw_load.c have in common.
#pragma once
#include <arpa/inet.h>
#include <netinet/tcp.h>
#include <stdbool.h>
#include <stdint.h>
#include <stdio.h>
#include <stdlib.h>
#include <sys/socket.h>

// Ends the program, and says why, unless that call was done.
static inline void need(bool is_done, const char *call) {
    if (!is_done) {
        perror(call);
        exit(1);
    }
}

// That port of 127.0.0.1.
static inline struct sockaddr_in place_of(uint16_t port) {
    struct sockaddr_in place = {
        .sin_family = AF_INET,
        .sin_addr.s_addr = htonl(INADDR_LOOPBACK),
        .sin_port = htons(port),
    };
    return place;
}

// Has each write go out at once.
static inline void send_at_once(int connection) {
    int yes = 1;
    need(setsockopt(connection, IPPROTO_TCP, TCP_NODELAY, &yes, sizeof yes) == 0, "setsockopt");
}
