// closing_server SITES: listens at so many ports of 127.0.0.1, prints them in one line, and answers the request of
// path /N with N modulo 1000 bytes. It closes the connection of each tenth request, in turn before it answers and
// after. At the end of its standard input it prints how many connections it accepted, how many requests it answered,
// and how many it closed a connection before and after.
#define _GNU_SOURCE
#include "serving.h"
#include <string.h>

enum { BODIES = 1000, CLOSES_EACH = 10 };

static unsigned long answered, closed_before, closed_after, requests;

// Sends the answer to the request of that number; whether it could. It fits into the socket's buffer.
static bool send_answer(int connection, unsigned long number) {
    char answer[2 * BODIES];
    int body = (int)(number % BODIES);
    int head = snprintf(answer, sizeof answer, "HTTP/1.1 200 OK\r\nContent-Length: %d\r\n\r\n", body);
    memset(answer + head, 'x', (size_t)body);
    return write(connection, answer, (size_t)(head + body)) == head + body;
}

// Answers what has come, which is one request: on loopback it comes whole, and its client sends the next one after the
// answer. Closes the connection when its client has, and at each tenth request.
static void answer(int connection) {
    char came[MOST_READ];
    ssize_t length = read(connection, came, sizeof came - 1);
    if (length <= 0) {
        close(connection);
        return;
    }
    came[length] = 0;
    unsigned long number = 0;
    need(sscanf(came, "GET /%lu HTTP/1.1\r\n", &number) == 1 && strstr(came, "\r\n\r\n") == came + length - 4, "a request");
    requests++;
    if (requests % (2 * CLOSES_EACH) == 0) {
        closed_before++;
        close(connection);
        return;
    }
    if (!send_answer(connection, number)) {
        close(connection);
        return;
    }
    answered++;
    if (requests % (2 * CLOSES_EACH) == CLOSES_EACH) {
        closed_after++;
        close(connection);
    }
}

int main(int count, char **words) {
    unsigned long accepted = serve(count, words, answer);
    printf("accepted %lu answered %lu closed before %lu after %lu\n", accepted, answered, closed_before, closed_after);
    return 0;
}
