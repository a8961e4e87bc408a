// server SITES: listens at so many ports of 127.0.0.1, prints them in one line, and answers each request with "ok", on
// one thread with one epoll, until its standard input ends.
#define _GNU_SOURCE
#include "serving.h"

static const char ANSWER[] = "HTTP/1.1 200 OK\r\nContent-Length: 2\r\n\r\nok";
static const ssize_t ANSWER_LENGTH = sizeof ANSWER - 1;

// Answers what has come, which is one request: on loopback it comes whole, and its client sends the next one after the
// answer. Closes the connection when its client has.
static void answer(int connection) {
    char came[MOST_READ];
    if (read(connection, came, sizeof came) <= 0 || write(connection, ANSWER, ANSWER_LENGTH) != ANSWER_LENGTH) {
        close(connection);
    }
}

int main(int count, char **words) {
    serve(count, words, answer);
    return 0;
}
