/* Counts a program's calls of some functions of the C library, as a library to preload. A tracer would stop a thread at
   each call, and so change which thread uses a connection next. At the end of the program a line for each function, its
   name and its count, is written to the file that the environment variable CALLS names. */
#define _GNU_SOURCE
#include <dlfcn.h>
#include <poll.h>
#include <stdatomic.h>
#include <stdio.h>
#include <stdlib.h>
#include <sys/epoll.h>
#include <sys/socket.h>
#include <sys/syscall.h>
#include <time.h>
#include <unistd.h>

/* a count on a separate cache line */
struct count {
    _Alignas(64) atomic_ulong calls;
    const char *name;
};

enum { CLOCK, EPOLL_CTL, EPOLL_WAIT, POLL, READ, RECV, SEND, WRITE, FUNCTIONS };

static struct count counts[FUNCTIONS] = {
    {0, "clock_gettime"}, {0, "epoll_ctl"}, {0, "epoll_wait"}, {0, "poll"},
    {0, "read"}, {0, "recv"}, {0, "send"}, {0, "write"},
};

#define COUNTED(place, type, name, parameters, arguments)                                   \
    type name parameters {                                                                  \
        static type(*_Atomic next) parameters;                                              \
        type(*found) parameters = atomic_load_explicit(&next, memory_order_relaxed);        \
        if (!found) {                                                                       \
            found = (type(*) parameters)dlsym(RTLD_NEXT, #name);                            \
            atomic_store_explicit(&next, found, memory_order_relaxed);                      \
        }                                                                                   \
        atomic_fetch_add_explicit(&counts[place].calls, 1, memory_order_relaxed);           \
        return found arguments;                                                             \
    }

COUNTED(CLOCK, int, clock_gettime, (clockid_t clock, struct timespec *time), (clock, time))
COUNTED(EPOLL_CTL, int, epoll_ctl, (int poll, int what, int file, struct epoll_event *event), (poll, what, file, event))
COUNTED(EPOLL_WAIT, int, epoll_wait, (int poll, struct epoll_event *events, int most, int timeout),
        (poll, events, most, timeout))
COUNTED(POLL, int, poll, (struct pollfd *files, nfds_t count, int timeout), (files, count, timeout))
COUNTED(READ, ssize_t, read, (int file, void *bytes, size_t length), (file, bytes, length))
COUNTED(RECV, ssize_t, recv, (int socket, void *bytes, size_t length, int flags), (socket, bytes, length, flags))
COUNTED(SEND, ssize_t, send, (int socket, const void *bytes, size_t length, int flags), (socket, bytes, length, flags))
COUNTED(WRITE, ssize_t, write, (int file, const void *bytes, size_t length), (file, bytes, length))

static void write_counts(void) {
    const char *path = getenv("CALLS");
    unsigned long calls[FUNCTIONS];
    for (int place = 0; place < FUNCTIONS; place++)
        calls[place] = atomic_load(&counts[place].calls);
    FILE *file = path ? fopen(path, "w") : NULL;
    if (!file)
        return;
    for (int place = 0; place < FUNCTIONS; place++)
        fprintf(file, "%s %lu\n", counts[place].name, calls[place]);
    fclose(file);
}

/* Rattle's programs end by this call, which runs no destructor */
void _exit(int status) {
    write_counts();
    syscall(SYS_exit_group, status);
    __builtin_unreachable();
}
