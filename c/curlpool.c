// Texts of the library. They are outside of any proof.
#include "curlpool.h"

static const char *const texts[] = {
    "ok",
    "new connection",
    "reused connection",
    "waits",
    "more",
    "whole",
    "nothing to tell",
    "no memory",
    "each site is in use",
    "stranger",
    "no open pool",
    "already open",
    "bad limit",
    "no such site",
    "transfer busy",
    "no numbers left",
    "more are leased than the limit allows",
    "no token attached",
    "token attached already",
    "no response begun",
    "the connection has ended",
    "a flag or a number stands for nothing",
    "not the head of a response",
    "no valid content length",
    "not a valid chunk",
    "a head of more than 16384 bytes or 100 fields",
    "more than 8 interim heads",
    "a trailer section of more than 8192 bytes or 100 fields",
    "not UTF-8",
    "not a URL",
    "not an http URL",
    "a URL of more than 2048 bytes",
    "the buffer is too small",
};

const char *curlpool_strstatus(uint32_t status) {
    return status < sizeof texts / sizeof *texts ? texts[status] : "unknown status";
}

const char *curlpool_version(void) {
    return CURLPOOL_VERSION;
}
