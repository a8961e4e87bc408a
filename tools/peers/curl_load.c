// curl_load THREADS REQUESTS PORT..: libcurl by its easy interface, with one handle for each thread, whose cache keeps the
// connections. It sends so many requests to the ports of 127.0.0.1 in turn, each thread one after another, and prints
// what came of them.
#include "threads.h"
#include <curl/curl.h>

enum { MOST_URL = 80 };
static const long MOST_KEPT = 64;

// Counts the bytes of a piece of a body.
static size_t count_bytes(char *piece, size_t size, size_t count, void *bytes) {
    (void)piece;
    *(long *)bytes += (long)(size * count);
    return size * count;
}

// A handle that adds the bytes of all bodies there.
static CURL *new_handle(long *bytes) {
    CURL *handle = curl_easy_init();
    curl_easy_setopt(handle, CURLOPT_WRITEFUNCTION, count_bytes);
    curl_easy_setopt(handle, CURLOPT_WRITEDATA, bytes);
    curl_easy_setopt(handle, CURLOPT_NOSIGNAL, 1L);
    curl_easy_setopt(handle, CURLOPT_PROXY, "");
    curl_easy_setopt(handle, CURLOPT_HTTP_VERSION, (long)CURL_HTTP_VERSION_1_1);
    curl_easy_setopt(handle, CURLOPT_MAXCONNECTS, MOST_KEPT);
    return handle;
}

// Sends requests until all are sent.
static void *send_some(void *load_of_all) {
    struct load *load = load_of_all;
    struct counts counts = {0};
    CURL *handle = new_handle(&counts.bytes);
    long number;
    while ((number = next_request(load)) >= 0) {
        char url[MOST_URL];
        long connects = 0;
        snprintf(url, sizeof url, "http://127.0.0.1:%s/%ld", load->ports[number % load->sites], number);
        curl_easy_setopt(handle, CURLOPT_URL, url);
        counts.good += curl_easy_perform(handle) == CURLE_OK;
        curl_easy_getinfo(handle, CURLINFO_NUM_CONNECTS, &connects);
        counts.opened += connects;
    }
    curl_easy_cleanup(handle);
    add_counts(load, &counts);
    return NULL;
}

int main(int count, char **words) {
    curl_global_init(CURL_GLOBAL_ALL);
    return run_load("curl_load THREADS REQUESTS PORT..", count, words, send_some);
}
