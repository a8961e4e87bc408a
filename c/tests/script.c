// Runs a script (docs/scripts.md) by the library for C, and writes its transcript: script < SCRIPT.
#include "curlpool.h"
#include <stdio.h>
#include <stdlib.h>
#include <string.h>

enum { SITES = 64, TRANSFERS = 32, MAX_AGE = 118 };

static curlpool pool;
static uint32_t sites;
static uint64_t slots[SITES][TRANSFERS], last_token;
static unsigned connections[SITES][TRANSFERS];
static bool is_waiter[SITES][TRANSFERS];

static void stop(const char *what) {
    fprintf(stderr, "script: %s\n", what);
    exit(1);
}

static void want(uint32_t status, uint32_t wanted) {
    if (status != wanted) stop(curlpool_strstatus(status));
}

static void refuse(const char *word) {
    printf("refused %s\n", word);
}

// Writes what happened at a site, and notes which transfer has which connection.
static void tell_site(uint32_t site) {
    char text[4096];
    size_t written;
    uint32_t status;
    do {
        status = curlpool_take_log(&pool, site, (uint8_t *)text, sizeof text - 1, &written);
        if (status != CURLPOOL_OK && status != CURLPOOL_MORE) stop("a log is not told");
        text[written] = 0;
        fputs(text, stdout);
        for (char *line = strtok(text, "\n"); line; line = strtok(NULL, "\n")) {
            unsigned host, connection, transfer;
            if (sscanf(line, "opened %u.%u for %u", &host, &connection, &transfer) == 3
                || sscanf(line, "leased %u.%u to %u", &host, &connection, &transfer) == 3) {
                connections[host][transfer] = connection;
            }
        }
    } while (status == CURLPOOL_MORE);
}

static void tell(void) {
    for (uint32_t site = 0; site < sites; site++) tell_site(site);
    for (uint64_t token; curlpool_closed(&pool, &token) == CURLPOOL_OK;) {
    }
}

static void attach(uint64_t slot) {
    want(curlpool_attach(&pool, slot, ++last_token), CURLPOOL_OK);
}

// The options of a get, and what comes of it.
static void get(unsigned transfer, uint32_t site, uint32_t lane, uint64_t moment, char *options) {
    uint64_t age = MAX_AGE, life = 0, slot, token;
    uint32_t flags = 0;
    for (char *word = strtok(options, " "); word; word = strtok(NULL, " ")) {
        if (strcmp(word, "age") == 0) age = strtoull(strtok(NULL, " "), NULL, 10);
        else if (strcmp(word, "life") == 0) life = strtoull(strtok(NULL, " "), NULL, 10);
        else if (strcmp(word, "fresh") == 0) flags |= CURLPOOL_FRESH;
        else if (strcmp(word, "forbid") == 0) flags |= CURLPOOL_FORBID_REUSE;
        else stop(word);
    }
    uint32_t status = curlpool_acquire(&pool, site, transfer, lane, age, life, flags, moment, &slot, &token);
    if (status == CURLPOOL_BAD_SITE) {
        refuse("bad-site");
        return;
    }
    if (status == CURLPOOL_BUSY) {
        refuse("busy");
        return;
    }
    if (status == CURLPOOL_NEW) attach(slot);
    else if (status != CURLPOOL_REUSED && status != CURLPOOL_WAIT) stop(curlpool_strstatus(status));
    slots[site][transfer] = slot;
    is_waiter[site][transfer] = status == CURLPOOL_WAIT;
}

static uint64_t slot_of(uint32_t site, unsigned transfer) {
    return site < SITES && transfer < TRANSFERS ? slots[site][transfer] : 0;
}

static void claim(unsigned transfer, uint32_t site) {
    uint64_t slot = slot_of(site, transfer), token;
    uint32_t status = curlpool_claim(&pool, slot, &token);
    // a connection that was claimed is told again; to the script it is a stranger's
    if (status == CURLPOOL_STRANGER || !is_waiter[site][transfer]) {
        refuse("stranger");
        return;
    }
    if (status == CURLPOOL_WAIT) {
        puts("still waiting");
        return;
    }
    if (status == CURLPOOL_NEW) attach(slot);
    is_waiter[site][transfer] = false;
    printf("claimed %u.%u\n", site, connections[site][transfer]);
}

static void back(unsigned transfer, uint32_t site, const char *kind, uint64_t moment) {
    struct curlpool_facts facts = {.version = 1, .framing = CURLPOOL_COUNTED, .whole = true};
    if (strcmp(kind, "close") == 0) facts.close = true;
    else if (strcmp(kind, "old") == 0) facts.version = 0;
    else if (strcmp(kind, "old-keep") == 0) facts.version = 0, facts.keep_alive = true;
    else if (strcmp(kind, "eof") == 0) facts.framing = CURLPOOL_UNTIL_CLOSE;
    else if (strcmp(kind, "cut") == 0) facts.whole = false;
    else if (strcmp(kind, "surplus") == 0) facts.surplus = true;
    uint32_t status = curlpool_give_back_as(&pool, slot_of(site, transfer), &facts, moment);
    if (status == CURLPOOL_STRANGER) {
        refuse("stranger");
        return;
    }
    want(status, CURLPOOL_OK);
}

static void limit(uint32_t site, uint32_t most, uint64_t moment) {
    struct curlpool_look look;
    uint32_t status = curlpool_set_host_limit(&pool, site, most, moment);
    if (status == CURLPOOL_BAD_SITE) {
        refuse("bad-site");
        return;
    }
    if (status == CURLPOOL_BAD_LIMIT) {
        refuse("bad-limit");
        return;
    }
    if (status == CURLPOOL_LEASED) {
        want(curlpool_look(&pool, site, &look), CURLPOOL_OK);
        printf("refused leased %u\n", look.leased);
        return;
    }
    want(status, CURLPOOL_OK);
}

static void look_at(uint32_t site) {
    struct curlpool_look look;
    if (curlpool_look(&pool, site, &look) == CURLPOOL_BAD_SITE) {
        refuse("bad-site");
        return;
    }
    printf("host %u open %u idle %u leased %u waiting %u queued %s\n", site, look.alive, look.idle, look.leased,
           look.waiting, look.queued ? "yes" : "no");
}

static void command(char *line) {
    unsigned transfer, most, site, lane;
    unsigned long long moment, age, life;
    uint32_t number;
    char kind[16];
    int end = 0;
    if (sscanf(line, "get %u %u %u at %llu%n", &transfer, &site, &lane, &moment, &end) == 4) {
        get(transfer, site, lane, moment, line + end);
    } else if (sscanf(line, "claim %u %u", &transfer, &site) == 2) {
        claim(transfer, site);
    } else if (sscanf(line, "back %u %u %15s at %llu", &transfer, &site, kind, &moment) == 4) {
        back(transfer, site, kind, moment);
    } else if (sscanf(line, "drop %u %u at %llu", &transfer, &site, &moment) == 3) {
        if (curlpool_abandon(&pool, slot_of(site, transfer), moment) == CURLPOOL_STRANGER) refuse("stranger");
    } else if (sscanf(line, "leave %u %u at %llu", &transfer, &site, &moment) == 3) {
        if (curlpool_withdraw(&pool, slot_of(site, transfer), moment) == CURLPOOL_STRANGER) refuse("stranger");
    } else if (sscanf(line, "limit %u %u at %llu", &site, &most, &moment) == 3) {
        limit(site, most, moment);
    } else if (sscanf(line, "prune %llu %llu at %llu", &age, &life, &moment) == 3) {
        want(curlpool_prune(&pool, age, life, moment, &number), CURLPOOL_OK);
    } else if (strcmp(line, "upkeep") == 0) {
        want(curlpool_upkeep(&pool, &number), CURLPOOL_OK);
        printf("upkeep %u\n", number);
    } else if (sscanf(line, "look %u", &site) == 1) {
        look_at(site);
    } else {
        stop(line);
    }
    tell();
}

// Opens the pool of so many hosts, and gives each its site.
static void open_pool(const unsigned limits[3], uint32_t count) {
    want(curlpool_open(&pool, count, limits[0], limits[1], limits[2]), CURLPOOL_OK);
    for (sites = 0; sites < count; sites++) {
        char host[32];
        uint32_t site;
        int length = snprintf(host, sizeof host, "h%u.test", sites);
        want(curlpool_site(&pool, (uint8_t *)host, (size_t)length, 80, &site), CURLPOOL_OK);
        if (site != sites) stop("another site");
    }
}

int main(void) {
    char line[2400];
    unsigned limits[3];
    uint32_t count = 0;
    while (fgets(line, sizeof line, stdin)) {
        line[strcspn(line, "\n")] = 0;
        if (sscanf(line, "limits %u %u %u", &limits[0], &limits[1], &limits[2]) == 3) continue;
        if (strncmp(line, "site ", 5) == 0) {
            count++;
            continue;
        }
        if (!pool.there) open_pool(limits, count);
        command(line);
    }
    if (!pool.there) open_pool(limits, count);
    want(curlpool_close_all(&pool, 0), CURLPOOL_OK);
    for (uint64_t token; curlpool_closed(&pool, &token) == CURLPOOL_OK;) {
    }
    want(curlpool_close(&pool), CURLPOOL_OK);
    return 0;
}
