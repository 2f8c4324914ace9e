/* A deterministic simulator judges a history for each seed, in one process: ./simulator [HISTORIES [LAG]]. Of a million writes the replica that
 * answers reads misses LAG. It prints the first seed whose history is illegal, and ends with status 1 then. */
#define _GNU_SOURCE
#include "jepmon.h"

static uint64_t drawn(uint64_t *state)
{
    *state = *state * 6364136223846793005u + 1442695040888963407u;
    return *state >> 33;
}

/* 100 operations of five clients on four keys. */
static int history(struct jepmon *m, uint64_t seed, long lag)
{
    struct jepmon_operation open[5] = { 0 };
    int64_t replica[4], written[5];
    int status = 0;
    for (int key = 0; key < 4; key++) replica[key] = JEPMON_ABSENT;
    for (int step = 0; step < 200 && !status; step++) {
        int client = (int)(drawn(&seed) % 5), key = (int)(drawn(&seed) % 4);
        struct jepmon_operation *op = &open[client];
        if (!op->is_open) {
            written[client] = step;
            status = drawn(&seed) % 2 ? jepmon_write(m, op, key, step) : jepmon_read(m, op, key);
        } else if (op->name[0] == 'w') {
            if ((long)(drawn(&seed) % 1000000) >= lag) replica[op->key] = written[client];
            status = jepmon_end(m, op, JEPMON_OK);
        } else {
            status = jepmon_value(m, op, replica[op->key]);
        }
    }
    for (int client = 0; client < 5 && !status; client++) if (open[client].is_open) status = jepmon_end(m, &open[client], JEPMON_INFO);
    return status ? status : jepmon_reset(m);
}

int main(int count, char **words)
{
    long histories = count > 1 ? atol(words[1]) : 1000, lag = count > 2 ? atol(words[2]) : 10000;
    char text[8192];
    struct jepmon *m = jepmon_start(&(struct jepmon_options){ .concurrency = 5 });
    struct timespec from, to;
    clock_gettime(CLOCK_MONOTONIC, &from);
    long seed = 1;
    while (seed <= histories && !history(m, (uint64_t)seed, lag)) seed++;
    clock_gettime(CLOCK_MONOTONIC, &to);
    double seconds = (double)(to.tv_sec - from.tv_sec) + (double)(to.tv_nsec - from.tv_nsec) / 1e9;
    int status = jepmon_close(m, text, sizeof text);
    if (status) printf("seed %ld: %s\n", seed, text);
    else printf("%ld histories are legal: %.0f a second\n", histories, (double)histories / seconds);
    return status;
}
