/* Measures operations, each of two events: a write or a read of a key of the thread's own. ./bench WAITS THREADS OPERATIONS: ./bench 0 5 500000 */
#define _GNU_SOURCE
#include "jepmon.h"

static struct jepmon *monitor;
static long operations, threads;

static void *client(void *given)
{
    long number = (long)(intptr_t)given;
    struct jepmon_operation op;
    int status = 0;
    for (long i = 0; i < operations / threads && !status; i++) {
        int key = (int)(number * 64 + i / 2 % 64);
        if (i % 2 == 0) status = jepmon_write(monitor, &op, key, i) || jepmon_end(monitor, &op, JEPMON_OK);
        else status = jepmon_read(monitor, &op, key) || jepmon_value(monitor, &op, i - 1);
    }
    return NULL;
}

static double now(void)
{
    struct timespec at;
    clock_gettime(CLOCK_MONOTONIC, &at);
    return (double)at.tv_sec + (double)at.tv_nsec / 1e9;
}

int main(int count, char **words)
{
    pthread_t all[64];
    char text[4096];
    double most = 0;
    if (count != 4) return 3;
    threads = atol(words[2]);
    operations = atol(words[3]);
    monitor = jepmon_start(&(struct jepmon_options){ .wait = atoi(words[1]) });
    for (int round = 0; round < 3; round++) {
        double begun = now();
        for (long n = 0; n < threads; n++) pthread_create(&all[n], NULL, client, (void *)(intptr_t)n);
        for (long n = 0; n < threads; n++) pthread_join(all[n], NULL);
        jepmon_reset(monitor);
        double rate = 2 * (double)operations / (now() - begun);
        if (rate > most) most = rate;
    }
    int status = jepmon_close(monitor, text, sizeof text);
    if (status) puts(text);
    else printf("%.0f events a second\n", most);
    return status;
}
