/* Runs the scenarios of clients/conformance, whose words clients/README.md explains. */
#define _GNU_SOURCE
#include "jepmon.h"
#include <limits.h>

#define MOST 64 /* lines of a scenario, and words of a line */

struct line {
    char text[256], *words[MOST];
    int count;
};
struct scenario {
    char name[128];
    struct line lines[MOST];
    int count;
};

static char table[PATH_MAX];

static const char *joined(const struct line *line, int from)
{
    static char text[256];
    text[0] = 0;
    for (int n = from; n < line->count; n++) {
        strcat(text, n > from ? " " : "");
        strcat(text, line->words[n]);
    }
    return text;
}

static long option(const struct line *line, const char *name)
{
    for (int n = 0; n + 1 < line->count; n++) if (!strcmp(line->words[n], name)) return atol(line->words[n + 1]);
    return 0;
}

static int64_t number(const struct line *line, int place) { return place < line->count ? strtoll(line->words[place], NULL, 10) : 0; }

/* --- Clients of a store, which may lose some writes --- */

struct clients {
    struct jepmon *monitor;
    pthread_mutex_t lock;
    int64_t values[1024];
    char found[1024];
    long writes, loses, operations, keys, next;
    int status;
};

static void *client(void *given)
{
    struct clients *c = given;
    struct jepmon_operation op;
    int status = 0;
    pthread_mutex_lock(&c->lock);
    long number = c->next++;
    pthread_mutex_unlock(&c->lock);
    for (long i = 0; i < c->operations && !status; i++) {
        int key = (int)((number * 7 + i / 2) % c->keys);
        int64_t value = number * c->operations + i;
        if (i % 2 == 0) {
            if ((status = jepmon_write(c->monitor, &op, key, value))) break;
            pthread_mutex_lock(&c->lock);
            c->writes++;
            if (c->loses == 0 || c->writes % c->loses != 0) {
                c->values[key] = value;
                c->found[key] = 1;
            }
            pthread_mutex_unlock(&c->lock);
            status = jepmon_end(c->monitor, &op, JEPMON_OK);
        } else {
            if ((status = jepmon_read(c->monitor, &op, key))) break;
            pthread_mutex_lock(&c->lock);
            int found = c->found[key];
            int64_t held = c->values[key];
            pthread_mutex_unlock(&c->lock);
            status = found ? jepmon_value(c->monitor, &op, held) : jepmon_missing(c->monitor, &op);
        }
    }
    pthread_mutex_lock(&c->lock);
    if (status && !c->status) c->status = status;
    pthread_mutex_unlock(&c->lock);
    return NULL;
}

static int clients(struct jepmon *m, const struct line *line)
{
    static struct clients c;
    pthread_t threads[64];
    long count = option(line, "clients");
    memset(&c, 0, sizeof c);
    pthread_mutex_init(&c.lock, NULL);
    c.monitor = m;
    c.loses = option(line, "loses");
    c.operations = option(line, "operations");
    c.keys = option(line, "keys");
    for (long n = 0; n < count; n++) pthread_create(&threads[n], NULL, client, &c);
    for (long n = 0; n < count; n++) pthread_join(threads[n], NULL);
    return c.status;
}

/* One history after another. JEPMON_PARTS="20 500000" makes it ten million operations. */
static int parts(struct jepmon *m, const struct line *line)
{
    long count = option(line, "parts"), operations = option(line, "operations");
    struct jepmon_operation op;
    int status = 0;
    if (getenv("JEPMON_PARTS")) sscanf(getenv("JEPMON_PARTS"), "%ld %ld", &count, &operations);
    for (; count > 0 && !status; count--) {
        for (long i = 0; i < operations && !status; i += 2) {
            int key = (int)(i / 2 % 64);
            if (!(status = jepmon_write(m, &op, key, i)) && !(status = jepmon_end(m, &op, JEPMON_OK)) && !(status = jepmon_read(m, &op, key)))
                status = jepmon_value(m, &op, i);
        }
        if (!status) status = jepmon_reset(m);
    }
    return status;
}

/* --- A scenario --- */

/* Begins what the words from this place on say. */
static int use(struct jepmon *m, struct jepmon_operation *op, const struct line *line, int at)
{
    const char *word = line->words[at];
    int key = (int)number(line, at + 1);
    int64_t value = number(line, at + 2);
    if (!strcmp(word, "reset")) return jepmon_reset(m);
    if (!strcmp(word, "begin")) return jepmon_begin(m, key, value);
    if (!strcmp(word, "read")) return jepmon_read(m, op, key);
    if (!strcmp(word, "write")) return jepmon_write(m, op, key, value);
    if (!strcmp(word, "cas")) return jepmon_cas(m, op, key, value, number(line, at + 3));
    if (!strcmp(word, "add")) return jepmon_add_member(m, op, key, value);
    if (!strcmp(word, "enqueue")) return jepmon_enqueue(m, op, key, value);
    if (!strcmp(word, "dequeue")) return jepmon_dequeue(m, op, key);
    if (!strcmp(word, "acquire")) return jepmon_acquire(m, op, key);
    if (!strcmp(word, "release")) return jepmon_release(m, op, key);
    return -1;
}

static int end(struct jepmon *m, struct jepmon_operation *op, const struct line *line)
{
    const char *word = line->words[0];
    int64_t members[MOST];
    if (!strcmp(word, "ok")) return jepmon_end(m, op, JEPMON_OK);
    if (!strcmp(word, "fail")) return jepmon_end(m, op, JEPMON_FAIL);
    if (!strcmp(word, "info")) return jepmon_end(m, op, JEPMON_INFO);
    if (!strcmp(word, "missing")) return jepmon_missing(m, op);
    if (!strcmp(word, "value")) return jepmon_value(m, op, number(line, 2));
    for (int n = 2; n < line->count; n++) members[n - 2] = number(line, n);
    return jepmon_values(m, op, members, (size_t)(line->count - 2));
}

/* Whether this line does something with the monitor; then its status. */
static int act(struct jepmon *m, struct jepmon_operation *operations, const struct line *line, int *status)
{
    const char *word = line->words[0];
    struct jepmon_operation other;
    if (!strcmp(word, "invoke")) *status = use(m, &operations[(int)*line->words[1]], line, 2);
    else if (!strcmp(word, "rejected")) *status = use(m, &other, line, 1) == JEPMON_MISTAKE ? 0 : -1;
    else if (!strcmp(word, "reset") || !strcmp(word, "begin")) *status = use(m, &other, line, 0);
    else if (!strcmp(word, "clients")) *status = clients(m, line);
    else if (!strcmp(word, "parts")) *status = parts(m, line);
    else if (strstr(" ok fail info value missing values ", word)) *status = end(m, &operations[(int)*line->words[1]], line);
    else return 0;
    return 1;
}

static struct jepmon_options options_of(const struct scenario *s, int wait)
{
    static char program[PATH_MAX + 256];
    static int64_t initial;
    struct jepmon_options o = { .wait = wait, .out = getenv("JEPMON_OUT") };
    for (int n = 0; n < s->count; n++) {
        const struct line *line = &s->lines[n];
        const char *word = line->words[0];
        if (!strcmp(word, "model")) o.model = line->words[1];
        if (!strcmp(word, "concurrency")) o.concurrency = (int)number(line, 1);
        if (!strcmp(word, "budget")) o.budget = (int)number(line, 1);
        if (!strcmp(word, "timeout")) o.timeout = (int)number(line, 1);
        if (!strcmp(word, "by-ends")) o.by_ends = 1;
        if (!strcmp(word, "unknown")) o.go_on = 1;
        if (!strcmp(word, "initial")) { initial = number(line, 1); o.initial = &initial; }
        if (!strcmp(word, "program")) { snprintf(program, sizeof program, "%s/programs/%s", table, line->words[1]); o.program = program; }
    }
    return o;
}

/* Compares the verdict with an `expect`. */
static int is_expected(const struct line *line, const char *text)
{
    char want[128];
    snprintf(want, sizeof want, "%s", line->words[1]);
    if (strcmp(want, "refused") && line->count == 4) snprintf(want, sizeof want, "%s key %s index %s", line->words[1], line->words[2], line->words[3]);
    if (strncmp(text, want, strlen(want))) return 0;
    return strcmp(line->words[1], "refused") || strstr(text, joined(line, 2)) != NULL;
}

/* Runs a scenario; what is wrong goes to `fault`. */
static void run(const struct scenario *s, int wait, char *fault, size_t room)
{
    struct jepmon_options options = options_of(s, wait);
    struct jepmon_operation operations[128] = { 0 };
    struct jepmon *m = jepmon_start(&options);
    char text[8192];
    int status = 0, counted = 0;
    fault[0] = 0;
    for (int n = 0; n < s->count && !status; n++) {
        if (act(m, operations, &s->lines[n], &status) && (status == JEPMON_MISTAKE || status < 0))
            snprintf(fault, room, "%s: status %d", joined(&s->lines[n], 0), status);
    }
    for (int n = 0; n < s->count; n++) {
        const struct line *line = &s->lines[n];
        long got = strcmp(line->words[0], "count") ? -1 : jepmon_count(m, line->words[1], line->words[2]);
        if (got >= 0 && got != number(line, 3)) snprintf(fault, room, "%s: there are %ld", joined(line, 0), got);
        counted += got >= 0;
    }
    int last = jepmon_close(m, text, sizeof text);
    if (*fault) return;
    if (status && status != last) snprintf(fault, room, "an operation gave %d, and the end %d", status, last);
    for (int n = 0; n < s->count; n++) {
        if (!strcmp(s->lines[n].words[0], "expect") && !is_expected(&s->lines[n], text))
            snprintf(fault, room, "%s: the verdict is %s", joined(&s->lines[n], 0), text);
        if (!strcmp(s->lines[n].words[0], "says") && !strstr(text, joined(&s->lines[n], 1)))
            snprintf(fault, room, "%s: the verdict is %s", joined(&s->lines[n], 0), text);
    }
}

static int says(const struct scenario *s, const char *text)
{
    for (int n = 0; n < s->count; n++) if (!strcmp(joined(&s->lines[n], 0), text)) return 1;
    return 0;
}

/* The minor version of the program that the scenario needs, or 0. */
static long since(const struct scenario *s)
{
    for (int n = 0; n < s->count; n++) if (!strcmp(s->lines[n].words[0], "since")) return number(&s->lines[n], 1);
    return 0;
}

/* The minor version of the program that is tested; -1: it says none. */
static int minor_version(void)
{
    char command[PATH_MAX + 64];
    int minor = -1;
    snprintf(command, sizeof command, "\"${JEPMON:-%s/../../dist/jepmon}\" --version", table);
    FILE *told = popen(command, "r");
    if (told && fscanf(told, "jepmon %*d.%d", &minor) != 1) minor = -1;
    if (told) pclose(told);
    return minor;
}

int main(int count, char **words)
{
    static struct scenario s;
    static char line[256], fault[9000];
    char path[PATH_MAX + 32];
    int passed = 0, failed = 0, more = 1;
    snprintf(table, sizeof table, "%s", count > 1 ? words[1] : "../conformance");
    snprintf(path, sizeof path, "%s/scenarios.txt", table);
    FILE *file = fopen(path, "r");
    if (!file) { perror(path); return 1; }
    int minor = minor_version();
    if (minor < 0) { fprintf(stderr, "the program says no version\n"); return 1; }
    while (more) {
        more = fgets(line, sizeof line, file) != NULL;
        if (more && (line[0] == '#' || line[0] == '\n')) continue;
        if (!more || !strncmp(line, "scenario ", 9)) {
            for (int wait = 0; s.count && since(&s) <= minor && wait < (says(&s, "waiting no") ? 1 : 2); wait++) {
                run(&s, wait, fault, sizeof fault);
                printf("conformance %s%s: %s%s\n", s.name, wait ? "_waiting" : "", *fault ? "FAILED: " : "ok", fault);
                fflush(stdout);
                *(*fault ? &failed : &passed) += 1;
            }
            s.count = 0;
            if (more) sscanf(line, "scenario %127s", s.name);
            continue;
        }
        struct line *l = &s.lines[s.count++];
        snprintf(l->text, sizeof l->text, "%s", line);
        l->count = 0;
        for (char *word = strtok(l->text, " \n"); word; word = strtok(NULL, " \n")) l->words[l->count++] = word;
    }
    fclose(file);
    printf("%d passed, %d failed\n", passed, failed);
    return failed > 0;
}
