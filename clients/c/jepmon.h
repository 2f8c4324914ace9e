/* Judges live whether what clients do is linearizable, by the program `jepmon script`. One header, for C11 and Linux; link with -pthread.
 *
 *   struct jepmon *m = jepmon_start(&(struct jepmon_options){ .model = "register" });
 *   struct jepmon_operation op;
 *   jepmon_write(m, &op, 7, 3);                     // begins before the request is sent
 *   jepmon_end(m, &op, put(7, 3) ? JEPMON_INFO : JEPMON_OK);
 *   jepmon_read(m, &op, 7);
 *   jepmon_value(m, &op, get(7));                   // or jepmon_missing(m, &op)
 *   if (jepmon_reset(m) != 0) ..                    // the next history, in the same program
 *   int status = jepmon_close(m, text, sizeof text) // 0 legal, 1 illegal, 2 unknown, 3 refused; text says why
 *
 * Each call gives 0, or the status of the verdict that has ended the test, or JEPMON_MISTAKE, which changes nothing. Any number of threads
 * may use a monitor. No operation waits for a reply: the order of the lines is the history, and a line has its place when it is appended,
 * so the verdict may come later. With .wait each event waits for its reply.
 */
#ifndef JEPMON_H
#define JEPMON_H
#ifndef _GNU_SOURCE
#error "define _GNU_SOURCE before the first header"
#endif
#include <errno.h>
#include <fcntl.h>
#include <inttypes.h>
#include <limits.h>
#include <poll.h>
#include <pthread.h>
#include <signal.h>
#include <stdarg.h>
#include <stdio.h>
#include <stdlib.h>
#include <string.h>
#include <sys/socket.h>
#include <sys/wait.h>
#include <time.h>
#include <unistd.h>

#define JEPMON_ABSENT INT64_MIN /* the value of a missing key; a register begins with it, without .initial */
#define JEPMON_MISTAKE 4        /* the test made a mistake: a key that is none, too many open operations */
#define JEPMON_MAJOR 1          /* of the oldest program that this header works with */
#define JEPMON_MINOR 4

enum jepmon_outcome { JEPMON_OK, JEPMON_FAIL, JEPMON_INFO }; /* it took place; it did not; it may have, or may yet */

struct jepmon_options {
    const char *program;    /* its path; else JEPMON names it, or a folder above this header has dist/jepmon, or it is on the PATH */
    const char *model;      /* register, cas-register, mutex, fifo-queue, unordered-queue, set; register if none is named */
    int concurrency;        /* operations that may be open at once, 1 to 64; 64 if it is 0 */
    int budget;             /* outcomes of a key that are followed; the program's if it is 0 */
    int by_ends;            /* keys are judged by all their outcomes: no model is judged as its wide kind */
    int wait;               /* each event waits for its reply */
    int go_on;              /* a key over its budget does not end the test; jepmon_close gives 2 then */
    const int64_t *initial; /* what each register holds at first; none: it is missing */
    int timeout;            /* seconds that a reply may take; 60 if it is 0 */
    const char *out;        /* folder for the history of a test that is not legal; else JEPMON_OUT, or /tmp */
};

struct jepmon_operation {
    int thread, key, is_open;
    const char *name;
    char part[64];
};

struct jepmon_bytes {
    char *text;
    size_t length, room;
};

/* Messages of fifo queues. The kind wide-fifo-queue is over as soon as two enqueues of one value have not failed. Such a queue is judged by its
 * ends instead, from its second enqueue of the value on. */
struct jepmon_message {
    int64_t value;
    int key;
    signed char state; /* 0: no message; 1: it was sent, and has not failed; -1: it has failed */
};

#define JEPMON_KINDS 5
#define JEPMON_NAMES 8
static const char *const jepmon_names[JEPMON_NAMES] = { "read", "write", "cas", "add", "enqueue", "dequeue", "acquire", "release" };
static const char *const jepmon_outcomes[4] = { "ok", "fail", "info", "open" };

struct jepmon {
    struct jepmon_options options;
    char program[PATH_MAX];
    const char *kind; /* by which the program judges all keys: the wide one of the model, if there is one */
    int clients, keys; /* the limits of the program: operations that are open at once, and keys */
    unsigned char by_ends[65536 / 8]; /* fifo queues of equal values */
    int by_ends_count;
    struct jepmon_message *messages; /* a table, at most half full */
    size_t message_room, message_count;
    char concurrency[16], budget[16];
    pid_t pid;
    int input, output;
    FILE *errors;
    pthread_mutex_t lock;
    struct jepmon_bytes lines; /* since the last reset */
    size_t sent;               /* bytes of them */
    long appended, replies;
    struct jepmon_bytes unread;
    char last[128], verdict[1024];
    int status, unknown, is_over, is_closed;
    struct jepmon_bytes unknown_text; /* of a test that goes on: the first `unknown`, from the end of its history on */
    char unknown_reply[128];
    long key, index, unknown_key, unknown_index;
    int free[64], free_count;
    long processes[64];
    unsigned char begun[65536 / 8];
    long counts[JEPMON_NAMES][4];
};

/* --- Text --- */

static void jepmon_add(struct jepmon_bytes *b, const char *text, size_t length)
{
    if (b->length + length + 1 > b->room) {
        b->room = 2 * (b->length + length) + 65536;
        b->text = realloc(b->text, b->room);
        if (!b->text) abort();
    }
    memcpy(b->text + b->length, text, length);
    b->length += length;
    b->text[b->length] = 0;
}

/* Ends the test, once: 1 illegal, 2 unknown, 3 refused. */
__attribute__((format(printf, 3, 4))) static void jepmon_fail_(struct jepmon *m, int status, const char *form, ...)
{
    va_list values;
    if (m->status) return;
    m->status = status;
    va_start(values, form);
    vsnprintf(m->verdict, sizeof m->verdict, form, values);
    va_end(values);
}

/* Waits for the end of the program, and says how it was. It is killed after the timeout, or after a second if it is not needed any more. */
static int jepmon_wait_(struct jepmon *m, char *how, size_t room, int is_over)
{
    int status = 0;
    char why[512];
    long left = 100L * (is_over ? 1 : m->options.timeout); /* hundredths of a second */
    while (left > 0 && waitpid(m->pid, &status, WNOHANG) == 0) {
        nanosleep(&(struct timespec){ 0, 10000000 }, NULL);
        left--;
    }
    if (left == 0) {
        kill(-m->pid, SIGKILL);
        waitpid(m->pid, &status, 0);
    }
    m->is_over = 1;
    fflush(m->errors);
    rewind(m->errors);
    size_t length = fread(why, 1, sizeof why - 1, m->errors);
    while (length > 0 && why[length - 1] == '\n') length--;
    why[length] = 0;
    for (char *c = why; *c; c++) if (*c == '\n') *c = ' ';
    if (WIFSIGNALED(status)) snprintf(how, room, "by signal %d%s%s", WTERMSIG(status), *why ? ": " : "", why);
    else snprintf(how, room, "with status %d%s%s", WEXITSTATUS(status), *why ? ": " : "", why);
    return WIFEXITED(status) ? WEXITSTATUS(status) : -1;
}

/* --- The exchange: never blocks but in poll, so that both pipes may be full --- */

static void jepmon_reply_(struct jepmon *m, const char *reply)
{
    char word[16] = "";
    long key = -1, index = -1;
    char how[700], rest;
    m->replies++;
    snprintf(m->last, sizeof m->last, "%s", reply);
    if (m->replies > m->appended) jepmon_fail_(m, 3, "refused: jepmon gave %ld replies to %ld lines", m->replies, m->appended);
    if (m->status || !strcmp(reply, "legal")) return;
    if (sscanf(reply, "%15s key %ld index %ld%c", word, &key, &index, &rest) == 3 && (!strcmp(word, "illegal") || !strcmp(word, "unknown"))) {
        int status = word[0] == 'i' ? 1 : 2;
        if (status == 2 && m->options.go_on) {
            if (m->unknown) return;
            snprintf(m->unknown_reply, sizeof m->unknown_reply, "%s", reply);
            m->unknown = 1;
            m->unknown_key = key;
            m->unknown_index = index;
            return;
        }
        m->key = key;
        m->index = index;
        jepmon_fail_(m, status, "%s", reply);
        return;
    }
    shutdown(m->input, SHUT_WR);
    jepmon_wait_(m, how, sizeof how, 1);
    char *why = strchr(how, ':');
    jepmon_fail_(m, 3, "%s%s%s", strncmp(reply, "refused", 7) ? "refused: " : "", reply, why ? why : "");
}

/* The program has ended its output. */
static void jepmon_ended_(struct jepmon *m)
{
    char how[700];
    if (m->is_over) return;
    int status = jepmon_wait_(m, how, sizeof how, 0);
    if (!m->is_closed || m->replies != m->appended)
        jepmon_fail_(m, 3, "refused: jepmon has ended %s, after %ld replies to %ld lines", how, m->replies, m->appended);
    else if (status != (strncmp(m->last, "unknown", 7) ? 0 : 2))
        jepmon_fail_(m, 3, "refused: jepmon has ended %s, after the reply %s", how, m->last);
}

/* Sends what was appended, and takes replies, until `until` replies have come (or at the end, the program has ended), and no more than
 * `most` bytes wait. With neither it takes what can be had at once. */
static void jepmon_pump_(struct jepmon *m, long until, size_t most)
{
    time_t since = time(NULL);
    while (!m->status && !m->is_over) {
        size_t left = m->lines.length - m->sent;
        int is_done = m->replies >= until && left <= most && !m->is_closed;
        if (m->is_closed && left == 0) shutdown(m->input, SHUT_WR);
        struct pollfd files[2] = { { m->output, POLLIN, 0 }, { m->input, POLLOUT, 0 } };
        int ready = poll(files, left > 0 ? 2 : 1, is_done ? 0 : 200);
        if (ready == 0 && is_done) return;
        if (ready > 0 && left > 0 && files[1].revents) {
            ssize_t n = send(m->input, m->lines.text + m->sent, left, MSG_NOSIGNAL | MSG_DONTWAIT);
            if (n > 0) m->sent += (size_t)n;
            else if (n < 0 && errno != EAGAIN && errno != EINTR && !files[0].revents) { jepmon_ended_(m); return; }
        }
        if (ready > 0 && files[0].revents) {
            char piece[65536];
            ssize_t n = read(m->output, piece, sizeof piece);
            if (n <= 0) { jepmon_ended_(m); return; }
            jepmon_add(&m->unread, piece, (size_t)n);
            char *line = m->unread.text, *end;
            long before = m->replies;
            while ((end = memchr(line, '\n', m->unread.length - (size_t)(line - m->unread.text)))) {
                *end = 0;
                jepmon_reply_(m, line);
                line = end + 1;
            }
            m->unread.length -= (size_t)(line - m->unread.text);
            memmove(m->unread.text, line, m->unread.length);
            if (m->replies != before) since = time(NULL);
        }
        if (time(NULL) - since > m->options.timeout) {
            jepmon_fail_(m, 3, "refused: jepmon gave no reply for %d seconds, after %ld replies to %ld lines: lines take long if many clients share a "
                         "key, so use more keys, or a greater .timeout", m->options.timeout, m->replies, m->appended);
            kill(-m->pid, SIGKILL);
        }
    }
}

static void jepmon_line_(struct jepmon *m, const char *line, size_t length)
{
    jepmon_add(&m->lines, line, length);
    m->appended++;
}

static void jepmon_event_(struct jepmon *m, const char *kind, long process, const char *name, int key, const char *part)
{
    char line[256];
    int length = snprintf(line, sizeof line, "{:type :%s :process %ld :f :%s :value [%d ", kind, process, name, key);
    jepmon_add(&m->lines, line, (size_t)length);
    jepmon_add(&m->lines, part, strlen(part));
    jepmon_line_(m, "]}\n", 3);
}

/* Sends 64 KiB at a time; waits for the replies, if events wait. */
static int jepmon_settle_(struct jepmon *m)
{
    if (m->options.wait) jepmon_pump_(m, m->appended, 0);
    else if (m->lines.length - m->sent > 65536) jepmon_pump_(m, 0, 1 << 20);
    return m->status;
}

/* --- The program --- */

/* Whether there is a file of machine code: a script of a clone is none. */
static int jepmon_is_program_(const char *path)
{
    char first[4] = "";
    FILE *file = fopen(path, "rb");
    if (!file) return 0;
    size_t n = fread(first, 1, 4, file);
    fclose(file);
    return n == 4 && !memcmp(first, "\177ELF", 4) && !access(path, X_OK);
}

static void jepmon_find_(struct jepmon *m)
{
    const char *named = m->options.program ? m->options.program : getenv("JEPMON");
    char folder[PATH_MAX - 32];
    char *real = realpath(__FILE__, NULL);
    snprintf(folder, sizeof folder, "%s", real ? real : "");
    free(real);
    snprintf(m->program, sizeof m->program, "%s", named && *named ? named : "jepmon");
    for (char *slash; !(named && *named) && (slash = strrchr(folder, '/')); ) {
        *slash = 0;
        snprintf(m->program, sizeof m->program, "%s/jepmon", folder);
        if (jepmon_is_program_(m->program)) return;
        snprintf(m->program, sizeof m->program, "%s/dist/jepmon", folder);
        if (jepmon_is_program_(m->program)) return;
        snprintf(m->program, sizeof m->program, "jepmon");
    }
}

/* Starts a program with pipes; its standard error goes to the file, or nowhere. */
static pid_t jepmon_spawn_(char *const words[], int *input, int *output, FILE *errors)
{
    int in[2], out[2];
    if (socketpair(AF_UNIX, SOCK_STREAM | SOCK_CLOEXEC, 0, in)) return -1; /* no pipe: writing to it raises no signal */
    if (pipe2(out, O_CLOEXEC)) return -1;
    pid_t pid = fork();
    if (pid == 0) {
        setsid(); /* Ctrl-C in a terminal is for the test */
        dup2(in[1], 0);
        dup2(out[1], 1);
        dup2(errors ? fileno(errors) : open("/dev/null", O_WRONLY), 2);
        execvp(words[0], words);
        fprintf(stderr, "%s: %s\n", words[0], strerror(errno));
        _exit(127);
    }
    close(in[1]);
    close(out[1]);
    *input = in[0];
    *output = out[0];
    return pid;
}

/* Models of which the program may have a second kind: the same object, of which fewer outcomes count against the budget. */
static const char *const jepmon_kinds[JEPMON_KINDS][2] = { { "register", "wide-register" }, { "cas-register", "wide-cas-register" },
    { "fifo-queue", "wide-fifo-queue" }, { "unordered-queue", "wide-unordered-queue" }, { "set", "wide-set" } };

/* The wide kind of a model; none: NULL. */
static const char *jepmon_wide_(const char *model)
{
    for (int n = 0; n < JEPMON_KINDS; n++) if (!strcmp(jepmon_kinds[n][0], model)) return jepmon_kinds[n][1];
    return NULL;
}

/* Asks the program, by a word and an input: its status, and what it prints, up to a line feed or for a minute at most. */
static int jepmon_ask_(struct jepmon *m, char *word, const char *input, char *line, size_t room)
{
    char *words[] = { m->program, word, NULL };
    int in, out, status = 0;
    size_t length = 0;
    time_t since = time(NULL);
    pid_t pid = jepmon_spawn_(words, &in, &out, NULL), gone = 0;
    line[0] = 0;
    if (pid < 0) return -1;
    if (*input) send(in, input, strlen(input), MSG_NOSIGNAL);
    shutdown(in, SHUT_WR);
    while (length + 1 < room && !strchr(line, '\n') && time(NULL) - since <= (m->options.timeout < 60 ? m->options.timeout : 60)) {
        struct pollfd file = { out, POLLIN, 0 };
        if (poll(&file, 1, 100) <= 0) continue;
        ssize_t n = read(out, line + length, room - 1 - length);
        if (n <= 0) break;
        line[length += (size_t)n] = 0;
    }
    close(in);
    close(out);
    for (int n = 0; n < 100 && (gone = waitpid(pid, &status, WNOHANG)) == 0; n++) nanosleep(&(struct timespec){ 0, 10000000 }, NULL);
    if (!gone) {
        kill(-pid, SIGKILL);
        waitpid(pid, &status, 0);
    }
    return WIFEXITED(status) ? WEXITSTATUS(status) : -1;
}

/* The minor version, if this header works with the version; else -1, and the verdict says so. */
static int jepmon_minor_(struct jepmon *m, const char *version)
{
    int major, minor, patch, length = 0;
    if (sscanf(version, "%d.%d.%d%n", &major, &minor, &patch, &length) == 3 && !version[length] && major == JEPMON_MAJOR && minor >= JEPMON_MINOR)
        return minor;
    jepmon_fail_(m, 3, "refused: %s is jepmon %s: this header needs jepmon %d.%d or a later %d", m->program, version, JEPMON_MAJOR, JEPMON_MINOR, JEPMON_MAJOR);
    return -1;
}

/* The number of this name in the answer to [:hello], but at most as many as this header has room for. */
static int jepmon_limit_(const char *line, const char *name, int most)
{
    const char *at = strstr(line, name);
    int number = at ? atoi(at + strlen(name)) : most;
    return number < most ? number : most;
}

/* Asks the program for its version, its kinds and its limits, and chooses the kind. Else the verdict says what is wrong with it. A program
 * answers [:hello], or it is older than 1.6, and says its version alone. */
static int jepmon_hello_(struct jepmon *m)
{
    char line[4096], version[64], kind[64];
    const char *wide = m->options.by_ends ? NULL : jepmon_wide_(m->options.model);
    m->clients = 64;
    m->keys = 65536;
    jepmon_ask_(m, "script", "[:hello]\n", line, sizeof line);
    size_t length = strlen(line);
    if (length > 2 && !strcmp(line + length - 2, "}\n") && sscanf(line, "{:jepmon \"%63[^\"]\"", version) == 1) {
        if (jepmon_minor_(m, version) < 0) return 0;
        m->clients = jepmon_limit_(line, ":max-clients ", m->clients);
        m->keys = jepmon_limit_(line, ":max-keys ", m->keys);
        for (char *c = line; *c; c++) if (*c == '[' || *c == ']') *c = ' ';
        snprintf(kind, sizeof kind, " :%s ", wide ? wide : "");
        if (wide && strstr(line, kind)) m->kind = wide;
        return 1;
    }
    int status = jepmon_ask_(m, "--version", "", line, sizeof line);
    line[strcspn(line, "\n")] = 0;
    if (status == 127) jepmon_fail_(m, 3, "refused: there is no %s: JEPMON names the program, or it is on the PATH", m->program);
    else if (sscanf(line, "jepmon %63s", version) != 1) jepmon_fail_(m, 3, "refused: %s is no jepmon: its --version prints '%.80s'", m->program, line);
    else if (jepmon_minor_(m, version) >= 5 && wide && (!strcmp(wide, "wide-register") || !strcmp(wide, "wide-set"))) m->kind = wide;
    return !m->status;
}

/* Starts a monitor. It is never NULL: if the program can't be used, each call says 3, and jepmon_close says why. */
static struct jepmon *jepmon_start(const struct jepmon_options *options)
{
    struct jepmon *m = calloc(1, sizeof *m);
    if (!m) abort();
    if (options) m->options = *options;
    if (!m->options.model) m->options.model = "register";
    for (int n = 0; n < JEPMON_KINDS; n++) if (!strcmp(jepmon_kinds[n][1], m->options.model)) m->options.model = jepmon_kinds[n][0];
    m->kind = m->options.model;
    if (!m->options.timeout) m->options.timeout = 60;
    m->key = m->index = -1;
    pthread_mutex_init(&m->lock, NULL);
    m->errors = tmpfile();
    m->input = m->output = -1;
    m->is_over = 1;
    jepmon_find_(m);
    if (!jepmon_hello_(m)) return m;
    if (!m->options.concurrency) m->options.concurrency = m->clients;
    for (int t = 0; t < 64 && t < m->options.concurrency; t++) {
        m->processes[t] = t;
        m->free[m->free_count++] = (m->options.concurrency < 64 ? m->options.concurrency : 64) - 1 - t;
    }
    snprintf(m->concurrency, sizeof m->concurrency, "%d", m->options.concurrency);
    snprintf(m->budget, sizeof m->budget, "%d", m->options.budget);
    char *words[] = { m->program, "script", "--strict", "--concurrency", m->concurrency, "--model", (char *)m->kind,
                      m->options.budget ? "--budget" : NULL, m->budget, NULL };
    m->pid = jepmon_spawn_(words, &m->input, &m->output, m->errors);
    if (m->pid < 0) { jepmon_fail_(m, 3, "refused: %s", strerror(errno)); return m; }
    m->is_over = 0;
    jepmon_line_(m, "[:verdict]\n", 11); /* it answers legal, or it is no jepmon */
    jepmon_pump_(m, 1, 0);
    m->lines.length = m->sent = 0;
    return m;
}

/* --- Operations --- */

static int jepmon_name_(const char *name)
{
    for (int n = 0; n < JEPMON_NAMES; n++) if (!strcmp(jepmon_names[n], name)) return n;
    return 0;
}

/* Whether the model has this operation. */
static int jepmon_has_(const char *model, const char *name)
{
    static const char *const all[][2] = { { "register", "read write" }, { "cas-register", "read write cas" }, { "mutex", "acquire release" },
        { "fifo-queue", "enqueue dequeue" }, { "unordered-queue", "enqueue dequeue" }, { "set", "add read" } };
    for (size_t n = 0; n < sizeof all / sizeof *all; n++) if (!strcmp(all[n][0], model)) return strstr(all[n][1], name) != NULL;
    return 1; /* the program refuses the model */
}

static int jepmon_is_by_ends_(struct jepmon *m, long key) { return key >= 0 && (m->by_ends[key / 8] >> key % 8 & 1); }

/* Has a key judged as this kind. */
static void jepmon_judge_as_(struct jepmon *m, int key, const char *kind)
{
    char line[64];
    jepmon_line_(m, line, (size_t)snprintf(line, sizeof line, "[:model %d :%s]\n", key, kind));
}

/* The place of a message in the table, or the place where it would be. */
static struct jepmon_message *jepmon_message_(struct jepmon *m, int key, int64_t value)
{
    uint64_t hash = ((uint64_t)value * 65537u + (uint64_t)key) * UINT64_C(0x9E3779B97F4A7C15);
    for (size_t at = (size_t)(hash >> 32) & (m->message_room - 1); ; at = (at + 1) & (m->message_room - 1)) {
        struct jepmon_message *found = &m->messages[at];
        if (!found->state || (found->key == key && found->value == value)) return found;
    }
}

/* Makes room for one message more. */
static void jepmon_message_room_(struct jepmon *m)
{
    struct jepmon_message *old = m->messages;
    size_t room = m->message_room;
    if (2 * (m->message_count + 1) <= room) return;
    m->message_room = room ? 2 * room : 1024;
    m->messages = calloc(m->message_room, sizeof *m->messages);
    if (!m->messages) abort();
    for (size_t n = 0; n < room; n++) if (old[n].state) *jepmon_message_(m, old[n].key, old[n].value) = old[n];
    free(old);
}

/* Takes note of the message, if an enqueue begins. */
static void jepmon_sends_(struct jepmon *m, const char *name, int key, const char *part)
{
    if (strcmp(name, "enqueue") || strcmp(m->kind, "wide-fifo-queue") || jepmon_is_by_ends_(m, key)) return;
    jepmon_message_room_(m);
    struct jepmon_message *message = jepmon_message_(m, key, strtoll(part, NULL, 10));
    if (message->state == 1) {
        m->by_ends[key / 8] |= (unsigned char)(1 << key % 8);
        m->by_ends_count++;
        jepmon_judge_as_(m, key, m->options.model);
        return;
    }
    if (!message->state) m->message_count++;
    *message = (struct jepmon_message){ strtoll(part, NULL, 10), key, 1 };
}

/* Forgets the message, if an enqueue has failed. */
static void jepmon_has_failed_(struct jepmon *m, const char *name, int key, const char *part)
{
    if (strcmp(name, "enqueue") || !m->message_room) return;
    struct jepmon_message *message = jepmon_message_(m, key, strtoll(part, NULL, 10));
    if (message->state) message->state = -1;
}

/* Begins a new history, after the old one has been forgotten: no key is judged by its ends. */
static inline void jepmon_forget_messages_(struct jepmon *m)
{
    for (int key = 0; m->by_ends_count && key < 65536; key++) if (jepmon_is_by_ends_(m, key)) jepmon_judge_as_(m, key, m->kind);
    memset(m->by_ends, 0, sizeof m->by_ends);
    m->by_ends_count = 0;
    if (m->message_count) memset(m->messages, 0, m->message_room * sizeof *m->messages);
    m->message_count = 0;
}

static void jepmon_begin_key_(struct jepmon *m, int key, int64_t value)
{
    char part[32];
    long process = m->processes[m->free[m->free_count - 1]];
    snprintf(part, sizeof part, "%" PRId64, value);
    m->begun[key / 8] |= (unsigned char)(1 << key % 8);
    jepmon_event_(m, "invoke", process, "write", key, part);
    jepmon_event_(m, "ok", process, "write", key, part);
}

static int jepmon_is_begun_(struct jepmon *m, int key) { return m->begun[key / 8] >> key % 8 & 1; }

/* Begins an operation by its name and the text of its value. */
static int jepmon_begin_(struct jepmon *m, struct jepmon_operation *o, const char *name, int key, const char *part)
{
    o->is_open = 0;
    if (key < 0 || key >= m->keys || !jepmon_has_(m->options.model, name)) return JEPMON_MISTAKE;
    pthread_mutex_lock(&m->lock);
    int status = m->status ? m->status : m->is_closed || m->free_count == 0 ? JEPMON_MISTAKE : 0;
    if (!status) {
        if (strstr(m->options.model, "register") && !jepmon_is_begun_(m, key))
            jepmon_begin_key_(m, key, m->options.initial ? *m->options.initial : JEPMON_ABSENT);
        o->thread = m->free[--m->free_count];
        o->key = key;
        o->name = name;
        o->is_open = 1;
        snprintf(o->part, sizeof o->part, "%s", part);
        m->counts[jepmon_name_(name)][3]++;
        jepmon_sends_(m, name, key, part);
        jepmon_event_(m, "invoke", m->processes[o->thread], name, key, part);
        status = jepmon_settle_(m);
    }
    pthread_mutex_unlock(&m->lock);
    return status;
}

static int jepmon_complete_(struct jepmon *m, struct jepmon_operation *o, enum jepmon_outcome outcome, const char *part)
{
    pthread_mutex_lock(&m->lock);
    int status = m->status ? m->status : !o->is_open || m->is_closed ? JEPMON_MISTAKE : 0;
    if (!status) {
        o->is_open = 0;
        m->counts[jepmon_name_(o->name)][3]--;
        m->counts[jepmon_name_(o->name)][outcome]++;
        jepmon_event_(m, jepmon_outcomes[outcome], m->processes[o->thread], o->name, o->key, part);
        if (outcome == JEPMON_FAIL) jepmon_has_failed_(m, o->name, o->key, o->part);
        if (outcome == JEPMON_INFO) m->processes[o->thread] += m->options.concurrency;
        m->free[m->free_count++] = o->thread;
        status = jepmon_settle_(m);
    }
    pthread_mutex_unlock(&m->lock);
    return status;
}

static int jepmon_with_(struct jepmon *m, struct jepmon_operation *o, const char *name, int key, int64_t value)
{
    char part[32];
    snprintf(part, sizeof part, "%" PRId64, value);
    return jepmon_begin_(m, o, name, key, part);
}

static inline int jepmon_read(struct jepmon *m, struct jepmon_operation *o, int key) { return jepmon_begin_(m, o, "read", key, "nil"); }
static inline int jepmon_write(struct jepmon *m, struct jepmon_operation *o, int key, int64_t value) { return jepmon_with_(m, o, "write", key, value); }
static inline int jepmon_add_member(struct jepmon *m, struct jepmon_operation *o, int key, int64_t member) { return jepmon_with_(m, o, "add", key, member); }
static inline int jepmon_enqueue(struct jepmon *m, struct jepmon_operation *o, int key, int64_t message) { return jepmon_with_(m, o, "enqueue", key, message); }
static inline int jepmon_dequeue(struct jepmon *m, struct jepmon_operation *o, int key) { return jepmon_begin_(m, o, "dequeue", key, "nil"); }
static inline int jepmon_acquire(struct jepmon *m, struct jepmon_operation *o, int key) { return jepmon_begin_(m, o, "acquire", key, "nil"); }
static inline int jepmon_release(struct jepmon *m, struct jepmon_operation *o, int key) { return jepmon_begin_(m, o, "release", key, "nil"); }
static inline int jepmon_cas(struct jepmon *m, struct jepmon_operation *o, int key, int64_t old, int64_t value)
{
    char part[64];
    snprintf(part, sizeof part, "[%" PRId64 " %" PRId64 "]", old, value);
    return jepmon_begin_(m, o, "cas", key, part);
}

/* Ends an operation that has no answer, or whose answer did not come. */
static inline int jepmon_end(struct jepmon *m, struct jepmon_operation *o, enum jepmon_outcome outcome) { return jepmon_complete_(m, o, outcome, o->part); }

/* Ends a read or a dequeue by its answer. */
static inline int jepmon_value(struct jepmon *m, struct jepmon_operation *o, int64_t value)
{
    char part[32];
    snprintf(part, sizeof part, "%" PRId64, value);
    return jepmon_complete_(m, o, JEPMON_OK, part);
}

/* Ends a read of a missing key, or a dequeue of an empty queue. */
static inline int jepmon_missing(struct jepmon *m, struct jepmon_operation *o)
{
    if (o->is_open && !strcmp(o->name, "dequeue")) return jepmon_end(m, o, JEPMON_FAIL);
    return jepmon_value(m, o, JEPMON_ABSENT);
}

static inline int jepmon_compare_(const void *a, const void *b)
{
    int64_t x = *(const int64_t *)a, y = *(const int64_t *)b;
    return (x > y) - (x < y);
}

/* Ends the read of a set by its members. */
static inline int jepmon_values(struct jepmon *m, struct jepmon_operation *o, const int64_t *members, size_t count)
{
    struct jepmon_bytes part = { 0 };
    char one[32];
    int64_t *sorted = malloc((count + 1) * sizeof *sorted);
    if (!sorted) abort();
    if (count) memcpy(sorted, members, count * sizeof *sorted);
    qsort(sorted, count, sizeof *sorted, jepmon_compare_);
    jepmon_add(&part, "#{", 2);
    for (size_t n = 0; n < count; n++) {
        if (n > 0 && sorted[n] == sorted[n - 1]) continue;
        int length = snprintf(one, sizeof one, "%" PRId64 " ", sorted[n]);
        jepmon_add(&part, one, (size_t)length);
    }
    jepmon_add(&part, "}", 1);
    int status = jepmon_complete_(m, o, JEPMON_OK, part.text);
    free(part.text);
    free(sorted);
    return status;
}

/* Says what a register holds before its first operation. */
static inline int jepmon_begin(struct jepmon *m, int key, int64_t value)
{
    if (key < 0 || key >= m->keys || !jepmon_has_(m->options.model, "write")) return JEPMON_MISTAKE;
    pthread_mutex_lock(&m->lock);
    int status = m->status ? m->status : m->is_closed || m->free_count == 0 || jepmon_is_begun_(m, key) ? JEPMON_MISTAKE : 0;
    if (!status) {
        jepmon_begin_key_(m, key, value);
        status = jepmon_settle_(m);
    }
    pthread_mutex_unlock(&m->lock);
    return status;
}

/* How many operations of a name ended so; the outcome `open` counts those that did not end. */
static inline long jepmon_count(struct jepmon *m, const char *name, const char *outcome)
{
    pthread_mutex_lock(&m->lock);
    long count = 0;
    for (int n = 0; n < 4; n++) if (!strcmp(jepmon_outcomes[n], outcome)) count = m->counts[jepmon_name_(name)][n];
    pthread_mutex_unlock(&m->lock);
    return count;
}

static inline void jepmon_report_unknown_(struct jepmon *m);

/* Begins a new history in the same program, and waits for the verdict on the one before. No operation may be open. The keys begin again,
 * so the store has to have nothing under them. A history has at most 1,048,576 events. */
static inline int jepmon_reset(struct jepmon *m)
{
    pthread_mutex_lock(&m->lock);
    int is_open = 0;
    for (int n = 0; n < JEPMON_NAMES; n++) is_open |= m->counts[n][3] > 0;
    int status = m->status ? m->status : is_open || m->is_closed ? JEPMON_MISTAKE : 0;
    if (!status) {
        jepmon_line_(m, "[:rewind 0]\n", 12);
        jepmon_pump_(m, m->appended, 0);
        if (!m->status) {
            if (m->unknown) jepmon_report_unknown_(m);
            m->lines.length = m->sent = 0;
            memset(m->begun, 0, sizeof m->begun);
            jepmon_forget_messages_(m);
            for (int t = 0; t < 64; t++) m->processes[t] = t;
        }
        status = m->status;
    }
    pthread_mutex_unlock(&m->lock);
    return status;
}

/* --- The end --- */

static inline void jepmon_text_(struct jepmon_bytes *all, const char *text) { jepmon_add(all, text, strlen(text)); }

/* Adds the last events of the key, each after its index. */
static inline void jepmon_tail_(struct jepmon *m, struct jepmon_bytes *text)
{
    char of[32], number[32];
    long index = 0, count = 0, skip;
    snprintf(of, sizeof of, " :value [%ld ", m->key);
    for (int turn = 0; turn < 2; turn++) {
        skip = count - 12;
        count = index = 0;
        for (char *line = m->lines.text, *end; line && index <= m->index && (end = strchr(line, '\n')); index += *line != '[', line = end + 1) {
            if (*line == '[' || !memmem(line, (size_t)(end - line), of, strlen(of))) continue;
            if (turn == 1 && count >= skip) {
                jepmon_add(text, number, (size_t)snprintf(number, sizeof number, "\n  %ld ", index));
                jepmon_add(text, line, (size_t)(end - line));
            }
            count++;
        }
    }
}

/* Adds what helps if the key is over its budget. */
static inline void jepmon_hint_(struct jepmon *m, struct jepmon_bytes *text)
{
    char line[PATH_MAX + 256];
    const char *wide = jepmon_wide_(m->options.model);
    snprintf(line, sizeof line, "\n  key %ld has more outcomes than its budget: raise .budget, let fewer clients use one key, or write to a new key "
             "after timeouts", m->key);
    jepmon_text_(text, line);
    if (jepmon_is_by_ends_(m, m->key))
        jepmon_text_(text, ". Two enqueues of one value have not failed, so the queue is judged by its ends: give each message a value of its own");
    if (!wide || !strcmp(wide, m->kind)) return;
    if (m->options.by_ends) snprintf(line, sizeof line, ". Without .by_ends the kind %s may decide it", wide);
    else snprintf(line, sizeof line, ". %s does not have the kind %s: a newer jepmon may decide it", m->program, wide);
    jepmon_text_(text, line);
}

/* Adds the keys over their budget other than the verdict's, of those that are judged as this kind, by `jepmon check`. `script` names the
 * first one alone. */
static inline void jepmon_over_(struct jepmon *m, const char *file, const char *kind, struct jepmon_bytes *text)
{
    char line[256];
    long key, index;
    int input, output;
    char *words[] = { m->program, "check", (char *)file, "--concurrency", m->concurrency, "--model", (char *)kind,
                      m->options.budget ? "--budget" : NULL, m->budget, NULL };
    pid_t pid = jepmon_spawn_(words, &input, &output, NULL);
    if (pid < 0) return;
    FILE *told = fdopen(output, "r");
    while (told && fgets(line, sizeof line, told)) {
        if (sscanf(line, "key %ld model %*s budget %*d events %*d status over %ld", &key, &index) != 2 || key == m->key) continue;
        if (jepmon_is_by_ends_(m, key) == !strcmp(kind, m->kind)) continue;
        snprintf(line, sizeof line, "\n  also unknown key %ld index %ld", key, index);
        jepmon_text_(text, line);
    }
    if (told) fclose(told);
    close(input);
    waitpid(pid, NULL, 0);
}

/* Adds the headline and the sentences of the cause, if jepmon-judge is there. JEPMON_JUDGE names it, and `no` is none. */
static inline void jepmon_cause_(struct jepmon *m, const char *file, struct jepmon_bytes *text)
{
    char command[4 * PATH_MAX], folder[PATH_MAX], judge[PATH_MAX + 32] = "jepmon-judge", piece[4096];
    const char *named = getenv("JEPMON_JUDGE");
    struct jepmon_bytes json = { 0 };
    if (named && !strcmp(named, "no")) return;
    snprintf(folder, sizeof folder, "%s", m->program);
    for (int up = 0; up < 2; up++) {
        char *slash = strrchr(folder, '/');
        if (!slash) break;
        *slash = 0;
        snprintf(command, sizeof command, "%s/jepmon-judge", folder);
        if (!access(command, X_OK)) snprintf(judge, sizeof judge, "%s/jepmon-judge", folder);
    }
    if (named && *named) snprintf(judge, sizeof judge, "%s", named);
    snprintf(command, sizeof command, "JEPMON='%s' '%s' '%s' --json --model %s --concurrency %d 2>/dev/null", m->program, judge, file,
             m->options.model, m->options.concurrency);
    FILE *told = popen(command, "r");
    for (size_t n; told && (n = fread(piece, 1, sizeof piece, told)) > 0; ) jepmon_add(&json, piece, n);
    if (told) pclose(told);
    char *at = json.text ? strstr(json.text, "\"headline\":") : NULL;
    for (int lines = 0; at && *at && *at != ']'; ) {
        struct jepmon_bytes string = { 0 };
        if (*at++ != '"') continue;
        for (; *at && *at != '"'; at++) {
            if (*at == '\\' && at[1]) at++;
            jepmon_add(&string, at, 1);
        }
        if (*at) at++;
        if (string.text && strcmp(string.text, "headline") && strcmp(string.text, "sentences")) {
            jepmon_add(text, lines ? "\n    " : "\n  ", lines ? 5 : 3);
            jepmon_add(text, string.text, string.length);
            lines++;
        }
        free(string.text);
    }
    free(json.text);
}

/* Writes the history to a file, and adds what is known of a verdict at the end of its history. */
static inline void jepmon_report_(struct jepmon *m, int status, struct jepmon_bytes *all)
{
    char file[PATH_MAX];
    if (status == 1 || status == 2) jepmon_tail_(m, all);
    if (status == 2) jepmon_hint_(m, all);
    const char *out = m->options.out ? m->options.out : getenv("JEPMON_OUT") ? getenv("JEPMON_OUT") : "/tmp";
    snprintf(file, sizeof file, "%s/jepmon-XXXXXX.edn", out);
    int made = m->lines.length ? mkstemps(file, 4) : -1;
    FILE *history = made < 0 ? NULL : fdopen(made, "w");
    if (!history) return;
    for (char *line = m->lines.text, *end; line && (end = strchr(line, '\n')); line = end + 1)
        if (*line != '[') fwrite(line, 1, (size_t)(end + 1 - line), history); /* commands are no events */
    fclose(history);
    if (status == 1) jepmon_cause_(m, file, all);
    if (status == 2 && m->options.go_on) jepmon_over_(m, file, m->kind, all);
    if (status == 2 && m->options.go_on && m->by_ends_count) jepmon_over_(m, file, m->options.model, all);
    jepmon_text_(all, "\n  history: ");
    jepmon_text_(all, file);
}

/* Completes the first `unknown` of a test that goes on, at the end of its history. */
static inline void jepmon_report_unknown_(struct jepmon *m)
{
    if (m->unknown_text.length) return;
    m->key = m->unknown_key;
    m->index = m->unknown_index;
    jepmon_text_(&m->unknown_text, m->unknown_reply);
    jepmon_report_(m, 2, &m->unknown_text);
}

/* Ends the program and frees the monitor. It gives 0 if each line got its reply and all is legal, else the status of the verdict, which
 * the text has, with the last events of the key, the cause in words if jepmon-judge is there, and the file of the history. */
static int jepmon_close(struct jepmon *m, char *text, size_t room)
{
    struct jepmon_bytes all = { 0 };
    pthread_mutex_lock(&m->lock);
    m->is_closed = 1;
    jepmon_pump_(m, m->appended, 0);
    if (!m->is_over) {
        kill(-m->pid, SIGKILL);
        waitpid(m->pid, NULL, 0);
    }
    int status = m->status ? m->status : m->unknown ? 2 : 0;
    if (!m->status && m->unknown) {
        jepmon_report_unknown_(m);
        jepmon_add(&all, m->unknown_text.text, m->unknown_text.length);
    } else {
        jepmon_text_(&all, status ? m->verdict : "legal");
        if (status) jepmon_report_(m, status, &all);
    }
    if (text && room) snprintf(text, room, "%s", all.text);
    close(m->input);
    close(m->output);
    fclose(m->errors);
    free(all.text);
    free(m->unknown_text.text);
    free(m->lines.text);
    free(m->unread.text);
    free(m->messages);
    pthread_mutex_unlock(&m->lock);
    pthread_mutex_destroy(&m->lock);
    free(m);
    return status;
}
#endif
