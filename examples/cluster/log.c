/* The logs of a rank, one for each of its elements: in an element stamps rise, so each log stands in their order. */
#include "machine.h"
#include <errno.h>
#include <fcntl.h>
#include <signal.h>
#include <unistd.h>

enum { ROOM = 1 << 16, LINE = 256 }; /* bytes: kept before they are written, of a line at most */

static char *put(char *to, const char *text) {
    while (*text)
        *to++ = *text++;
    return to;
}

static char *put_number(char *to, uint64_t number) {
    char digits[20];
    int length = 0;
    do
        digits[length++] = (char)('0' + number % 10);
    while (number /= 10);
    while (length)
        *to++ = digits[--length];
    return to;
}

static char *put_signed(char *to, int64_t number) {
    if (number < 0)
        *to++ = '-';
    return put_number(to, number < 0 ? 0 - (uint64_t)number : (uint64_t)number);
}

static char *put_id(char *to, const char *letter, uint64_t id) {
    to = put_number(put(to, letter), id % ELEMENTS);
    return put_number(put(to, "."), id / ELEMENTS);
}

static char *put_turn(char *to, const char *letter, uint64_t context, uint64_t iteration) {
    return put_number(put(put_id(to, letter, context), "#"), iteration);
}

/* A value as a trace has it (docs/LANGUAGE.md, "Output"). */
char *put_value(char *to, struct value it) {
    switch (it.kind) {
    case IS_INT: return put_signed(to, it.number);
    case IS_BOOL: return put(to, it.number ? "true" : "false");
    case IS_STRUCTURE: return put_id(to, "s", it.id);
    case IS_ADDRESS: return put(put_signed(put(put_id(to, "s", it.id), "["), it.number), "]");
    case IS_CONTEXT: return put_id(to, "c", it.id);
    case IS_CONTINUATION: return put_number(put(put_turn(to, "k", it.id, (uint64_t)it.number), ":"), it.more);
    default: return put(to, "signal");
    }
}

static void write_out(struct element *it) {
    for (size_t from = 0; from < it->filled;) {
        ssize_t wrote = write(it->log, it->lines + from, it->filled - from);
        if (wrote < 0 && errno != EINTR)
            break; /* what is missing then is told by the judge */
        from += wrote < 0 ? 0 : (size_t)wrote;
    }
    it->filled = 0;
}

void write_logs(void) {
    for (int e = rank; e < count && log_name != NULL; e += ranks)
        write_out(&elements[e]);
}

/* Writes the line of an event of an element. */
void write_line(struct element *it, const struct message *m, enum cause cause) {
    if (it->filled > ROOM - LINE)
        write_out(it);
    char *to = put_number(it->lines + it->filled, now);
    to = put_number(put(to, " "), m->tag.element);
    to = put(to, m->tag.what == READ ? " read " : m->tag.what == WRITE ? " write " : " token ");
    if (m->tag.what >= READ)
        to = put(put_value(to, m->cell), " ");
    if (m->tag.what == WRITE)
        to = put(put_value(to, m->value), " ");
    to = put(put_turn(to, "c", m->tag.context, m->tag.iteration), " ");
    to = put_number(to, m->tag.instr);
    if (m->tag.what < READ)
        to = put_value(put(to, m->tag.what == PORT_0 ? ".0 " : ".1 "), m->value);
    to = put(to, cause == NONE ? "\n" : cause == STUCK ? " stuck\n" : " fault\n");
    it->filled = (size_t)(to - it->lines);
}

/* A rank that crashes, or is ended because another one has, writes its logs first: they show how far it came. */
static const int CRASHES[] = {SIGSEGV, SIGBUS, SIGFPE, SIGILL, SIGABRT, SIGTERM, SIGINT};
enum { MANY = sizeof CRASHES / sizeof *CRASHES };
static struct sigaction of_mpi[MANY];

static void crashed(int number) {
    write_logs();
    for (int i = 0; i < MANY; i++)
        if (CRASHES[i] == number)
            sigaction(number, &of_mpi[i], NULL);
    raise(number);
}

void open_logs(void) {
    char path[4096];
    if (log_name == NULL)
        return;
    for (int e = rank; e < count; e += ranks) {
        snprintf(path, sizeof path, "%s.%d", log_name, e);
        elements[e].lines = sized(NULL, ROOM, 1);
        elements[e].log = open(path, O_WRONLY | O_CREAT | O_TRUNC, 0666);
        if (elements[e].log < 0)
            fail("%s: %s", path, strerror(errno));
    }
    for (int i = 0; i < MANY; i++) {
        struct sigaction ours = {.sa_handler = crashed};
        sigaction(CRASHES[i], &ours, &of_mpi[i]);
    }
}
