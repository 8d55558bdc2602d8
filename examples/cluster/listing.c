/* The listing, and what it and the inputs put in flight (docs/GRAPH.md, "Listing"; docs/MACHINE.md, "Runs"). */
#include "machine.h"
#include <errno.h>
#include <limits.h>
#include <mpi.h>

static const char *const NAMES[OPS] = {
    "const", "neg", "not", "merge", "enter", "next", "reset", "fetch", "switch", "back", "send", "alloc", "address",
    "store", "add", "sub", "mul", "div", "rem", "lt", "le", "gt", "ge", "eq", "ne", "eqb", "neb", "and", "or"};

const struct instr *instr_at(uint32_t number) {
    if (number >= graph.count)
        fail("the listing has no instruction %" PRIu32, number);
    return (const struct instr *)graph.at + number;
}

/* The text of a file, which rank 0 reads for all. */
char *read_file(const char *path) {
    long size = 0;
    char *text = NULL;
    if (rank == 0) {
        FILE *file = fopen(path, "rb");
        if (file == NULL)
            fail("%s: %s", path, strerror(errno));
        for (size_t got = 1; got > 0; size += (long)got) {
            text = sized(text, (size_t)size + (1 << 20), 1);
            got = fread(text + size, 1, 1 << 20, file);
        }
        if (ferror(file) || size >= INT_MAX)
            fail("%s can't be read", path);
        fclose(file);
    }
    MPI_Bcast(&size, 1, MPI_LONG, 0, MPI_COMM_WORLD);
    text = sized(text, (size_t)size + 1, 1);
    MPI_Bcast(text, (int)size, MPI_CHAR, 0, MPI_COMM_WORLD);
    text[size] = '\0';
    return text;
}

static void read_arcs(const char *text) {
    struct arc it;
    for (int length; sscanf(text, " %" SCNu32 ".%" SCNu32 "%n", &it.to, &it.port, &length) == 2; text += length)
        *(struct arc *)more(&arcs, sizeof it) = it;
}

/* NUMBER OPERATOR WORDS @LINE:COLUMN -> DESTINATIONS | DESTINATIONS. Of the words the last two are kept as numbers,
   which they are for an `enter`, and the last one for a `send` or a `fetch`; and as a value, of what kind they say. */
static void read_line(char *line) {
    struct instr it = {0};
    char *place = strstr(line, " @"), *tail = strstr(line, " -> "), *no = strchr(line, '|'), op[16], word[2][24] = {""};
    uint32_t number;
    if (place == NULL || sscanf(place, " @%" SCNu32 ":%" SCNu32, &it.line, &it.column) != 2)
        fail("this is no line of a listing: %.80s", line);
    *place = '\0';
    if (sscanf(line, "%" SCNu32 " %15s %23s %23s", &number, op, word[0], word[1]) < 2 || number != graph.count)
        fail("this is no line of a listing: %.80s", line);
    while (it.op < OPS && strcmp(NAMES[it.op], op) != 0)
        it.op++;
    if (it.op == OPS)
        fail("the instruction %" PRIu32 " has an unknown operator, %s", number, op);
    it.a = (uint32_t)strtoul(word[0], NULL, 10);
    it.b = (uint32_t)strtoul(*word[1] ? word[1] : word[0], NULL, 10);
    if (strcmp(word[0], "true") == 0 || strcmp(word[0], "false") == 0 || strcmp(word[0], "bool") == 0)
        it.value = truth(*word[0] == 't');
    else if (it.op == CONST || strcmp(word[0], "int") == 0)
        it.value = (struct value){.kind = IS_INT, .number = strtoll(word[0], NULL, 10)};
    if (no != NULL)
        *no++ = '\0';
    it.yes = (uint32_t)arcs.count;
    read_arcs(tail != NULL ? tail + strlen(" -> ") : "");
    it.no = (uint32_t)arcs.count;
    read_arcs(no != NULL ? no : "");
    it.end = (uint32_t)arcs.count;
    *(struct instr *)more(&graph, sizeof it) = it;
}

void read_listing(char *text) {
    for (char *line = strtok(text, "\n"); line != NULL; line = strtok(NULL, "\n"))
        read_line(line);
}

/* The input that the words give to a parameter, whose name stands at its place in the text. */
static struct value input_of(const struct instr *it, const char *text, char **words) {
    for (uint32_t line = 1; line < it->line && *text; text++)
        line += *text == '\n';
    text += it->column - 1;
    size_t length = strspn(text, "ABCDEFGHIJKLMNOPQRSTUVWXYZabcdefghijklmnopqrstuvwxyz_0123456789");
    for (; *words != NULL; words++) {
        if (strncmp(*words, text, length) != 0 || (*words)[length] != '=')
            continue;
        char *given = *words + length + 1, *end;
        if (it->value.kind == IS_BOOL && (strcmp(given, "true") == 0 || strcmp(given, "false") == 0))
            return truth(*given == 't');
        errno = 0;
        int64_t number = strtoll(given, &end, 10);
        if (it->value.kind == IS_BOOL || errno != 0 || *end != '\0' || end == given)
            fail("this is no input: %s", *words);
        return (struct value){.number = number, .kind = IS_INT};
    }
    fail("there is no input for %.*s", (int)length, text);
    return truth(0);
}

/* Puts in flight what is there at the start. Main's block begins at the next instruction with the place of instruction
   0; behind its second one stand its entries, merges that no arc and no reply feeds. */
void start(const char *text, char **words) {
    const struct instr *all = instr_at(0);
    const struct arc *arc = arcs.at;
    char *fed = cleared(graph.count, 1);
    uint32_t first = 1;
    for (size_t i = 0; i < graph.count; i++)
        if (all[i].op == ENTER || all[i].op == FETCH)
            fed[instr_at(all[i].b) - all] = 1;
    for (size_t i = 0; i < arcs.count; i++)
        fed[instr_at(arc[i].to) - all] = 1;
    while (instr_at(first)->line != all->line || instr_at(first)->column != all->column)
        first++;
    send_token(0, 0, first++, 0, (struct value){.kind = IS_SIGNAL});
    send_token(0, 0, first++, 0, (struct value){.kind = IS_CONTINUATION});
    for (; first < graph.count && all[first].op == MERGE && all[first].value.kind != IS_SIGNAL && !fed[first]; first++)
        send_token(0, 0, first, 0, input_of(&all[first], text, words));
    free(fed);
}
