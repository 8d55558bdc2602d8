// try PACKAGE CALLS ANSWERS: makes each call of a file by idc.h (.ci/packages has the format).
#include <stdio.h>
#include <stdlib.h>
#include "idc.h"

enum { MOST = 64 };
static FILE *calls, *answers;

// The next part of the file, with a zero behind it.
static char *next(size_t *length) {
    if (fscanf(calls, "%zu:", length) != 1) return NULL;
    char *part = malloc(*length + 1);
    if (!part || fread(part, 1, *length, calls) != *length || fgetc(calls) != ',') exit(2);
    part[*length] = 0;
    return part;
}

static void put(const char *bytes, size_t length) {
    fprintf(answers, "%zu:", length);
    fwrite(bytes, 1, length, answers);
    fputc(',', answers);
}

int main(int count, char **given) {
    if (count != 4 || !(calls = fopen(given[2], "rb")) || !(answers = fopen(given[3], "wb"))) return 2;
    size_t length;
    for (char *part; (part = next(&length));) {
        const char *words[MOST];
        struct idc_file files[MOST];
        size_t many = strtoul(part, NULL, 10);
        for (size_t i = 0; i < many; i++) words[i] = next(&length);
        size_t all = strtoul(next(&length), NULL, 10);
        for (size_t i = 0; i < all; i++) {
            files[i].name = next(&length);
            files[i].bytes = next(&files[i].length);
        }
        struct idc_answer answer;
        if (idc_call(words, many, files, all, &answer)) return 2;
        char status[16];
        put(status, (size_t)snprintf(status, sizeof status, "%d", answer.status));
        put(answer.out, answer.out_length);
        put(answer.err, answer.err_length);
        idc_free(&answer);
    }
    return fclose(answers) != 0;
}
