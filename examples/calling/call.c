/* call.c PROGRAM FILE [NAME=VALUE ..]: runs a text of Id by idc, and prints its answer. */
#define _POSIX_C_SOURCE 200809L
#include <stdio.h>
#include <stdlib.h>
#include <string.h>
#include <sys/wait.h>
#include <unistd.h>

/* Runs the program with these words, keeps the first line that it prints, and answers its status; -1 if it has none.
   1 is a fault, 2 a refusal, and 3 that it was stopped at the limit of messages. */
static int first_line(char **words, char *line, int size) {
    int ends[2], status;
    if (pipe(ends) != 0)
        return -1;
    pid_t child = fork();
    if (child == 0) {
        setenv("IDC_QUIET", "1", 1);
        dup2(ends[1], 1);
        dup2(ends[1], 2); /* a refusal stands on standard error, and then nothing else is printed */
        close(ends[0]);
        close(ends[1]);
        execvp(words[0], words);
        _exit(127);
    }
    close(ends[1]);
    FILE *said = fdopen(ends[0], "r");
    if (said == NULL || fgets(line, size, said) == NULL)
        line[0] = '\0';
    line[strcspn(line, "\n")] = '\0';
    while (said != NULL && getc(said) != EOF)
        ; /* the arrays are not looked at here */
    if (said != NULL)
        fclose(said);
    if (child < 0 || waitpid(child, &status, 0) != child || !WIFEXITED(status))
        return -1;
    return WEXITSTATUS(status);
}

int main(int count, char **given) {
    char line[4096], **words = calloc(count + 2, sizeof *words);
    if (words == NULL || count < 3)
        return 1;
    words[0] = given[1];
    words[1] = "run";
    memcpy(words + 2, given + 2, (count - 2) * sizeof *words);
    int status = first_line(words, line, sizeof line);
    if (status != 0)
        printf("status %d: %s\n", status, line);
    else /* a number, which fits a long long, `true`, `false`, the name of an array, or `none` */
        printf("%s\n", line + strlen("answer "));
    free(words);
    return 0;
}
