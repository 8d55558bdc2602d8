/* idc as calls: the program in docs/play/index.html, as C that wasm2c made of its module. A call is one run of the
 * program, and leaves nothing to the next. Calls may be made by several threads at once. */
#ifndef IDC_H
#define IDC_H
#include <stddef.h>
#ifdef __cplusplus
extern "C" {
#endif

/* A file that a call may read; its name ends with a zero. */
struct idc_file {
    const char *name;
    const void *bytes;
    size_t length;
};

/* The status of the program (134 where its instance was ended, as no proved program is), and both streams. Behind the
 * last byte of each stands a zero more. */
struct idc_answer {
    int status;
    char *out;
    size_t out_length;
    char *err;
    size_t err_length;
};

/* What `idc WORDS` answers where these files are all that there is: 0, or -1 where there is no memory. */
int idc_call(const char *const *words, size_t count, const struct idc_file *files, size_t file_count,
             struct idc_answer *answer);

/* What `idc run text.id WORDS` answers, where the text stands in text.id. */
int idc_run(const char *text, size_t length, const char *const *words, size_t count, struct idc_answer *answer);

/* Gives back the memory of an answer's streams. */
void idc_free(struct idc_answer *answer);

/* What the module is made of, as the page's foot says it. */
const char *idc_of(void);

#ifdef __cplusplus
}
#endif
#endif
