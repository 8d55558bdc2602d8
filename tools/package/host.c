// What the module asks of its host, for C: the calls of idc.h, or, with IDC_COMMAND, the program as a command, with
// real files and streams. Above it stand the module, as wasm2c gives it, and wasm2c's runtime.
#include <errno.h>
#include <fcntl.h>
#include <setjmp.h>
#include <signal.h>
#include <stdlib.h>
#include <string.h>
#include <unistd.h>

#ifdef IDC_COMMAND
struct idc_file;
struct idc_answer;
#else
#include "idc.h"
#endif

enum { OPEN = 16, FIRST = 3, ENDED = 134 };
struct stream { char *bytes; size_t length, room; };
struct Z_host_instance_t {
    const char *const *words;
    size_t count;
    Z_idc_instance_t *module;
    const struct idc_file *files;
    size_t file_count;
    struct { const struct idc_file *file; size_t at; } opened[OPEN];
    int open;
    struct stream written[2];
    int is_full;
    jmp_buf end;
};
typedef struct Z_host_instance_t host;

static char *at(host *it, u64 address) { return (char *)Z_idcZ_memory(it->module)->data + (u32)address; }

u32 Z_hostZ_arg(host *it, u32 number, u64 to, u64 room) {
    if (number > it->count) return (u32)-1;
    const char *word = number ? it->words[number - 1] : "idc";
    size_t length = strlen(word);
    memcpy(at(it, to), word, length < room ? length : room);
    return length > room ? (u32)-2 : (u32)length;
}

void Z_hostZ_exit(host *it, u32 status) { longjmp(it->end, (int)status + 1); }

// Where the module traps: back to the call of this thread.
static __thread host *running;
static void trapped(wasm_rt_trap_t trap) { (void)trap; longjmp(running->end, ENDED + 1); }

// The status of the program, in an instance of its own.
static int status_of(host *it) {
    Z_idc_instance_t module;
    memset(&module, 0, sizeof module);
    it->module = &module;
    running = it;
    Z_idc_instantiate(&module, it);
    int ended = setjmp(it->end);
    int status = ended ? ended - 1 : (int)Z_idcZ_main(&module, 0, 0);
    Z_idc_free(&module);
    return status;
}

#ifdef IDC_COMMAND

static u32 answered(long got) { return (u32)(got < 0 ? -errno : got); }
u32 Z_hostZ_open(host *it, u64 path) { return answered(open(at(it, path), O_RDONLY | O_CLOEXEC)); }
u32 Z_hostZ_read(host *it, u32 file, u64 to, u64 most) { return answered(read((int)file, at(it, to), most)); }
u32 Z_hostZ_write(host *it, u32 file, u64 from, u64 n) { return answered(write((int)file, at(it, from), n)); }

int main(int count, char **words) {
    signal(SIGPIPE, SIG_IGN);
    wasm_rt_init();
    Z_idc_init_module();
    host it = {.words = (const char *const *)words + 1, .count = count > 0 ? (size_t)count - 1 : 0};
    return status_of(&it);
}

#else

u32 Z_hostZ_open(host *it, u64 path) {
    for (size_t i = 0; i < it->file_count; i++) {
        if (strcmp(it->files[i].name, at(it, path))) continue;
        if (it->open == OPEN) return (u32)-EMFILE;
        it->opened[it->open].file = &it->files[i];
        it->opened[it->open].at = 0;
        return (u32)(FIRST + it->open++);
    }
    return (u32)-ENOENT;
}

u32 Z_hostZ_read(host *it, u32 file, u64 to, u64 most) {
    if (file < FIRST || file >= (u32)(FIRST + it->open)) return 0;
    size_t *from = &it->opened[file - FIRST].at;
    const struct idc_file *of = it->opened[file - FIRST].file;
    size_t left = of->length - *from, n = left < most ? left : most;
    if (n) memcpy(at(it, to), (const char *)of->bytes + *from, n);
    *from += n;
    return (u32)n;
}

// Whether a stream has taken n bytes more, with a zero behind them.
static int put(struct stream *to, const char *from, size_t n) {
    if (to->length + n + 1 > to->room) {
        size_t room = (to->length + n + 1) * 2;
        char *bytes = realloc(to->bytes, room);
        if (!bytes) return 0;
        to->bytes = bytes;
        to->room = room;
    }
    if (n) memcpy(to->bytes + to->length, from, n);
    to->length += n;
    to->bytes[to->length] = 0;
    return 1;
}

u32 Z_hostZ_write(host *it, u32 stream, u64 from, u64 n) {
    if (stream != 1 && stream != 2) return (u32)-EBADF;
    if (put(&it->written[stream - 1], at(it, from), n)) return (u32)n;
    it->is_full = 1;
    return (u32)-ENOSPC;
}

// The module's tables are made once, when the library is loaded.
__attribute__((constructor)) static void begin(void) {
    wasm_rt_init();
    Z_idc_init_module();
}

int idc_call(const char *const *words, size_t count, const struct idc_file *files, size_t file_count,
             struct idc_answer *answer) {
    host it = {.words = words, .count = count, .files = files, .file_count = file_count};
    memset(answer, 0, sizeof *answer);
    if (!put(&it.written[0], "", 0) || !put(&it.written[1], "", 0)) it.is_full = 1;
    int status = it.is_full ? 0 : status_of(&it);
    if (it.is_full) {
        free(it.written[0].bytes);
        free(it.written[1].bytes);
        return -1;
    }
    answer->status = status;
    answer->out = it.written[0].bytes;
    answer->out_length = it.written[0].length;
    answer->err = it.written[1].bytes;
    answer->err_length = it.written[1].length;
    return 0;
}

int idc_run(const char *text, size_t length, const char *const *words, size_t count, struct idc_answer *answer) {
    const struct idc_file file = {"text.id", text, length};
    const char **all = malloc((count + 2) * sizeof *all);
    if (!all) return -1;
    all[0] = "run";
    all[1] = file.name;
    for (size_t i = 0; i < count; i++) all[i + 2] = words[i];
    int done = idc_call(all, count + 2, &file, 1, answer);
    free(all);
    return done;
}

void idc_free(struct idc_answer *answer) {
    free(answer->out);
    free(answer->err);
    memset(answer, 0, sizeof *answer);
}

const char *idc_of(void) { return IDC_OF; }

#endif
