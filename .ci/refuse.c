/* Put before the C library of a program, this refuses the growth whose number stands in REFUSE, counted from 1, and
   where ONWARD is set each one after it; a growth is a call for memory, or one for a thread. And the read whose number
   stands in REFUSE_READ fails, and each one after it. What is in the file that MET names, a byte, says that one was
   refused. Made and used by .ci/growths. */
#define _GNU_SOURCE
#include <dlfcn.h>
#include <errno.h>
#include <fcntl.h>
#include <pthread.h>
#include <stddef.h>
#include <stdlib.h>
#include <unistd.h>

void *__libc_malloc(size_t size);
void *__libc_calloc(size_t count, size_t size);
void *__libc_realloc(void *old, size_t size);
void *__libc_memalign(size_t align, size_t size);

ssize_t __read(int file, void *into, size_t size);

static long refused, met, onward, asked, refused_read, reads;
static int begun;

/* before main, and so before the first growth that is the program's own */
__attribute__((constructor)) static void begin(void)
{
    const char *number = getenv("REFUSE"), *number_of_read = getenv("REFUSE_READ"), *file = getenv("MET");

    refused = number ? atol(number) : 0;
    refused_read = number_of_read ? atol(number_of_read) : 0;
    onward = getenv("ONWARD") != NULL;
    met = file ? open(file, O_WRONLY) : -1;
    begun = 1;
}

static int is_refused(void)
{
    long number;

    if (!begun)
        return 0;
    number = __atomic_add_fetch(&asked, 1, __ATOMIC_SEQ_CST);
    if (number != refused && !(onward && refused && number > refused))
        return 0;
    if (met >= 0 && number == refused && write(met, "x", 1) != 1)
        abort();
    errno = ENOMEM;
    return 1;
}

void *malloc(size_t size)
{
    return is_refused() ? NULL : __libc_malloc(size);
}

void *calloc(size_t count, size_t size)
{
    return is_refused() ? NULL : __libc_calloc(count, size);
}

void *realloc(void *old, size_t size)
{
    return is_refused() ? NULL : __libc_realloc(old, size);
}

void *memalign(size_t align, size_t size)
{
    return is_refused() ? NULL : __libc_memalign(align, size);
}

void *aligned_alloc(size_t align, size_t size)
{
    return memalign(align, size);
}

int posix_memalign(void **into, size_t align, size_t size)
{
    *into = memalign(align, size);
    return *into ? 0 : ENOMEM;
}

ssize_t read(int file, void *into, size_t size)
{
    long number;

    if (!begun || !refused_read)
        return __read(file, into, size);
    number = __atomic_add_fetch(&reads, 1, __ATOMIC_SEQ_CST);
    if (number < refused_read)
        return __read(file, into, size);
    if (met >= 0 && number == refused_read && write(met, "x", 1) != 1)
        abort();
    errno = EIO;
    return -1;
}

typedef int starter(pthread_t *, const pthread_attr_t *, void *(*)(void *), void *);

int pthread_create(pthread_t *thread, const pthread_attr_t *how, void *(*work)(void *), void *with)
{
    starter *start = (starter *)dlsym(RTLD_NEXT, "pthread_create");

    return is_refused() ? EAGAIN : start(thread, how, work, with);
}
