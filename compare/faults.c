/* Lets one call of a program fail, for compare/faults: the call number FAULT_AT of the kind FAULT_KIND, counted from 1. Where
 * that call came, one byte goes to the file descriptor FAULT_TOLD.
 *
 * Kinds: `memory` (malloc and realloc answer null), `read` (of standard input), `write` (to standard output), `tell` (to standard
 * error) and `thread` (pthread_create).
 */
#define _GNU_SOURCE
#include <dlfcn.h>
#include <errno.h>
#include <pthread.h>
#include <stdatomic.h>
#include <stdlib.h>
#include <string.h>
#include <sys/syscall.h>
#include <unistd.h>

extern void *__libc_malloc(size_t size);
extern void *__libc_realloc(void *old, size_t size);

static atomic_long calls;

/* Whether this call of that kind is the one that has to fail. */
static int fails(const char *kind)
{
    const char *asked = getenv("FAULT_KIND");
    if (asked == NULL || strcmp(asked, kind) != 0)
        return 0;
    if (atomic_fetch_add(&calls, 1) + 1 != atol(getenv("FAULT_AT")))
        return 0;
    syscall(SYS_write, atoi(getenv("FAULT_TOLD")), "x", 1);
    return 1;
}

void *malloc(size_t size)
{
    if (fails("memory")) {
        errno = ENOMEM;
        return NULL;
    }
    return __libc_malloc(size);
}

void *realloc(void *old, size_t size)
{
    if (fails("memory")) {
        errno = ENOMEM;
        return NULL;
    }
    return __libc_realloc(old, size);
}

ssize_t read(int file, void *bytes, size_t size)
{
    if (file == 0 && fails("read")) {
        errno = EIO;
        return -1;
    }
    return syscall(SYS_read, file, bytes, size);
}

ssize_t write(int file, const void *bytes, size_t size)
{
    if ((file == 1 && fails("write")) || (file == 2 && fails("tell"))) {
        errno = EIO;
        return -1;
    }
    return syscall(SYS_write, file, bytes, size);
}

ssize_t __write(int file, const void *bytes, size_t size)
{
    return write(file, bytes, size);
}

int pthread_create(pthread_t *made, const pthread_attr_t *how, void *(*start)(void *), void *with)
{
    int (*real)(pthread_t *, const pthread_attr_t *, void *(*)(void *), void *) = dlsym(RTLD_NEXT, "pthread_create");
    if (fails("thread"))
        return EAGAIN;
    return real(made, how, start, with);
}
