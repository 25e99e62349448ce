/* Refuses one call of a program to the C library, for tests/faults/run.
 *
 * Loaded before the program's own libraries (LD_PRELOAD), it counts the calls of one kind, named by REFUSE: alloc (malloc
 * and realloc), open, read or write. The call of number REFUSE_AT, from 1 on, is refused: no memory, or an error of the
 * device. Where REFUSE_SHORT is set, that read or write moves one byte instead. With REFUSE_AT 0 nothing is refused. As the
 * program ends, the number of calls is written to the file that REFUSE_TOLD names.
 */
#define _GNU_SOURCE
#include <errno.h>
#include <fcntl.h>
#include <stdarg.h>
#include <stdlib.h>
#include <string.h>
#include <sys/syscall.h>
#include <unistd.h>

extern void *__libc_malloc(size_t size);
extern void *__libc_realloc(void *old, size_t size);

static const char *kind;
static long chosen;
static int is_short;
static int is_ready;
static long calls;

__attribute__((constructor)) static void begin(void) {
    const char *at = getenv("REFUSE_AT");
    kind = getenv("REFUSE");
    chosen = at ? atol(at) : 0;
    is_short = getenv("REFUSE_SHORT") != NULL;
    is_ready = kind != NULL;
}

__attribute__((destructor)) static void end(void) {
    const char *told = getenv("REFUSE_TOLD");
    char text[24];
    int at = sizeof text, file;
    long rest = calls;
    is_ready = 0;
    do
        text[--at] = '0' + rest % 10;
    while ((rest /= 10) > 0);
    if (told && (file = syscall(SYS_open, told, O_WRONLY | O_CREAT | O_TRUNC, 0600)) >= 0) {
        syscall(SYS_write, file, text + at, sizeof text - at);
        syscall(SYS_close, file);
    }
}

/* Whether this call is the chosen one. */
static int is_chosen(const char *of) {
    return is_ready && strcmp(kind, of) == 0 && ++calls == chosen;
}

void *malloc(size_t size) {
    if (is_chosen("alloc")) {
        errno = ENOMEM;
        return NULL;
    }
    return __libc_malloc(size);
}

void *realloc(void *old, size_t size) {
    if (is_chosen("alloc")) {
        errno = ENOMEM;
        return NULL;
    }
    return __libc_realloc(old, size);
}

int open(const char *path, int flags, ...) {
    va_list rest;
    va_start(rest, flags);
    mode_t mode = flags & O_CREAT ? va_arg(rest, mode_t) : 0;
    va_end(rest);
    if (is_chosen("open")) {
        errno = EIO;
        return -1;
    }
    return syscall(SYS_open, path, flags, mode);
}

/* How many of these bytes a call may move: one where it is cut short, and -1 where it is refused. */
static ssize_t allowed(const char *of, size_t count) {
    if (!is_chosen(of))
        return count;
    if (is_short)
        return count < 1 ? count : 1;
    errno = EIO;
    return -1;
}

ssize_t read(int file, void *bytes, size_t count) {
    ssize_t most = allowed("read", count);
    return most < 0 ? -1 : syscall(SYS_read, file, bytes, most);
}

ssize_t write(int file, const void *bytes, size_t count) {
    ssize_t most = allowed("write", count);
    return most < 0 ? -1 : syscall(SYS_write, file, bytes, most);
}
