/* Loaded before the C library: the call of the number in FAIL, of those named by FAIL_CALL (open, read or write), fails
   with the error of the number in FAIL_ERROR; with FAIL_MOST no read and no write takes more than so many bytes. A byte
   to the file of the number in FAIL_TELL says that a call failed. */

#define _GNU_SOURCE
#include <dlfcn.h>
#include <errno.h>
#include <fcntl.h>
#include <stdarg.h>
#include <stdlib.h>
#include <string.h>
#include <sys/types.h>
#include <unistd.h>

static ssize_t (*real_write)(int, const void *, size_t);

static long number_in(const char *name) {
    const char *text = getenv(name);
    return text ? atol(text) : 0;
}

static int fails(const char *call) {
    static long calls;
    const char *wanted = getenv("FAIL_CALL");
    if (!wanted || strcmp(wanted, call) != 0 || ++calls != number_in("FAIL")) {
        return 0;
    }
    if (!real_write) {
        real_write = (ssize_t (*)(int, const void *, size_t))dlsym(RTLD_NEXT, "write");
    }
    if (real_write((int)number_in("FAIL_TELL"), "x", 1) < 0) {
        _exit(99);
    }
    errno = (int)number_in("FAIL_ERROR");
    return 1;
}

static size_t at_most(size_t size) {
    size_t most = (size_t)number_in("FAIL_MOST");
    return most && most < size ? most : size;
}

int open(const char *path, int flags, ...) {
    static int (*real)(const char *, int, ...);
    va_list more;
    va_start(more, flags);
    int mode = flags & O_CREAT ? va_arg(more, int) : 0;
    va_end(more);
    if (!real) {
        real = (int (*)(const char *, int, ...))dlsym(RTLD_NEXT, "open");
    }
    return fails("open") ? -1 : real(path, flags, mode);
}

ssize_t read(int file, void *into, size_t size) {
    static ssize_t (*real)(int, void *, size_t);
    if (!real) {
        real = (ssize_t (*)(int, void *, size_t))dlsym(RTLD_NEXT, "read");
    }
    return fails("read") ? -1 : real(file, into, at_most(size));
}

ssize_t write(int file, const void *from, size_t size) {
    if (!real_write) {
        real_write = (ssize_t (*)(int, const void *, size_t))dlsym(RTLD_NEXT, "write");
    }
    return fails("write") ? -1 : real_write(file, from, at_most(size));
}
