/* Loaded before the C library: refuses the request for memory of the number in REFUSE, or with REFUSE_ON that one and
   all later ones. A byte to the file of the number in REFUSE_TELL says that a request was refused. */

#define _GNU_SOURCE
#include <dlfcn.h>
#include <stdlib.h>
#include <unistd.h>

static long asked, wanted = -1;

static int refuses(void) {
    if (wanted < 0) {
        const char *text = getenv("REFUSE");
        wanted = text ? atol(text) : 0;
    }
    asked++;
    if (wanted == 0 || asked < wanted || (asked > wanted && !getenv("REFUSE_ON"))) {
        return 0;
    }
    const char *tell = getenv("REFUSE_TELL");
    if (tell && write(atoi(tell), "x", 1) < 0) {
        _exit(99);
    }
    return 1;
}

void *malloc(size_t size) {
    static void *(*real)(size_t);
    if (!real) {
        real = (void *(*)(size_t))dlsym(RTLD_NEXT, "malloc");
    }
    return refuses() ? NULL : real(size);
}

void *realloc(void *old, size_t size) {
    static void *(*real)(void *, size_t);
    if (!real) {
        real = (void *(*)(void *, size_t))dlsym(RTLD_NEXT, "realloc");
    }
    return refuses() ? NULL : real(old, size);
}
