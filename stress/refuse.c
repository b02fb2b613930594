/*
 * Makes one allocation of the program that loads it fail: the one with the number REFUSE_AT, counted from 1. It then
 * creates the file REFUSE_TOLD. If REFUSE_LOCK is set, all locks fail, as on a file system without locks.
 */
#define _GNU_SOURCE
#include <dlfcn.h>
#include <errno.h>
#include <fcntl.h>
#include <stdlib.h>
#include <sys/file.h>
#include <unistd.h>

static unsigned long count, refused;

__attribute__((constructor)) static void begin(void) {
    const char *at = getenv("REFUSE_AT");
    refused = at ? strtoul(at, NULL, 10) : 0;
    count = 0;
}

static int is_refused(void) {
    const char *path;
    if (__atomic_add_fetch(&count, 1, __ATOMIC_SEQ_CST) != refused) {
        return 0;
    }
    if ((path = getenv("REFUSE_TOLD"))) {
        close(open(path, O_CREAT | O_WRONLY, 0600));
    }
    return 1;
}

void *malloc(size_t size) {
    static void *(*next)(size_t);
    if (!next) {
        next = (void *(*) (size_t)) dlsym(RTLD_NEXT, "malloc");
    }
    return is_refused() ? NULL : next(size);
}

void *realloc(void *block, size_t size) {
    static void *(*next)(void *, size_t);
    if (!next) {
        next = (void *(*) (void *, size_t)) dlsym(RTLD_NEXT, "realloc");
    }
    return is_refused() ? NULL : next(block, size);
}

int flock(int file, int how) {
    static int (*next)(int, int);
    if (getenv("REFUSE_LOCK")) {
        errno = ENOLCK;
        return -1;
    }
    if (!next) {
        next = (int (*)(int, int)) dlsym(RTLD_NEXT, "flock");
    }
    return next(file, how);
}
