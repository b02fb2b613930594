/*
 * Counts the allocations and copies of a program that loads it, in the file COUNT_AT, as four 64-bit numbers: the
 * number of allocations, their bytes, the number of copies, their bytes. Short copies that the compiler inlines aren't
 * counted.
 */
#define _GNU_SOURCE
#include <dlfcn.h>
#include <fcntl.h>
#include <stdint.h>
#include <stdlib.h>
#include <sys/mman.h>
#include <unistd.h>

static uint64_t nowhere[4], *counts = nowhere;

__attribute__((constructor)) static void begin(void) {
    const char *path = getenv("COUNT_AT");
    int file = path ? open(path, O_RDWR | O_CREAT, 0600) : -1;
    if (file < 0 || ftruncate(file, sizeof nowhere)) {
        return;
    }
    void *at = mmap(NULL, sizeof nowhere, PROT_READ | PROT_WRITE, MAP_SHARED, file, 0);
    if (at != MAP_FAILED) {
        counts = at;
    }
    close(file);
}

static void count(int what, size_t size) {
    __atomic_add_fetch(&counts[what], 1, __ATOMIC_RELAXED);
    __atomic_add_fetch(&counts[what + 1], size, __ATOMIC_RELAXED);
}

void *malloc(size_t size) {
    static void *(*next)(size_t);
    if (!next) {
        next = (void *(*) (size_t)) dlsym(RTLD_NEXT, "malloc");
    }
    count(0, size);
    return next(size);
}

void *realloc(void *block, size_t size) {
    static void *(*next)(void *, size_t);
    if (!next) {
        next = (void *(*) (void *, size_t)) dlsym(RTLD_NEXT, "realloc");
    }
    count(0, size);
    return next(block, size);
}

void *memcpy(void *restrict to, const void *restrict from, size_t size) {
    void *at = to;
    count(2, size);
    __asm__ volatile("rep movsb" : "+D"(at), "+S"(from), "+c"(size) : : "memory");
    return to;
}

void *memmove(void *to, const void *from, size_t size) {
    char *at = to;
    const char *source = from;
    count(2, size);
    if (at <= source || at >= source + size) {
        while (size--) {
            *at++ = *source++;
        }
    } else {
        while (size--) {
            at[size] = source[size];
        }
    }
    return to;
}
