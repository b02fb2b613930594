/* A library to preload. It makes calls on the files of a store fail, or leaves out syncs. FAULT_FOLDER is the store's folder; calls
   on other files are unchanged.

   FAULT_CALL is open, read, write, fsync or ftruncate. The call fails from its FAULT_AT-th time on (counted from 1), and only
   that time if FAULT_ONCE is set. The error is FAULT_ERROR. If that is 0, a read or a write transfers one byte, and any other
   call is interrupted (EINTR). The library creates the file FAULT_TOLD when the fault is met.

   FAULT_SYNC selects syncs without effect: `all`, `second` (every second one) or `folder` (those of folders). `gate` instead opens
   and syncs a batch's gate before the batch is written.

   FAULT_NAMES is a file to which the library appends a line for each new file and for each folder that was synced, with the number
   at the beginning of the file FAULT_COUNT. */
#define _GNU_SOURCE
#include <dlfcn.h>
#include <errno.h>
#include <fcntl.h>
#include <stdarg.h>
#include <stdio.h>
#include <stdlib.h>
#include <string.h>
#include <sys/mman.h>
#include <sys/stat.h>
#include <unistd.h>

enum { NOTHING, FAILS, PARTLY };

static const char *folder, *failing, *told, *syncs, *names;
static const volatile unsigned long *counted;
static unsigned long count, first, seconds;
static int error, is_once;

static const char *word(const char *name) {
    const char *found = getenv(name);
    return found ? found : "";
}

static int open_next(const char *path, int flags, mode_t mode) {
    static int (*next)(const char *, int, ...);
    if (!next) {
        next = (int (*)(const char *, int, ...)) dlsym(RTLD_NEXT, "open");
    }
    return next(path, flags, mode);
}

__attribute__((constructor)) static void begin(void) {
    folder = word("FAULT_FOLDER");
    failing = word("FAULT_CALL");
    told = word("FAULT_TOLD");
    syncs = word("FAULT_SYNC");
    first = strtoul(word("FAULT_AT"), NULL, 10);
    error = (int) strtol(word("FAULT_ERROR"), NULL, 10);
    is_once = *word("FAULT_ONCE") != 0;
    names = word("FAULT_NAMES");
    if (*names) {
        int file = open_next(word("FAULT_COUNT"), O_RDONLY, 0);
        counted = mmap(NULL, sizeof *counted, PROT_READ, MAP_SHARED, file, 0);
        close(file);
    }
}

static int is_below(const char *path) {
    return *folder && !strncmp(path, folder, strlen(folder));
}

static void find_path(int file, char *path, size_t size) {
    char link[64];
    ssize_t length;
    snprintf(link, sizeof link, "/proc/self/fd/%d", file);
    length = readlink(link, path, size - 1);
    path[length > 0 ? length : 0] = 0;
}

static int is_ours(int file) {
    char path[4096];
    find_path(file, path, sizeof path);
    return is_below(path);
}

static int is_folder(int file) {
    struct stat found;
    return !fstat(file, &found) && S_ISDIR(found.st_mode);
}

static void note(const char *what, unsigned long when, const char *path) {
    int file = open_next(names, O_CREAT | O_APPEND | O_WRONLY, 0600);
    dprintf(file, "%s %lu %s\n", what, when, path);
    close(file);
}

/* Returns the outcome of a call, and sets errno. */
static int fate(const char *name) {
    unsigned long number;
    if (strcmp(name, failing)) {
        return NOTHING;
    }
    number = __atomic_add_fetch(&count, 1, __ATOMIC_SEQ_CST);
    if (number < first || (is_once && number > first)) {
        return NOTHING;
    }
    if (*told) {
        close(open_next(told, O_CREAT | O_WRONLY, 0600));
    }
    errno = error ? error : EINTR;
    return error ? FAILS : PARTLY;
}

static int opened(const char *path, int flags, mode_t mode) {
    if (is_below(path) && fate("open")) {
        return -1;
    }
    if (*names && is_below(path) && (flags & O_CREAT) && access(path, F_OK)) {
        note("made", *counted, path);
    }
    return open_next(path, flags, mode);
}

int open(const char *path, int flags, ...) {
    va_list words;
    va_start(words, flags);
    mode_t mode = flags & O_CREAT ? va_arg(words, mode_t) : 0;
    va_end(words);
    return opened(path, flags, mode);
}

int open64(const char *path, int flags, ...) {
    va_list words;
    va_start(words, flags);
    mode_t mode = flags & O_CREAT ? va_arg(words, mode_t) : 0;
    va_end(words);
    return opened(path, flags, mode);
}

ssize_t read(int file, void *bytes, size_t size) {
    static ssize_t (*next)(int, void *, size_t);
    int met;
    if (!next) {
        next = (ssize_t(*)(int, void *, size_t)) dlsym(RTLD_NEXT, "read");
    }
    met = !strcmp(failing, "read") && is_ours(file) ? fate("read") : NOTHING;
    return met == FAILS ? -1 : next(file, bytes, met == PARTLY && size ? 1 : size);
}

/* Opens and syncs the gate of a batch that is about to be written. A batch is longer than 13 bytes. */
static void open_gate(int file, size_t size) {
    static int (*next)(int);
    off_t at = lseek(file, 0, SEEK_CUR);
    if (!next) {
        next = (int (*)(int)) dlsym(RTLD_NEXT, "fsync");
    }
    if (size > 13 && at > 16 && pwrite(file, "\x5a", 1, at - 1) == 1) {
        next(file);
    }
}

ssize_t write(int file, const void *bytes, size_t size) {
    static ssize_t (*next)(int, const void *, size_t);
    int met;
    if (!next) {
        next = (ssize_t(*)(int, const void *, size_t)) dlsym(RTLD_NEXT, "write");
    }
    if (!strcmp(syncs, "gate") && is_ours(file)) {
        open_gate(file, size);
    }
    met = !strcmp(failing, "write") && is_ours(file) ? fate("write") : NOTHING;
    return met == FAILS ? -1 : next(file, bytes, met == PARTLY && size ? 1 : size);
}

static int is_left_out(int file) {
    if (!strcmp(syncs, "second")) {
        return __atomic_add_fetch(&seconds, 1, __ATOMIC_SEQ_CST) % 2 == 0;
    }
    if (!strcmp(syncs, "folder")) {
        return is_folder(file);
    }
    return !strcmp(syncs, "all");
}

static int synced(int file, const char *name) {
    int (*next)(int) = (int (*)(int)) dlsym(RTLD_NEXT, name);
    if (is_ours(file) && is_left_out(file)) {
        return 0;
    }
    if (is_ours(file) && fate("fsync")) {
        return -1;
    }
    int result = next(file);
    if (*names && !result && is_folder(file)) {
        char path[4096];
        find_path(file, path, sizeof path);
        note("synced", *counted, path);
    }
    return result;
}

int fsync(int file) {
    return synced(file, "fsync");
}
int fdatasync(int file) {
    return synced(file, "fdatasync");
}

int ftruncate(int file, off_t length) {
    static int (*next)(int, off_t);
    if (!next) {
        next = (int (*)(int, off_t)) dlsym(RTLD_NEXT, "ftruncate");
    }
    return is_ours(file) && fate("ftruncate") ? -1 : next(file, length);
}

int ftruncate64(int file, off_t length) {
    return ftruncate(file, length);
}
