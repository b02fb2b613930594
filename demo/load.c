/* Makes calls on a server's socket and prints a line: how many were answered per second, and within how many microseconds
   50, 99 and 99.9 percent of them were (from 16 on an upper bound, less than a sixteenth too high).

     load SOCKET CONNECTIONS SECONDS KIND FRAMES [THREADS]

   KIND is `allocate` (ports are allocated, and then their names destroyed; both are counted), `message` (a message is sent
   and received), `read` (the type of a name), or `pair` (a message is sent to a second connection, which waits for it and
   answers; the answer is waited for). FRAMES are written at once, and their replies read before the next. Each of THREADS
   threads serves many connections, as redis-benchmark's do; without that word each connection, and each pair, has its own.
   The status is 1 where the server isn't there, goes, or answers anything but code 0. */
#define _GNU_SOURCE
#include <errno.h>
#include <pthread.h>
#include <stdint.h>
#include <stdio.h>
#include <stdlib.h>
#include <string.h>
#include <sys/epoll.h>
#include <sys/socket.h>
#include <sys/un.h>
#include <time.h>
#include <unistd.h>

enum { TYPE = 2, ALLOCATE = 5, DESTROY = 6, MACH_MSG = 19, RECEIVE = 1, SUCCESS = 0 };
enum { MOST_FRAMES = 64, MOST_WORDS = 16, REPLY_BYTES = 48, BUCKETS = 1024, MOST_EVENTS = 64 };
enum kind { ALLOCATES, MESSAGES, READS, PAIRS };

struct connection {
    int descriptor;
    uint32_t number; /* of the calls that are under way */
    uint32_t port, names[MOST_FRAMES];
    int answered;
    int64_t began;
    size_t held;
    unsigned char bytes[MOST_FRAMES * REPLY_BYTES];
};

struct share {
    pthread_t thread;
    int poll;
    int count;
    struct connection *connections;
    uint64_t calls;
    uint64_t within[BUCKETS];
};

static const char *path;
static int frames;
static enum kind kind;
static int64_t ends;

static void fail(const char *why) {
    fprintf(stderr, "load: %s\n", why);
    exit(1);
}

static int64_t now(void) {
    struct timespec time;
    clock_gettime(CLOCK_MONOTONIC, &time);
    return time.tv_sec * 1000000000LL + time.tv_nsec;
}

/* Sixteen buckets for each power of two. */
static int bucket_of(uint64_t microseconds) {
    if (microseconds < 16) {
        return (int) microseconds;
    }
    int power = 63 - __builtin_clzll(microseconds);
    return 16 * (power - 3) + (int) ((microseconds >> (power - 4)) & 15);
}

static uint64_t bound_of(int bucket) {
    if (bucket < 16) {
        return (uint64_t) bucket;
    }
    int power = bucket / 16 + 3;
    return ((uint64_t) (bucket % 16 + 17) << (power - 4)) - 1;
}

static void put_word(unsigned char *at, uint32_t word) {
    for (int i = 0; i < 4; i++) {
        at[i] = (unsigned char) (word >> 8 * i);
    }
}

static uint32_t word_at(const unsigned char *at) {
    return at[0] | at[1] << 8 | at[2] << 16 | (uint32_t) at[3] << 24;
}

static void count_call(struct share *share, int64_t began) {
    share->calls++;
    share->within[bucket_of((uint64_t) (now() - began) / 1000)]++;
}

/* Appends a frame with these words. Returns its length in bytes. */
static size_t put_frame(unsigned char *at, const uint32_t *words, size_t count) {
    put_word(at, (uint32_t) (4 * count));
    for (size_t i = 0; i < count; i++) {
        put_word(at + 4 + 4 * i, words[i]);
    }
    return 4 + 4 * count;
}

static void write_all(struct connection *it, const unsigned char *bytes, size_t size) {
    if (send(it->descriptor, bytes, size, MSG_NOSIGNAL) != (ssize_t) size) {
        fail("the server doesn't read");
    }
}

/* Appends the frame of a call with this number. */
static size_t put_call(unsigned char *at, const struct connection *it, uint32_t number, int index) {
    const uint32_t message[] = {MACH_MSG, 3, 28, it->port, 0, 0x14, 28, it->port, 0, 0, 7, 0x44332211};
    const uint32_t other[] = {number, number == ALLOCATE ? RECEIVE : number == TYPE ? it->port : it->names[index]};
    return number == MACH_MSG ? put_frame(at, message, 12) : put_frame(at, other, 2);
}

/* Writes `count` frames at once. */
static void ask(struct connection *it, uint32_t number, int count) {
    unsigned char out[MOST_FRAMES * 4 * MOST_WORDS];
    size_t size = 0;
    for (int i = 0; i < count; i++) {
        size += put_call(out + size, it, number, i);
    }
    it->number = number;
    it->answered = 0;
    it->began = now();
    write_all(it, out, size);
}

static size_t reply_size(uint32_t number) {
    return number == MACH_MSG ? REPLY_BYTES : number == DESTROY ? 12 : 16;
}

/* Takes the replies that have come. Returns true if all have. */
static int take(struct connection *it, struct share *share, int count) {
    size_t size = reply_size(it->number), at = 0;
    ssize_t got = recv(it->descriptor, it->bytes + it->held, sizeof it->bytes - it->held, 0);
    if (got <= 0) {
        fail("the server is gone");
    }
    it->held += (size_t) got;
    for (; at + size <= it->held && it->answered < count; at += size) {
        const unsigned char *reply = it->bytes + at;
        if (word_at(reply) != size - 4 || word_at(reply + 4) != it->number || word_at(reply + 8) != SUCCESS) {
            fail("a call is refused");
        }
        if (it->number == ALLOCATE) {
            it->names[it->answered] = word_at(reply + 12);
        }
        it->answered++;
        if (share) {
            count_call(share, it->began);
        }
    }
    it->held -= at;
    memmove(it->bytes, it->bytes + at, it->held);
    return it->answered == count;
}

/* Returns the name of a new receive right. */
static uint32_t new_port(struct connection *it) {
    ask(it, ALLOCATE, 1);
    while (!take(it, NULL, 1)) {
        ;
    }
    return it->names[0];
}

static void open_connection(struct connection *it) {
    struct sockaddr_un address = {.sun_family = AF_UNIX};
    strncpy(address.sun_path, path, sizeof address.sun_path - 1);
    it->descriptor = socket(AF_UNIX, SOCK_STREAM, 0);
    if (it->descriptor < 0 || connect(it->descriptor, (struct sockaddr *) &address, sizeof address)) {
        fail("the server isn't there");
    }
    if (kind != ALLOCATES) {
        it->port = new_port(it);
    }
}

static uint32_t first_number(void) {
    return kind == ALLOCATES ? ALLOCATE : kind == READS ? TYPE : MACH_MSG;
}

/* Serves the connections of a share until the time is over and no name is left. */
static void *serve(void *argument) {
    struct share *share = argument;
    struct epoll_event events[MOST_EVENTS];
    int left = share->count;
    for (int i = 0; i < share->count; i++) {
        ask(&share->connections[i], first_number(), frames);
    }
    while (left > 0) {
        int count = epoll_wait(share->poll, events, MOST_EVENTS, -1);
        if (count < 0 && errno != EINTR) {
            fail("epoll_wait");
        }
        for (int i = 0; i < count; i++) {
            struct connection *it = events[i].data.ptr;
            if (!take(it, share, frames)) {
                continue;
            }
            if (it->number == ALLOCATE) {
                ask(it, DESTROY, frames);
            } else if (it->began < ends) {
                ask(it, first_number(), frames);
            } else {
                left--;
            }
        }
    }
    return NULL;
}

/* Reads one reply whose code is 0, and returns its word at this index, or 0. */
static uint32_t read_reply(struct connection *it, size_t index) {
    unsigned char bytes[4 + 4 * MOST_WORDS];
    if (recv(it->descriptor, bytes, 4, MSG_WAITALL) != 4) {
        fail("the server is gone");
    }
    size_t size = word_at(bytes);
    if (size > 4 * MOST_WORDS || recv(it->descriptor, bytes + 4, size, MSG_WAITALL) != (ssize_t) size) {
        fail("the server is gone");
    }
    if (word_at(bytes + 8) != SUCCESS) {
        fail("a call is refused");
    }
    return 4 * index < size ? word_at(bytes + 4 + 4 * index) : 0;
}

/* Waits for a message at a port, and replies by the right that came with it. */
static void answer(struct connection *it, uint32_t port) {
    unsigned char out[4 + 4 * MOST_WORDS];
    const uint32_t receive[] = {MACH_MSG, 2, 28, port, 0};
    write_all(it, out, put_frame(out, receive, 5));
    const uint32_t send[] = {MACH_MSG, 1, 0, 0, 0, 0x12, 28, read_reply(it, 6), 0, 0, 8, 0};
    write_all(it, out, put_frame(out, send, 12));
    read_reply(it, 0);
}

/* One connection sends requests to the other, as many at once as there are frames. */
static void *serve_pair(void *argument) {
    struct share *share = argument;
    struct connection *it = &share->connections[0], *other = &share->connections[1];
    unsigned char out[4 + 4 * MOST_WORDS];
    uint32_t back = new_port(it);
    const uint32_t question[] = {MACH_MSG, 3, 28, back, 0, 0x1514, 28, it->port, back, 0, 7, 0x44332211};
    size_t size = put_frame(out, question, 12);
    while (now() < ends) {
        int64_t began = now();
        for (int i = 0; i < frames; i++) {
            write_all(it, out, size);
        }
        for (int i = 0; i < frames; i++) {
            answer(other, it->port);
            read_reply(it, 0);
            count_call(share, began);
        }
    }
    return NULL;
}

static void share_out(struct share *share, int count) {
    int open = kind == PAIRS ? 2 : count;
    share->count = count;
    share->poll = epoll_create1(0);
    share->connections = calloc((size_t) open + 1, sizeof *share->connections);
    if (share->poll < 0 || !share->connections) {
        fail("no memory");
    }
    for (int i = 0; i < open; i++) {
        struct epoll_event event = {.events = EPOLLIN, .data.ptr = &share->connections[i]};
        open_connection(&share->connections[i]);
        if (epoll_ctl(share->poll, EPOLL_CTL_ADD, share->connections[i].descriptor, &event)) {
            fail("epoll_ctl");
        }
    }
}

static uint64_t within(const struct share *all, uint64_t thousandths) {
    uint64_t wanted = (all->calls * thousandths + 999) / 1000, sum = 0;
    for (int i = 0; i < BUCKETS; i++) {
        sum += all->within[i];
        if (sum >= wanted) {
            return bound_of(i);
        }
    }
    return 0;
}

static int number(const char *word) {
    char *end;
    long found = strtol(word, &end, 10);
    if (end == word || *end || found < 1 || found > 1000000) {
        fail("command line");
    }
    return (int) found;
}

static enum kind kind_of(const char *word) {
    static const char *const names[] = {"allocate", "message", "read", "pair"};
    for (int i = 0; i < 4; i++) {
        if (strcmp(word, names[i]) == 0) {
            return (enum kind) i;
        }
    }
    fail("command line");
    return ALLOCATES;
}

int main(int count, char **words) {
    if (count != 6 && count != 7) {
        fprintf(stderr, "usage: load SOCKET CONNECTIONS SECONDS allocate|message|read|pair FRAMES [THREADS]\n");
        return 2;
    }
    path = words[1];
    int connections = number(words[2]), seconds = number(words[3]), threads = count == 7 ? number(words[6]) : connections;
    kind = kind_of(words[4]);
    frames = number(words[5]);
    if (threads > connections || (kind == PAIRS && threads != connections) || frames > MOST_FRAMES) {
        fail("command line");
    }
    struct share *shares = calloc((size_t) threads, sizeof *shares), all = {0};
    if (!shares) {
        fail("no memory");
    }
    for (int i = 0; i < threads; i++) {
        share_out(&shares[i], connections / threads + (i < connections % threads));
    }
    int64_t began = now();
    ends = began + seconds * 1000000000LL;
    for (int i = 0; i < threads; i++) {
        if (pthread_create(&shares[i].thread, NULL, kind == PAIRS ? serve_pair : serve, &shares[i])) {
            fail("no thread");
        }
    }
    for (int i = 0; i < threads; i++) {
        pthread_join(shares[i].thread, NULL);
        all.calls += shares[i].calls;
        for (int j = 0; j < BUCKETS; j++) {
            all.within[j] += shares[i].within[j];
        }
    }
    double took = (double) (now() - began) / 1e9;
    printf("%d connections, %d frames: %.0f calls a second; microseconds %llu %llu %llu\n", connections, frames,
           (double) all.calls / took, (unsigned long long) within(&all, 500), (unsigned long long) within(&all, 990),
           (unsigned long long) within(&all, 999));
    return 0;
}
