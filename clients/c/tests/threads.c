/* A connection for each thread, and a new one after a fork. */

#include "check.h"

#include <pthread.h>
#include <signal.h>
#include <sys/socket.h>
#include <sys/wait.h>
#include <time.h>
#include <unistd.h>

enum { THREADS = 8, MESSAGES = 50 };

static mach_port_t shared;

static void *send_many(void *from) {
    for (int i = 0; i < MESSAGES; i++) {
        mach_msg_header_t message = {.msgh_bits = MACH_MSGH_BITS(MACH_MSG_TYPE_MAKE_SEND, 0), .msgh_remote_port = shared};
        message.msgh_id = *(int *) from * MESSAGES + i;
        CHECK_OK(mach_msg(&message, MACH_SEND_MSG, sizeof message, 0, MACH_PORT_NULL, 0, MACH_PORT_NULL));
    }
    return NULL;
}

/* Threads send to a queue with room for one message, and wait for room; one thread receives, and waits for messages. */
static void many_threads(void) {
    pthread_t threads[THREADS];
    int numbers[THREADS], next[THREADS] = {0};
    CHECK_OK(mach_port_set_qlimit(SELF, shared, 1));
    for (int i = 0; i < THREADS; i++) {
        numbers[i] = i;
        CHECK(pthread_create(&threads[i], NULL, send_many, &numbers[i]) == 0);
    }
    for (int i = 0; i < THREADS * MESSAGES; i++) {
        mach_msg_header_t message = {0};
        CHECK_OK(mach_msg(&message, MACH_RCV_MSG, 0, sizeof message, shared, 0, MACH_PORT_NULL));
        int from = message.msgh_id / MESSAGES;
        CHECK(from >= 0 && from < THREADS && message.msgh_id == from * MESSAGES + next[from]++);
    }
    for (int i = 0; i < THREADS; i++) {
        pthread_join(threads[i], NULL);
    }
}

static void *use_reply_port(void *result) {
    mach_port_t port = mig_get_reply_port();
    CHECK(port != MACH_PORT_NULL && mig_get_reply_port() == port);
    CHECK(check_type(port) == MACH_PORT_TYPE_RECEIVE);
    mig_put_reply_port(port);
    CHECK(mig_get_reply_port() == port);
    *(mach_port_t *) result = port;
    return NULL;
}

static void reply_ports(void) {
    mach_port_t own = MACH_PORT_NULL, other = MACH_PORT_NULL;
    pthread_t thread;
    use_reply_port(&own);
    CHECK(pthread_create(&thread, NULL, use_reply_port, &other) == 0);
    pthread_join(thread, NULL);
    CHECK(own != other);
    CHECK(check_type(other) == MACH_PORT_TYPE_NONE); /* the right ended with its thread */
    mig_dealloc_reply_port(own);
    CHECK(check_type(own) == MACH_PORT_TYPE_NONE);
    CHECK(mig_get_reply_port() != MACH_PORT_NULL);
}

/* The child acts in the same space on a connection of its own, with a reply port of its own. */
static void forked(void) {
    mach_port_t own = mig_get_reply_port();
    pid_t child = fork();
    if (child == 0) {
        mach_msg_header_t message = {.msgh_bits = MACH_MSGH_BITS(MACH_MSG_TYPE_MAKE_SEND, 0), .msgh_remote_port = shared};
        bool is_done = mig_get_reply_port() != own && check_type(own) == MACH_PORT_TYPE_RECEIVE;
        mig_dealloc_reply_port(mig_get_reply_port());
        message.msgh_id = is_done ? 77 : 78;
        mach_msg(&message, MACH_SEND_MSG, sizeof message, 0, MACH_PORT_NULL, 0, MACH_PORT_NULL);
        _exit(0);
    }
    mach_msg_header_t message = {0};
    CHECK_OK(mach_msg(&message, MACH_RCV_MSG, 0, sizeof message, shared, 0, MACH_PORT_NULL));
    CHECK(message.msgh_id == 77);
    waitpid(child, NULL, 0);
    CHECK(check_type(own) == MACH_PORT_TYPE_RECEIVE);
    CHECK(mig_get_reply_port() == own);
}

static void *wait_long(void *port) {
    mach_msg_header_t message;
    mach_msg(&message, MACH_RCV_MSG | MACH_RCV_TIMEOUT, 0, sizeof message, *(mach_port_t *) port, 20000, MACH_PORT_NULL);
    return NULL;
}

/* Forks a process that waits in a second thread, forks a child and is killed. The child reports that it has started,
   and lives until the other end of the pair is closed. */
static pid_t fork_one_that_waits(mach_port_t port, const int *pair) {
    pid_t parent = fork();
    if (parent == 0) {
        pthread_t thread;
        pthread_create(&thread, NULL, wait_long, &port);
        nanosleep(&(struct timespec){.tv_nsec = 200000000}, NULL);
        if (fork() == 0) {
            char byte = 0;
            close(pair[0]);
            _exit(write(pair[1], &byte, 1) != 1 || read(pair[1], &byte, 1) != 0);
        }
        pause();
    }
    return parent;
}

/* Nobody waits any more after that: the child has closed its copies of the parent's connections, and no message goes
   there. */
static void a_wait_that_ends_with_its_process(void) {
    mach_port_t port = check_port();
    int pair[2];
    char byte;
    CHECK(socketpair(AF_UNIX, SOCK_STREAM, 0, pair) == 0);
    pid_t parent = fork_one_that_waits(port, pair);
    close(pair[1]);
    CHECK(read(pair[0], &byte, 1) == 1);
    kill(parent, SIGKILL);
    waitpid(parent, NULL, 0);
    mach_msg_header_t message = {.msgh_bits = MACH_MSGH_BITS(MACH_MSG_TYPE_MAKE_SEND, 0), .msgh_remote_port = port};
    CHECK_OK(mach_msg(&message, MACH_SEND_MSG, sizeof message, 0, MACH_PORT_NULL, 0, MACH_PORT_NULL));
    CHECK_OK(mach_msg(&message, MACH_RCV_MSG | MACH_RCV_TIMEOUT, 0, sizeof message, port, 1000, MACH_PORT_NULL));
    CHECK_OK(mach_port_destroy(SELF, port));
    close(pair[0]);
}

static void *receive_for_ever(void *port) {
    mach_msg_header_t message = {0};
    CHECK_CODE(mach_msg(&message, MACH_RCV_MSG, 0, sizeof message, *(mach_port_t *) port, 0, MACH_PORT_NULL),
               MACH_RCV_PORT_DIED);
    return NULL;
}

static void a_wait_that_ends(void) {
    mach_port_t port = check_port();
    pthread_t thread;
    CHECK(pthread_create(&thread, NULL, receive_for_ever, &port) == 0);
    nanosleep(&(struct timespec){.tv_nsec = 200000000}, NULL);
    CHECK_OK(mach_port_destroy(SELF, port));
    pthread_join(thread, NULL);
}

int main(int count, char **words) {
    shared = check_begin(count, words);
    many_threads();
    reply_ports();
    forked();
    a_wait_that_ends();
    a_wait_that_ends_with_its_process();
    return check_end();
}
