/* Receives in an event loop: machipc_receive and machipc_fd. */

#include "check.h"

#include <poll.h>
#include <pthread.h>
#include <sys/wait.h>
#include <time.h>
#include <unistd.h>

enum { MESSAGES = 60, SENDERS = 3, LONG = 10000 };

struct note {
    mach_msg_header_t head;
    uint32_t words[8];
};

static mach_port_t port;

static kern_return_t send_to(mach_port_t name, mach_msg_id_t id) {
    struct note note = {.head = {.msgh_bits = MACH_MSGH_BITS(MACH_MSG_TYPE_MAKE_SEND, 0), .msgh_remote_port = name}};
    note.head.msgh_id = id;
    return mach_msg(&note.head, MACH_SEND_MSG, sizeof note, 0, MACH_PORT_NULL, 0, MACH_PORT_NULL);
}

static bool is_readable(int milliseconds) {
    struct pollfd polled = {.fd = machipc_fd(), .events = POLLIN};
    return poll(&polled, 1, milliseconds) == 1;
}

static mach_msg_return_t receive(mach_port_t name, struct note *note) {
    return machipc_receive(&note->head, 0, sizeof *note, name);
}

static void one_message(void) {
    struct note note;
    CHECK_OK(send_to(port, 1));
    CHECK_OK(receive(port, &note));
    CHECK(note.head.msgh_id == 1);
    CHECK_CODE(receive(port, &note), MACH_RCV_IN_PROGRESS);
    CHECK_CODE(receive(port, &note), MACH_RCV_IN_PROGRESS);
    CHECK(!is_readable(0));
    CHECK_OK(send_to(port, 2)); /* other calls may be made while a receive is under way */
    CHECK(check_port_status(port).mps_msgcount == 1);
    CHECK(is_readable(LONG));
    CHECK_OK(receive(port, &note));
    CHECK(note.head.msgh_id == 2);
    CHECK(!is_readable(0));
}

/* Another receive takes the message first; then the wait continues. */
static void overtaken(void) {
    struct note note;
    CHECK_CODE(receive(port, &note), MACH_RCV_IN_PROGRESS);
    CHECK_OK(send_to(port, 3));
    CHECK_OK(mach_msg(&note.head, MACH_RCV_MSG, 0, sizeof note, port, 0, MACH_PORT_NULL));
    CHECK(is_readable(LONG));
    CHECK_CODE(receive(port, &note), MACH_RCV_IN_PROGRESS);
    CHECK(!is_readable(0));
}

/* A receive that is given up, for another port or for none, takes no message. */
static void given_up(void) {
    struct note note;
    mach_port_t other = check_port();
    int fd = machipc_fd();
    CHECK_CODE(receive(port, &note), MACH_RCV_IN_PROGRESS);
    CHECK_CODE(receive(other, &note), MACH_RCV_IN_PROGRESS);
    CHECK_OK(send_to(port, 4));
    CHECK(!is_readable(50));
    CHECK_OK(send_to(other, 5));
    CHECK(is_readable(LONG));
    machipc_receive_cancel();
    CHECK(!is_readable(0) && machipc_fd() == fd);
    CHECK_OK(receive(port, &note));
    CHECK(note.head.msgh_id == 4);
    CHECK_OK(receive(other, &note));
    CHECK(note.head.msgh_id == 5);
    CHECK_OK(mach_port_destroy(SELF, other));
    machipc_receive_cancel();
}

static void refusals(void) {
    struct note note;
    mach_port_t other = check_port();
    CHECK_CODE(receive(MACH_PORT_NULL, &note), MACH_RCV_INVALID_NAME);
    CHECK_CODE(receive(0x999, &note), MACH_RCV_INVALID_NAME);
    CHECK_CODE(machipc_receive(&note.head, MACH_RCV_MSG, sizeof note, port), KERN_INVALID_ARGUMENT);
    CHECK_CODE(receive(other, &note), MACH_RCV_IN_PROGRESS);
    CHECK_OK(mach_port_destroy(SELF, other));
    CHECK(is_readable(LONG));
    kern_return_t code = receive(other, &note);
    CHECK(code == MACH_RCV_PORT_DIED || code == MACH_RCV_INVALID_NAME); /* depending on which comes first */
    CHECK(!is_readable(0));
    CHECK_OK(send_to(port, 6));
    CHECK_CODE(machipc_receive(&note.head, MACH_RCV_LARGE, sizeof note.head, port), MACH_RCV_TOO_LARGE);
    CHECK(note.head.msgh_size == sizeof note && note.head.msgh_local_port == port);
    CHECK_OK(receive(port, &note));
    CHECK(note.head.msgh_id == 6);
}

static void *send_many(void *from) {
    for (int i = 0; i < MESSAGES; i++) {
        CHECK_OK(send_to(port, *(int *) from * MESSAGES + i));
    }
    return NULL;
}

/* Many messages arrive, each once and in its sender's order. */
static void many(void) {
    pthread_t senders[SENDERS];
    int numbers[SENDERS], next[SENDERS] = {0};
    for (int i = 0; i < SENDERS; i++) {
        numbers[i] = i;
        CHECK(pthread_create(&senders[i], NULL, send_many, &numbers[i]) == 0);
    }
    for (int got = 0; got < SENDERS * MESSAGES;) {
        struct note note = {.head = {0}};
        mach_msg_return_t code = receive(port, &note);
        if (code == MACH_RCV_IN_PROGRESS) {
            CHECK(is_readable(LONG));
            continue;
        }
        CHECK_OK(code);
        int from = note.head.msgh_id / MESSAGES;
        CHECK(from >= 0 && from < SENDERS && note.head.msgh_id == from * MESSAGES + next[from]++);
        got++;
    }
    for (int i = 0; i < SENDERS; i++) {
        pthread_join(senders[i], NULL);
    }
}

/* A child has a descriptor of its own, and doesn't disturb the parent's wait. */
static void forked(void) {
    struct note note;
    int ended = 1;
    CHECK_CODE(receive(port, &note), MACH_RCV_IN_PROGRESS);
    pid_t child = fork();
    if (child == 0) {
        bool is_done = receive(port, &note) == MACH_RCV_IN_PROGRESS && !is_readable(0);
        machipc_receive_cancel();
        _exit(!is_done);
    }
    waitpid(child, &ended, 0);
    CHECK(ended == 0);
    CHECK(!is_readable(0));
    CHECK_OK(send_to(port, 7));
    CHECK(is_readable(LONG));
    CHECK_OK(receive(port, &note));
}

/* A wait in one space isn't a wait in another space that has the same name. */
static void in_another_space(void) {
    machipc_space_t own = machipc_space();
    machipc_task_t task = {0};
    struct note note;
    mach_port_t name = check_port();
    CHECK_OK(machipc_task_begin(MACH_PORT_NULL, 0, &task));
    CHECK_CODE(receive(name, &note), MACH_RCV_IN_PROGRESS);
    CHECK_OK(machipc_attach(task.space));
    CHECK_OK(mach_port_allocate_name(SELF, MACH_PORT_RIGHT_RECEIVE, name));
    CHECK_CODE(receive(name, &note), MACH_RCV_IN_PROGRESS);
    CHECK_OK(send_to(name, 8));
    CHECK(is_readable(LONG));
    CHECK_OK(receive(name, &note));
    CHECK(note.head.msgh_id == 8);
    CHECK_OK(machipc_space_destroy());
    CHECK_CODE(receive(name, &note), KERN_INVALID_TASK);
    CHECK_OK(machipc_attach(own));
    CHECK_CODE(receive(name, &note), MACH_RCV_IN_PROGRESS);
    CHECK_OK(mach_port_destroy(SELF, name));
}

int main(int count, char **words) {
    port = check_begin(count, words);
    one_message();
    overtaken();
    given_up();
    refusals();
    many();
    forked();
    in_another_space();
    return check_end();
}
