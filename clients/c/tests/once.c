/*
 * Calls in the mode of machipc_once, to a server that is killed or cuts connections meanwhile: each has one effect and
 * one answer. The optional second argument is the number of rounds.
 */

#include "check.h"

#include <poll.h>
#include <pthread.h>
#include <stdio.h>
#include <stdlib.h>
#include <sys/wait.h>
#include <time.h>
#include <unistd.h>

enum { PORTS = 20, MESSAGES = 40, SENDERS = 3, ROUNDS = 3 };

struct note {
    mach_msg_header_t head;
    uint32_t words[2];
};

/* Returns true if a call was cut. Calls that aren't made as numbered requests may be cut, and are repeated here. */
static bool was_cut(kern_return_t code) {
    nanosleep(&(struct timespec){.tv_nsec = code == MACH_SEND_INTERRUPTED ? 5000000 : 0}, NULL);
    return code == MACH_SEND_INTERRUPTED || code == MACH_RCV_INTERRUPTED;
}

static kern_return_t connect_to(const char *path) {
    kern_return_t code;
    do {
        code = machipc_connect(path);
    } while (was_cut(code));
    return code;
}

static void allocations(mach_port_t *ports) {
    mach_port_array_t names;
    mach_port_type_array_t types;
    mach_msg_type_number_t before, after, types_count;
    CHECK_OK(mach_port_names(SELF, &names, &before, &types, &types_count));
    free(names);
    free(types);
    for (int i = 0; i < PORTS; i++) {
        ports[i] = check_port();
        CHECK_OK(mach_port_insert_right(SELF, ports[i], ports[i], MACH_MSG_TYPE_MAKE_SEND));
        CHECK_OK(mach_port_mod_refs(SELF, ports[i], MACH_PORT_RIGHT_SEND, 2));
        CHECK_OK(mach_port_deallocate(SELF, ports[i]));
    }
    CHECK_OK(mach_port_names(SELF, &names, &after, &types, &types_count));
    free(names);
    free(types);
    CHECK(after == before + PORTS);
    for (int i = 0; i < PORTS; i++) {
        mach_port_urefs_t count = 0;
        CHECK_OK(mach_port_get_refs(SELF, ports[i], MACH_PORT_RIGHT_SEND, &count));
        CHECK(count == 2 && check_port_status(ports[i]).mps_mscount == 1);
    }
}

static void send_once_rights(mach_port_t port) {
    mach_port_t once, previous;
    mach_msg_type_name_t type;
    for (mach_port_rights_t i = 1; i <= PORTS; i++) {
        CHECK_OK(mach_port_extract_right(SELF, port, MACH_MSG_TYPE_MAKE_SEND_ONCE, &once, &type));
        CHECK(check_port_status(port).mps_sorights == i);
    }
    CHECK_OK(
        mach_port_request_notification(SELF, port, MACH_NOTIFY_DEAD_NAME, 0, once, MACH_MSG_TYPE_MOVE_SEND_ONCE, &previous));
    CHECK(previous == MACH_PORT_NULL);
    CHECK_OK(mach_port_request_notification(SELF, port, MACH_NOTIFY_DEAD_NAME, 0, MACH_PORT_NULL, 0, &previous));
    CHECK(check_type(previous) == MACH_PORT_TYPE_SEND_ONCE);
    CHECK(check_port_status(port).mps_sorights == PORTS);
}

static struct note note_to(mach_port_t port, mach_msg_id_t id) {
    struct note note = {.words = {1, 2}};
    note.head.msgh_bits = MACH_MSGH_BITS(MACH_MSG_TYPE_COPY_SEND, 0);
    note.head.msgh_remote_port = port;
    note.head.msgh_id = id;
    return note;
}

static void messages(mach_port_t port) {
    struct note note;
    for (int i = 0; i < MESSAGES; i++) {
        note = note_to(port, i);
        CHECK_OK(mach_msg(&note.head, MACH_SEND_MSG, sizeof note, 0, 0, 0, 0));
        CHECK_OK(mach_msg(&note.head, MACH_RCV_MSG, 0, sizeof note, port, 0, 0));
        CHECK(note.head.msgh_id == i && note.head.msgh_seqno == 2 * (mach_port_seqno_t) i);
        note = note_to(port, -i);
        CHECK_OK(mach_msg(&note.head, MACH_SEND_MSG | MACH_RCV_MSG, sizeof note, sizeof note, port, 0, 0));
        CHECK(note.head.msgh_id == -i && note.head.msgh_seqno == 2 * (mach_port_seqno_t) i + 1);
    }
    CHECK_CODE(mach_msg(&note.head, MACH_RCV_MSG | MACH_RCV_TIMEOUT, 0, sizeof note, port, 30, 0), MACH_RCV_TIMED_OUT);
    CHECK(check_port_status(port).mps_seqno == 2 * MESSAGES && check_port_status(port).mps_msgcount == 0);
}

/* A message that is too large is destroyed once, and the message after it stays. */
static void too_large(mach_port_t port) {
    for (int i = 0; i < 3; i++) {
        struct note note = note_to(port, i);
        CHECK_OK(mach_msg(&note.head, MACH_SEND_MSG, sizeof note, 0, 0, 0, 0));
    }
    struct note note;
    CHECK_CODE(mach_msg(&note.head, MACH_RCV_MSG, 0, sizeof note.head, port, 0, 0), MACH_RCV_TOO_LARGE);
    CHECK(note.head.msgh_size == sizeof note);
    CHECK_CODE(mach_msg(&note.head, MACH_RCV_MSG | MACH_RCV_LARGE, 0, sizeof note.head, port, 0, 0), MACH_RCV_TOO_LARGE);
    for (int i = 1; i < 3; i++) {
        CHECK_OK(mach_msg(&note.head, MACH_RCV_MSG, 0, sizeof note, port, 0, 0));
        CHECK(note.head.msgh_id == i);
    }
}

static mach_port_t shared;

/* Receives the next message, for which the program waits as an event loop does. */
static kern_return_t receive_by_events(mach_port_t port, struct note *note) {
    struct pollfd polled = {.fd = machipc_fd(), .events = POLLIN};
    for (;;) {
        kern_return_t code = machipc_receive(&note->head, 0, sizeof *note, port);
        if (code != MACH_RCV_IN_PROGRESS) {
            return code;
        }
        if (poll(&polled, 1, 20000) <= 0) {
            return MACH_RCV_TIMED_OUT;
        }
    }
}

static void *send_many(void *from) {
    for (int i = 0; i < MESSAGES; i++) {
        struct note note = note_to(shared, *(int *) from * MESSAGES + i);
        CHECK_OK(mach_msg(&note.head, MACH_SEND_MSG, sizeof note, 0, 0, 0, 0));
    }
    return NULL;
}

/* Several threads wait for room in the queue, and one waits for messages, every other time with an event loop. Each
   message arrives once, and in its sender's order. */
static void threads(mach_port_t port) {
    pthread_t senders[SENDERS];
    int numbers[SENDERS], next[SENDERS] = {0};
    shared = port;
    CHECK_OK(mach_port_set_qlimit(SELF, port, 2));
    for (int i = 0; i < SENDERS; i++) {
        numbers[i] = i;
        CHECK(pthread_create(&senders[i], NULL, send_many, &numbers[i]) == 0);
    }
    for (int i = 0; i < SENDERS * MESSAGES; i++) {
        struct note note = {0};
        if (i % 2 == 0) {
            CHECK_OK(mach_msg(&note.head, MACH_RCV_MSG, 0, sizeof note, port, 0, 0));
        } else {
            CHECK_OK(receive_by_events(port, &note));
        }
        int from = note.head.msgh_id / MESSAGES;
        CHECK(from >= 0 && from < SENDERS && note.head.msgh_id == from * MESSAGES + next[from]++);
    }
    for (int i = 0; i < SENDERS; i++) {
        pthread_join(senders[i], NULL);
    }
    CHECK(check_port_status(port).mps_msgcount == 0);
}

/* A second process that numbers its calls in the same space breaks the rule: the first process's next call gets a
   code. */
static void overtaken(machipc_space_t space) {
    int ended = 0;
    mach_port_t name = check_port(); /* this process's number is now the last one of the space */
    pid_t child = fork();
    if (child == 0) {
        mach_port_t none;
        bool is_refused = mach_port_allocate(SELF, MACH_PORT_RIGHT_RECEIVE, &none) == KERN_FAILURE &&
                          mach_port_destroy(SELF, name) == KERN_FAILURE && machipc_space_destroy() == KERN_FAILURE;
        bool is_done = is_refused && machipc_once(space) == KERN_SUCCESS;
        for (int i = 0; i < 3; i++) {
            is_done = mach_reply_port() != MACH_PORT_NULL && is_done;
        }
        _exit(!is_done);
    }
    waitpid(child, &ended, 0);
    CHECK(ended == 0);
    CHECK_CODE(mach_port_destroy(SELF, name), MACH_RCV_INTERRUPTED);
    CHECK_OK(mach_port_destroy(SELF, name));
}

static void work(const char *path) {
    machipc_task_t task = {0};
    mach_port_t ports[PORTS];
    CHECK_OK(connect_to(path));
    CHECK_OK(machipc_once(MACHIPC_FIRST_SPACE));
    CHECK_OK(machipc_task_begin(MACH_PORT_NULL, 0, &task));
    CHECK_OK(machipc_once(task.space));
    allocations(ports);
    send_once_rights(ports[0]);
    messages(ports[1]);
    too_large(ports[2]);
    CHECK_OK(machipc_once(task.space)); /* as a task does that starts again: it finds the number that was used last */
    threads(ports[3]);
    overtaken(task.space);
    CHECK_OK(machipc_sweep(&task.bootstrap, 1));
    CHECK_OK(machipc_space_destroy());
    mach_port_type_t type;
    CHECK_CODE(mach_port_type(SELF, task.bootstrap, &type), KERN_INVALID_TASK);
}

int main(int count, char **words) {
    machipc_set_patience(20000);
    if (count < 2 || connect_to(words[1]) != KERN_SUCCESS) {
        return 2;
    }
    long rounds = count > 2 ? check_number(words[2]) : ROUNDS;
    for (long i = 0; i < rounds; i++) {
        work(words[1]);
    }
    printf("%lu calls asked again, ", machipc_repeats());
    return check_status();
}
