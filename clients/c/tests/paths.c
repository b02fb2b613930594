/*
 * paths moved|late|idle [events]
 *
 * Calls of a task whose server moves from one path to another, answers late, or is killed after a long wait. clients/test
 * cuts the paths, holds the answers back or kills the server, reads what this prints, and writes a line when it continues.
 * With `events` the receives are those of an event loop.
 */

#include "check.h"

#include <poll.h>
#include <stdio.h>
#include <string.h>

enum { PATIENCE = 12000, SHORTER_PATIENCE = 9000, SHORTEST_PATIENCE = 5000 };

static bool by_events;

static mach_msg_return_t receive(mach_msg_header_t *message, mach_port_t port) {
    struct pollfd polled = {.fd = machipc_fd(), .events = POLLIN};
    if (!by_events) {
        return mach_msg(message, MACH_RCV_MSG, 0, sizeof *message, port, 0, MACH_PORT_NULL);
    }
    for (;;) {
        mach_msg_return_t code = machipc_receive(message, 0, sizeof *message, port);
        if (code != MACH_RCV_IN_PROGRESS) {
            return code;
        }
        poll(&polled, 1, -1);
    }
}

/* Lists that aren't any. */
static void lists(void) {
    static const char *const wrong[] = {"", ":", "/a:", "/a::/b", "/a\\x", "/a\\", "/1:/2:/3:/4:/5"};
    char longest[200] = {0};
    for (size_t i = 0; i < sizeof wrong / sizeof wrong[0]; i++) {
        CHECK_CODE(machipc_connect(wrong[i]), KERN_INVALID_ARGUMENT);
    }
    for (size_t i = 0; i < 108; i++) {
        longest[i] = 'a';
    }
    CHECK_CODE(machipc_connect(longest), KERN_INVALID_ARGUMENT);
    CHECK_CODE(machipc_connect(NULL), KERN_INVALID_ARGUMENT);
    CHECK_CODE(machipc_connect("/no\\:where:/nor\\\\here"), MACH_SEND_INTERRUPTED);
}

static bool was_late(kern_return_t code) {
    bool is_late = code == MACH_SEND_INTERRUPTED || code == MACH_RCV_INTERRUPTED;
    if (is_late) {
        puts("late");
    }
    return is_late;
}

/* A call and a receive, again after each answer that is given up. */
static void late(void) {
    machipc_task_t task = {0};
    mach_msg_header_t message = {0};
    mach_port_t made = MACH_PORT_NULL;
    kern_return_t code;
    machipc_set_patience(SHORTER_PATIENCE);
    CHECK_OK(machipc_adopt(&task));
    printf("port %u %u\n", (unsigned) task.space, (unsigned) task.bootstrap);
    getchar();
    do {
        code = mach_port_allocate(SELF, MACH_PORT_RIGHT_RECEIVE, &made);
    } while (was_late(code));
    CHECK_OK(code);
    printf("made %u\n", (unsigned) made);
    do {
        code = receive(&message, task.bootstrap);
    } while (was_late(code));
    CHECK_OK(code);
    printf("got %d\n", message.msgh_id);
}

/* A numbered receive whose wait is cut when it has taken longer than the patience. */
static void idle(void) {
    machipc_task_t task = {0};
    mach_msg_header_t message = {0};
    machipc_set_patience(SHORTEST_PATIENCE);
    CHECK_OK(machipc_adopt(&task));
    CHECK_OK(machipc_once(task.space));
    printf("port %u %u\n", (unsigned) task.space, (unsigned) task.bootstrap);
    CHECK_OK(receive(&message, task.bootstrap));
    printf("got %d\n", message.msgh_id);
}

static void moved(void) {
    machipc_task_t task = {0};
    mach_msg_header_t message = {0};
    mach_port_t made = MACH_PORT_NULL;
    lists();
    machipc_set_patience(PATIENCE);
    CHECK_OK(machipc_adopt(&task));
    CHECK_OK(machipc_once(task.space));
    printf("port %u %u\n", (unsigned) task.space, (unsigned) task.bootstrap);
    CHECK_OK(receive(&message, task.bootstrap));
    printf("got %d\n", message.msgh_id);
    getchar();
    CHECK_OK(mach_port_allocate(SELF, MACH_PORT_RIGHT_RECEIVE, &made));
    printf("made %u\n", (unsigned) made);
    CHECK_OK(machipc_adopt(&task));
    puts("plain");
    message = (mach_msg_header_t){.msgh_bits = MACH_MSGH_BITS(MACH_MSG_TYPE_MAKE_SEND, 0), .msgh_id = 8};
    message.msgh_remote_port = task.bootstrap;
    CHECK_OK(mach_msg(&message, MACH_SEND_MSG | MACH_RCV_MSG, sizeof message, sizeof message, made, 0, MACH_PORT_NULL));
    printf("replied %d\n", message.msgh_id);
    CHECK_CODE(receive(&message, made), MACH_RCV_INTERRUPTED);
    puts("cut");
}

int main(int count, char **words) {
    by_events = count > 2;
    setvbuf(stdout, NULL, _IOLBF, 0);
    if (count > 1 && strcmp(words[1], "late") == 0) {
        late();
    } else if (count > 1 && strcmp(words[1], "idle") == 0) {
        idle();
    } else {
        moved();
    }
    return check_status();
}
