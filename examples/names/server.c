/*
 * names
 *
 * The name service, in the space that the environment names; its port is the space's first one. It keeps the names in
 * memory only. If it was killed, it gives up all rights of the time before when it is started again: the services get
 * no-senders notices of their tokens, and check in again. If a service ends, the name service gets a dead-name notice
 * and forgets the name.
 */

#include "names.h"

#include "../begin.h"

#include <stdbool.h>
#include <stddef.h>
#include <stdio.h>
#include <string.h>

enum { MOST_NAMES = 100 };

static struct entry {
    char name[NAME_LENGTH]; /* empty for a free entry */
    mach_port_t port;       /* a send right, as is the token */
    mach_port_t token;
} entries[MOST_NAMES];

static mach_port_t own_port, notices;

static struct entry *find(const char *name) {
    for (size_t i = 0; i < MOST_NAMES; i++) {
        if (strcmp(entries[i].name, name) == 0) {
            return &entries[i];
        }
    }
    return NULL;
}

/* Requests a notice of the port's death. If the port is dead already, the notice arrives at once. */
static void watch(mach_port_t port) {
    mach_port_t previous = MACH_PORT_NULL;
    mach_port_request_notification(mach_task_self(), port, MACH_NOTIFY_DEAD_NAME, 1, notices, MACH_MSG_TYPE_MAKE_SEND_ONCE,
                                   &previous);
    if (previous != MACH_PORT_NULL) {
        mach_port_deallocate(mach_task_self(), previous);
    }
}

/* Checks a service in. One that repeats its request, because the reply was lost, gets the same answer. */
static kern_return_t check_in(const struct names_request *request) {
    struct entry *entry = find(request->name);
    if (entry != NULL && entry->port == request->port && entry->token == request->token) {
        mach_port_deallocate(mach_task_self(), request->port);
        mach_port_deallocate(mach_task_self(), request->token);
        return KERN_SUCCESS;
    }
    if (entry != NULL) {
        return NAME_TAKEN;
    }
    entry = find("");
    if (entry == NULL) {
        return NAMES_FULL;
    }
    memcpy(entry->name, request->name, NAME_LENGTH);
    entry->port = request->port;
    entry->token = request->token;
    watch(entry->port);
    printf("names: %s is here\n", entry->name);
    return KERN_SUCCESS;
}

static void look_up(const struct names_request *request, struct names_reply *reply) {
    const struct entry *entry = find(request->name);
    reply->code = NAME_UNKNOWN;
    if (entry != NULL) {
        reply->head.msgh_bits |= MACH_MSGH_BITS_COMPLEX;
        reply->head.msgh_size = sizeof *reply;
        reply->port_type = names_item(MACH_MSG_TYPE_COPY_SEND, 32, 1);
        reply->port = entry->port;
        reply->code = KERN_SUCCESS;
    }
}

/* Removes the entry of a dead port. Its name has a reference of the entry and one of the notice; both are given up. */
static void forget(mach_port_t dead) {
    for (size_t i = 0; i < MOST_NAMES; i++) {
        if (entries[i].name[0] != '\0' && entries[i].port == dead) {
            printf("names: %s is gone\n", entries[i].name);
            mach_port_destroy(mach_task_self(), entries[i].token);
            entries[i] = (struct entry){0};
        }
    }
    mach_port_destroy(mach_task_self(), dead);
}

static bool is_request(const struct names_request *request, mach_msg_size_t size) {
    return request->head.msgh_size == size && request->name[0] != '\0' && request->name[NAME_LENGTH - 1] == '\0';
}

static bool is_check_in(const struct names_request *request) {
    return is_request(request, sizeof *request) && request->ports_type.msgt_name == MACH_MSG_TYPE_PORT_SEND &&
           request->ports_type.msgt_number == 2 && MACH_PORT_VALID(request->port) && MACH_PORT_VALID(request->token) &&
           request->port != request->token;
}

/* Answers a request. The reply starts out as a failure, which gives up all rights of the request. A message to the port
   for notices is from the server, since nobody else has a right to that port. */
static boolean_t demux(mach_msg_header_t *head, mach_msg_header_t *reply_head) {
    const struct names_request *request = (const struct names_request *) head;
    struct names_reply *reply = (struct names_reply *) reply_head;
    mig_reply_setup(head, reply_head);
    reply->code = NAMES_BAD_REQUEST;
    if (head->msgh_id == MACH_NOTIFY_DEAD_NAME && head->msgh_local_port == notices) {
        forget(((const mach_dead_name_notification_t *) head)->not_port);
        reply->code = MIG_NO_REPLY;
    } else if (head->msgh_id == NAMES_LOOK_UP && is_request(request, NAMES_REQUEST_ALONE)) {
        look_up(request, reply);
    } else if (head->msgh_id == NAMES_CHECK_IN && is_check_in(request)) {
        reply->code = check_in(request);
    }
    fflush(stdout);
    return TRUE;
}

int main(void) {
    machipc_task_t task;
    mach_port_t set;
    if (begin_task(&task) != KERN_SUCCESS) {
        return 1;
    }
    own_port = task.bootstrap;
    if (machipc_sweep(&own_port, 1) != KERN_SUCCESS ||
        mach_port_allocate(mach_task_self(), MACH_PORT_RIGHT_RECEIVE, &notices) != KERN_SUCCESS ||
        mach_port_allocate(mach_task_self(), MACH_PORT_RIGHT_PORT_SET, &set) != KERN_SUCCESS ||
        mach_port_move_member(mach_task_self(), own_port, set) != KERN_SUCCESS ||
        mach_port_move_member(mach_task_self(), notices, set) != KERN_SUCCESS) {
        return 1;
    }
    printf("names: ready\n");
    fflush(stdout);
    mach_msg_return_t code;
    do {
        code = mach_msg_server(demux, sizeof(struct names_request) + sizeof(struct names_reply), set);
    } while (code == MACH_RCV_INTERRUPTED);
    fprintf(stderr, "names: %s\n", mach_error_string(code));
    return 1;
}
