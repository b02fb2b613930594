/*
 * notices SECONDS
 *
 * Serves the interface of notify.defs at its space's first port, for so many seconds: what calls the handlers are notices
 * of the server. Each handler compares the notice with the one that is due, and causes the next one. It prints the number
 * of rounds, how many calls were asked again after a cut, how many notices were wrong, and how many names are left in the
 * space. The status is 1 where a notice was wrong, a name is left or a call failed.
 */

#include "notify_s.h"

#include "../begin.h"

#include <mach/notify.h>
#include <stdbool.h>
#include <stdio.h>
#include <stdlib.h>
#include <time.h>

boolean_t notify_server(mach_msg_header_t *request, mach_msg_header_t *reply);

/* The notices of a round, in their order. */
static const mach_msg_id_t round_ids[] = {
    MACH_NOTIFY_DEAD_NAME, MACH_NOTIFY_NO_SENDERS, MACH_NOTIFY_PORT_DESTROYED, MACH_NOTIFY_SEND_ONCE, MACH_NOTIFY_PORT_DELETED,
};

enum { ROUND = sizeof round_ids / sizeof round_ids[0] };

static mach_port_t notices; /* the port that they come to */
static mach_port_t watched; /* the name that the next one is about, or MACH_PORT_NULL */
static unsigned long count;
static int wrong;
static time_t end;

/* Makes a port with a send right, and asks for a notice about it. */
static kern_return_t watch(mach_msg_id_t about) {
    mach_port_t before;
    kern_return_t code = mach_port_allocate(mach_task_self(), MACH_PORT_RIGHT_RECEIVE, &watched);
    if (code == KERN_SUCCESS) {
        code = mach_port_insert_right(mach_task_self(), watched, watched, MACH_MSG_TYPE_MAKE_SEND);
    }
    if (code == KERN_SUCCESS) {
        code = mach_port_request_notification(mach_task_self(), watched, about, 0, notices, MACH_MSG_TYPE_MAKE_SEND_ONCE,
                                              &before);
    }
    return code;
}

/* Gives a send-once right back unused. */
static kern_return_t waste_send_once(void) {
    mach_port_t made;
    mach_msg_type_name_t type;
    kern_return_t code = mach_port_extract_right(mach_task_self(), notices, MACH_MSG_TYPE_MAKE_SEND_ONCE, &made, &type);
    return code == KERN_SUCCESS ? mach_port_deallocate(mach_task_self(), made) : code;
}

/* Does what the server sends this notice for. */
static kern_return_t cause(mach_msg_id_t id) {
    if (id == MACH_NOTIFY_SEND_ONCE) {
        return waste_send_once();
    }
    kern_return_t code = watch(id == MACH_NOTIFY_PORT_DELETED ? MACH_NOTIFY_DEAD_NAME : id);
    if (code != KERN_SUCCESS) {
        return code;
    }
    switch (id) {
    case MACH_NOTIFY_NO_SENDERS:
        return mach_port_deallocate(mach_task_self(), watched);
    case MACH_NOTIFY_PORT_DELETED:
        return mach_port_destroy(mach_task_self(), watched);
    default: /* the port dies, or comes back */
        return mach_port_mod_refs(mach_task_self(), watched, MACH_PORT_RIGHT_RECEIVE, -1);
    }
}

/* Compares a notice with the one that is due, and causes the next one. The name that the notice is about is given back first,
   unless it is gone. mach_msg_server ends when its port is destroyed. */
static kern_return_t note(mach_msg_id_t id, mach_port_t name) {
    kern_return_t code = KERN_SUCCESS;
    if (id != round_ids[count % ROUND] || name != watched) {
        wrong++;
        return KERN_FAILURE;
    }
    count++;
    if (watched != MACH_PORT_NULL && id != MACH_NOTIFY_PORT_DELETED) {
        code = mach_port_destroy(mach_task_self(), watched);
    }
    watched = MACH_PORT_NULL;
    bool is_over = count % ROUND == 0 && time(NULL) >= end;
    if (code == KERN_SUCCESS && !is_over) {
        code = cause(round_ids[count % ROUND]);
    }
    if (code != KERN_SUCCESS || is_over) {
        wrong += code != KERN_SUCCESS;
        mach_port_destroy(mach_task_self(), notices);
    }
    return code;
}

kern_return_t do_mach_notify_port_deleted(mach_port_t notify, mach_port_t name) {
    (void) notify;
    return note(MACH_NOTIFY_PORT_DELETED, name);
}

kern_return_t do_mach_notify_msg_accepted(mach_port_t notify, mach_port_t name) {
    (void) notify;
    return note(MACH_NOTIFY_MSG_ACCEPTED, name);
}

/* The right came back to the name that has its send right. */
kern_return_t do_mach_notify_port_destroyed(mach_port_t notify, mach_port_t right) {
    (void) notify;
    return note(MACH_NOTIFY_PORT_DESTROYED, right);
}

kern_return_t do_mach_notify_no_senders(mach_port_t notify, int made) {
    (void) notify;
    return note(MACH_NOTIFY_NO_SENDERS, made == 1 ? watched : MACH_PORT_DEAD);
}

kern_return_t do_mach_notify_send_once(mach_port_t notify) {
    (void) notify;
    return note(MACH_NOTIFY_SEND_ONCE, MACH_PORT_NULL);
}

kern_return_t do_mach_notify_dead_name(mach_port_t notify, mach_port_t name) {
    (void) notify;
    return note(MACH_NOTIFY_DEAD_NAME, name);
}

/* How many names the space has. */
static int names_left(void) {
    mach_port_array_t names;
    mach_port_type_array_t types;
    mach_msg_type_number_t names_count, types_count;
    if (mach_port_names(mach_task_self(), &names, &names_count, &types, &types_count) != KERN_SUCCESS) {
        return -1;
    }
    free(names);
    free(types);
    return (int) names_count;
}

int main(int words_count, char **words) {
    machipc_task_t task;
    if (words_count != 2 || begin_task(&task) != KERN_SUCCESS) {
        return 2;
    }
    notices = task.bootstrap;
    end = time(NULL) + seconds_of(words[1]);
    mach_msg_return_t code = cause(round_ids[0]);
    if (code == KERN_SUCCESS) {
        code = mach_msg_server(notify_server, 256, notices);
    }
    int left = names_left();
    printf("notify: %lu rounds of %d kinds of notices by stubs of MIG, %lu calls asked again; %d wrong, %d names left\n",
           count / ROUND, ROUND, machipc_repeats(), wrong, left);
    if (code != MACH_RCV_INVALID_NAME) {
        fprintf(stderr, "notices: %s\n", mach_error_string(code));
    }
    return code != MACH_RCV_INVALID_NAME || wrong || left;
}
