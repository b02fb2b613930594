/*
 * service NAME
 *
 * Adds numbers for its clients, under a name of the name service, which is its bootstrap port. A no-senders notice of
 * its token tells it that the name service has forgotten its name, for example after a restart; then it checks in
 * again.
 */

#include "names.h"

#include "../begin.h"

#include <time.h>

static machipc_task_t task;
static mach_port_t port, token;
static const char *own_name;

static void pause_for(long milliseconds) {
    nanosleep(&(struct timespec){.tv_nsec = milliseconds * 1000000}, NULL);
}

/* Requests a no-senders notice of the token. It arrives at once if the send rights made so far are gone already. */
static kern_return_t watch_token(void) {
    mach_port_t previous = MACH_PORT_NULL;
    mach_port_status_t status;
    kern_return_t code = mach_port_get_receive_status(mach_task_self(), token, &status);
    if (code != KERN_SUCCESS) {
        return code;
    }
    code = mach_port_request_notification(mach_task_self(), token, MACH_NOTIFY_NO_SENDERS, status.mps_mscount, port,
                                          MACH_MSG_TYPE_MAKE_SEND_ONCE, &previous);
    if (previous != MACH_PORT_NULL) {
        mach_port_deallocate(mach_task_self(), previous);
    }
    return code;
}

static void check_in(void) {
    while (names_check_in(task.bootstrap, own_name, port, token) != KERN_SUCCESS || watch_token() != KERN_SUCCESS) {
        pause_for(20);
    }
}

static mach_port_t new_port(void) {
    mach_port_t made;
    while (mach_port_allocate(mach_task_self(), MACH_PORT_RIGHT_RECEIVE, &made) != KERN_SUCCESS) {
        pause_for(20);
    }
    return made;
}

static boolean_t demux(mach_msg_header_t *head, mach_msg_header_t *reply_head) {
    const struct sum_message *request = (const struct sum_message *) head;
    struct sum_message *reply = (struct sum_message *) reply_head;
    mig_reply_setup(head, reply_head);
    if (head->msgh_id == SUM && head->msgh_size == sizeof *request) {
        reply->head.msgh_size = sizeof *reply;
        reply->numbers[0] = request->numbers[0] + request->numbers[1];
        reply->numbers[1] = KERN_SUCCESS;
        return TRUE;
    }
    if (head->msgh_id == MACH_NOTIFY_NO_SENDERS) { /* a forged one does no harm */
        check_in();
    }
    ((mig_reply_header_t *) reply_head)->RetCode = MIG_NO_REPLY;
    return TRUE;
}

int main(int count, char **words) {
    if (count != 2 || begin_task(&task) != KERN_SUCCESS) {
        return 1;
    }
    own_name = words[1];
    port = new_port();
    token = new_port();
    check_in();
    while (mach_msg_server(demux, 256, port) == MACH_RCV_INTERRUPTED) {
    }
    return 1;
}
