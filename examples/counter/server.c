/*
 * counter
 *
 * Serves the interface of counter.defs on its space's first port. The counter's value is the make-send count of a port
 * to which nobody has send rights, so it is in the server's store and not in this program's memory.
 */

#include "counter_s.h"

#include "../begin.h"

#include <stdio.h>
#include <string.h>

boolean_t counter_server(mach_msg_header_t *request, mach_msg_header_t *reply);

static mach_port_t store;
static label_t own_label = "none";

kern_return_t do_counter_read(mach_port_t counter, int *value) {
    mach_port_status_t status;
    (void) counter;
    kern_return_t code = mach_port_get_receive_status(mach_task_self(), store, &status);
    if (code == KERN_SUCCESS) {
        *value = (int) status.mps_mscount;
    }
    return code;
}

kern_return_t do_counter_add(mach_port_t counter, int by, int *value) {
    kern_return_t code = do_counter_read(counter, value);
    if (code == KERN_SUCCESS) {
        *value = (int) ((unsigned) *value + (unsigned) by);
        code = mach_port_set_mscount(mach_task_self(), store, (mach_port_mscount_t) *value);
    }
    return code;
}

kern_return_t do_counter_label(mach_port_t counter, const_label_t label, label_t before) {
    (void) counter;
    memcpy(before, own_label, sizeof own_label);
    mig_strncpy(own_label, label, sizeof own_label);
    return KERN_SUCCESS;
}

int main(void) {
    machipc_task_t task;
    if (begin_task(&task) != KERN_SUCCESS ||
        mach_port_allocate(mach_task_self(), MACH_PORT_RIGHT_RECEIVE, &store) != KERN_SUCCESS) {
        return 1;
    }
    mach_msg_return_t code = mach_msg_server(counter_server, 256, task.bootstrap);
    fprintf(stderr, "counter: %s\n", mach_error_string(code));
    return 1;
}
