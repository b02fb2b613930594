/* Refuses each allocation of the library in turn: the call returns a code, nothing is leaked, and the same call
   succeeds when it is repeated. */

#include "check.h"

#include <pthread.h>
#include <stdlib.h>

/* The linker puts the functions below in place of calloc and its like (see Makefile). */
void *__real_calloc(size_t count, size_t size);
void *__wrap_calloc(size_t count, size_t size);

static _Thread_local int allowed = -1; /* the allocations before the one that is refused, or -1 for no refusal */

void *__wrap_calloc(size_t count, size_t size) {
    if (allowed == 0) {
        allowed = -1;
        return NULL;
    }
    allowed -= allowed > 0;
    return __real_calloc(count, size);
}

static const char *path;
static mach_port_t port;

/* Makes calls of which each is the first of its thread: the refused ones leave it without a connection. */
static void *first_calls(void *nothing) {
    mach_port_t name = 9;
    mach_msg_header_t message = {0};
    machipc_task_t task = {.space = 77};
    allowed = 0;
    CHECK_CODE(mach_port_allocate(SELF, MACH_PORT_RIGHT_RECEIVE, &name), KERN_RESOURCE_SHORTAGE);
    CHECK(name == 9);
    allowed = 0;
    CHECK_CODE(mach_msg(&message, MACH_SEND_MSG, sizeof message, 0, 0, 0, 0), MACH_SEND_NO_BUFFER);
    allowed = 0;
    CHECK_CODE(mach_msg(&message, MACH_RCV_MSG, 0, sizeof message, port, 0, 0), MACH_RCV_HEADER_ERROR | MACH_MSG_IPC_KERNEL);
    allowed = 0;
    CHECK_CODE(machipc_connect(path), KERN_RESOURCE_SHORTAGE);
    allowed = 0;
    CHECK_CODE(machipc_attach(1), KERN_RESOURCE_SHORTAGE);
    allowed = 0;
    CHECK_CODE(machipc_once(1), KERN_RESOURCE_SHORTAGE);
    allowed = 0;
    CHECK_CODE(machipc_space_destroy(), KERN_RESOURCE_SHORTAGE);
    allowed = 0;
    CHECK_CODE(machipc_confine(), KERN_RESOURCE_SHORTAGE);
    allowed = 0;
    CHECK_CODE(machipc_task_end(&task), KERN_RESOURCE_SHORTAGE);
    allowed = 0;
    CHECK(mig_get_reply_port() == MACH_PORT_NULL);
    CHECK(check_type(port) == MACH_PORT_TYPE_RECEIVE);
    return nothing;
}

static void lists(void) {
    mach_port_array_t names;
    mach_port_type_array_t types;
    mach_msg_type_number_t count, types_count;
    mach_port_t set = MACH_PORT_NULL;
    for (int i = 0; i < 2; i++) {
        allowed = i;
        CHECK_CODE(mach_port_names(SELF, &names, &count, &types, &types_count), KERN_RESOURCE_SHORTAGE);
    }
    CHECK_OK(mach_port_names(SELF, &names, &count, &types, &types_count));
    free(names);
    free(types);
    CHECK_OK(mach_port_allocate(SELF, MACH_PORT_RIGHT_PORT_SET, &set));
    allowed = 0;
    CHECK_CODE(mach_port_get_set_status(SELF, set, &names, &count), KERN_RESOURCE_SHORTAGE);
    CHECK_OK(mach_port_get_set_status(SELF, set, &names, &count));
    free(names);
    allowed = 0;
    CHECK_CODE(machipc_sweep(&port, 1), KERN_RESOURCE_SHORTAGE);
    CHECK_OK(machipc_sweep(&port, 1));
    CHECK(check_type(set) == MACH_PORT_TYPE_NONE && check_type(port) == MACH_PORT_TYPE_RECEIVE);
}

static void tasks(void) {
    machipc_task_t task = {0}, next = {0};
    CHECK_OK(machipc_task_begin(port, MACH_MSG_TYPE_MAKE_SEND, &next));
    CHECK_OK(machipc_task_end(&next));
    allowed = 0;
    CHECK_CODE(machipc_task_begin(port, MACH_MSG_TYPE_MAKE_SEND, &task), KERN_RESOURCE_SHORTAGE);
    CHECK_OK(machipc_task_begin(port, MACH_MSG_TYPE_MAKE_SEND, &task));
    CHECK(task.space == next.space); /* no space was left behind */
    allowed = 0;
    CHECK_CODE(machipc_task_end(&task), KERN_RESOURCE_SHORTAGE);
    CHECK_OK(machipc_task_end(&task));
}

static boolean_t demux(mach_msg_header_t *request, mach_msg_header_t *reply) {
    (void) request;
    (void) reply;
    return FALSE;
}

int main(int count, char **words) {
    pthread_t thread;
    vm_address_t memory = 0;
    port = check_begin(count, words);
    path = words[1];
    CHECK(pthread_create(&thread, NULL, first_calls, NULL) == 0);
    pthread_join(thread, NULL);
    lists();
    tasks();
    for (int i = 0; i < 2; i++) {
        allowed = i;
        CHECK_CODE(mach_msg_server(demux, 100, port), KERN_RESOURCE_SHORTAGE);
    }
    allowed = 0;
    CHECK_CODE(mig_allocate(&memory, 100), KERN_RESOURCE_SHORTAGE);
    CHECK_OK(mig_allocate(&memory, 0));
    mig_deallocate(memory, 0);
    return check_end();
}
