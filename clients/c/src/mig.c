/* Functions for stubs of the Mach Interface Generator. */

#include "connection.h"

#include <stdlib.h>

/* Returns the thread's reply port, if it has one in this space. One of another space, or of the process before a fork,
   is forgotten, because it belongs there. */
static mach_port_t known_port(struct connection *connection) {
    if (connection->reply_port_generation != settings_now().generation) {
        connection->reply_port = MACH_PORT_NULL;
    }
    return connection->reply_port;
}

mach_port_t mig_get_reply_port(void) {
    struct connection *connection = connection_of_thread();
    if (connection == NULL) {
        return MACH_PORT_NULL;
    }
    if (known_port(connection) == MACH_PORT_NULL) {
        connection->reply_port_generation = settings_now().generation;
        connection->reply_port = mach_reply_port();
    }
    return connection->reply_port;
}

void mig_put_reply_port(mach_port_t port) {
    (void) port;
}

void mig_dealloc_reply_port(mach_port_t port) {
    struct connection *connection = connection_of_thread();
    if (connection == NULL || port == MACH_PORT_NULL || known_port(connection) != port) {
        return;
    }
    connection->reply_port = MACH_PORT_NULL;
    mach_port_mod_refs(mach_task_self(), port, MACH_PORT_RIGHT_RECEIVE, -1);
}

kern_return_t mig_allocate(vm_address_t *address, vm_size_t size) {
    void *made = calloc(size > 0 ? size : 1, 1);
    *address = (vm_address_t) made;
    return made != NULL ? KERN_SUCCESS : KERN_RESOURCE_SHORTAGE;
}

void mig_deallocate(vm_address_t address, vm_size_t size) {
    (void) size;
    free((void *) address);
}

vm_size_t mig_strncpy(char *to, const char *from, vm_size_t length) {
    vm_size_t written = 0;
    while (written + 1 < length && from[written] != '\0') {
        to[written] = from[written];
        written++;
    }
    if (length > 0) {
        to[written++] = '\0';
    }
    return written;
}

void mig_reply_setup(const mach_msg_header_t *request, mach_msg_header_t *reply) {
    mig_reply_header_t *made = (mig_reply_header_t *) reply;
    made->Head = (mach_msg_header_t){
        .msgh_bits = MACH_MSGH_BITS(MACH_MSGH_BITS_REMOTE(request->msgh_bits), 0),
        .msgh_size = sizeof *made,
        .msgh_remote_port = request->msgh_remote_port,
        .msgh_id = request->msgh_id + 100,
    };
    made->RetCodeType = (mach_msg_type_t){
        .msgt_name = MACH_MSG_TYPE_INTEGER_32,
        .msgt_size = 32,
        .msgt_number = 1,
        .msgt_inline = TRUE,
    };
    made->RetCode = MIG_BAD_ID;
}
