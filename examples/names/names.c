#include "names.h"

#include <stddef.h>
#include <string.h>

mach_msg_type_t names_item(mach_msg_type_name_t type, unsigned bits, unsigned count) {
    return (mach_msg_type_t){
        .msgt_name = type & 0xff,
        .msgt_size = bits & 0xff,
        .msgt_number = count & 0xfff,
        .msgt_inline = TRUE,
    };
}

kern_return_t names_ask(mach_msg_header_t *message, mach_msg_size_t size, mach_msg_size_t room, mach_msg_timeout_t timeout) {
    mach_msg_id_t wanted = message->msgh_id + NAMES_REPLY;
    mach_port_t reply_port = mig_get_reply_port();
    message->msgh_bits |= MACH_MSGH_BITS(MACH_MSG_TYPE_COPY_SEND, MACH_MSG_TYPE_MAKE_SEND_ONCE);
    message->msgh_local_port = reply_port;
    mach_msg_option_t option = MACH_SEND_MSG | MACH_RCV_MSG | MACH_SEND_TIMEOUT | MACH_RCV_TIMEOUT;
    kern_return_t code = mach_msg(message, option, size, room, reply_port, timeout, MACH_PORT_NULL);
    if (code == MACH_MSG_SUCCESS && message->msgh_id == wanted) {
        return KERN_SUCCESS;
    }
    /* A send-once notice in place of a reply: nobody is going to answer any more. */
    if (code == MACH_SEND_INVALID_DEST || (code == MACH_MSG_SUCCESS && message->msgh_id == MACH_NOTIFY_SEND_ONCE)) {
        return MIG_SERVER_DIED;
    }
    mig_dealloc_reply_port(reply_port); /* a reply that arrives too late is destroyed with the port */
    return code == MACH_MSG_SUCCESS ? MIG_REPLY_MISMATCH : code;
}

union exchange {
    struct names_request request;
    struct names_reply reply;
};

static void prepare(union exchange *exchange, mach_port_t names, mach_msg_id_t id, const char *name) {
    memset(exchange, 0, sizeof *exchange);
    exchange->request.head.msgh_remote_port = names;
    exchange->request.head.msgh_id = id;
    exchange->request.name_type = names_item(MACH_MSG_TYPE_STRING_C, 8, NAME_LENGTH);
    mig_strncpy(exchange->request.name, name, NAME_LENGTH);
}

kern_return_t names_check_in(mach_port_t names, const char *name, mach_port_t port, mach_port_t token) {
    union exchange exchange;
    prepare(&exchange, names, NAMES_CHECK_IN, name);
    exchange.request.head.msgh_bits = MACH_MSGH_BITS_COMPLEX;
    exchange.request.ports_type = names_item(MACH_MSG_TYPE_MAKE_SEND, 32, 2);
    exchange.request.port = port;
    exchange.request.token = token;
    kern_return_t code = names_ask(&exchange.request.head, sizeof exchange.request, sizeof exchange, NAMES_PATIENCE);
    return code == KERN_SUCCESS ? exchange.reply.code : code;
}

kern_return_t names_look_up(mach_port_t names, const char *name, mach_port_t *port) {
    union exchange exchange;
    prepare(&exchange, names, NAMES_LOOK_UP, name);
    kern_return_t code = names_ask(&exchange.request.head, NAMES_REQUEST_ALONE, sizeof exchange, NAMES_PATIENCE);
    if (code != KERN_SUCCESS || exchange.reply.code != KERN_SUCCESS) {
        return code != KERN_SUCCESS ? code : exchange.reply.code;
    }
    if (exchange.reply.head.msgh_size < sizeof exchange.reply) {
        return MIG_REPLY_MISMATCH;
    }
    *port = exchange.reply.port;
    return KERN_SUCCESS;
}
