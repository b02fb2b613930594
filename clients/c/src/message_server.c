/* The loop of a server: handles a request, and sends its reply in the same call that receives the next request. */

#include <mach.h>
#include <stdbool.h>
#include <stdlib.h>
#include <string.h>

struct loop {
    mig_reply_header_t *request;
    mig_reply_header_t *reply;
    mach_msg_size_t size;
    mach_port_t port;
};

static bool is_of_send(mach_msg_return_t code) {
    return code >= MACH_SEND_IN_PROGRESS && code <= MACH_SEND_INVALID_HEADER;
}

static mach_msg_return_t receive(struct loop *loop) {
    return mach_msg(&loop->request->Head, MACH_RCV_MSG, 0, loop->size, loop->port, MACH_MSG_TIMEOUT_NONE, MACH_PORT_NULL);
}

/* Sends the reply, and receives the next request into its buffer. A reply by a send right, which may find a full queue,
   doesn't wait for a client that takes no replies. */
static mach_msg_return_t reply_and_receive(struct loop *loop) {
    mig_reply_header_t *reply = loop->reply;
    loop->reply = loop->request;
    loop->request = reply;
    mach_msg_option_t option = MACH_SEND_MSG | MACH_RCV_MSG;
    if (MACH_MSGH_BITS_REMOTE(reply->Head.msgh_bits) != MACH_MSG_TYPE_MOVE_SEND_ONCE) {
        option |= MACH_SEND_TIMEOUT;
    }
    return mach_msg(&reply->Head, option, reply->Head.msgh_size, loop->size, loop->port, 0, MACH_PORT_NULL);
}

/* Returns the code of demux for the request. A reply that is only a header has no code, and means success. */
static kern_return_t code_of(const mig_reply_header_t *reply) {
    bool has_none = reply->Head.msgh_size != 0 && reply->Head.msgh_size < sizeof *reply;
    bool is_complex = (reply->Head.msgh_bits & MACH_MSGH_BITS_COMPLEX) != 0;
    return has_none || is_complex ? KERN_SUCCESS : reply->RetCode;
}

/* Passes the request to demux. Returns true if there is a reply to send. */
static bool serve(struct loop *loop, boolean_t (*demux)(mach_msg_header_t *, mach_msg_header_t *)) {
    mig_reply_header_t *reply = loop->reply;
    memset(reply, 0, sizeof *reply);
    demux(&loop->request->Head, &reply->Head);
    if (reply->Head.msgh_size > loop->size) {
        reply->Head.msgh_size = loop->size;
    }
    kern_return_t code = code_of(reply);
    if (code == MIG_NO_REPLY) {
        return false;
    }
    if (code != KERN_SUCCESS && code != MIG_DESTROY_REQUEST) {
        loop->request->Head.msgh_remote_port = MACH_PORT_NULL; /* the reply reports the fault by this right */
    }
    if (code != KERN_SUCCESS) {
        mach_msg_destroy(&loop->request->Head);
    }
    if (reply->Head.msgh_remote_port == MACH_PORT_NULL && code != MIG_DESTROY_REQUEST) {
        mach_msg_destroy(&reply->Head);
    }
    return reply->Head.msgh_remote_port != MACH_PORT_NULL && code != MIG_DESTROY_REQUEST;
}

static mach_msg_return_t run(struct loop *loop, boolean_t (*demux)(mach_msg_header_t *, mach_msg_header_t *)) {
    for (;;) {
        mach_msg_return_t code = receive(loop);
        while (code == MACH_MSG_SUCCESS && serve(loop, demux)) {
            code = reply_and_receive(loop);
        }
        if (is_of_send(code) && code != MACH_SEND_INTERRUPTED) {
            /* The reply wasn't sent, and is in the buffer of a request. If the connection was lost, it may have been
               sent. */
            mach_msg_destroy(&loop->request->Head);
        } else if (code != MACH_MSG_SUCCESS && code != MACH_RCV_TOO_LARGE && code != MACH_SEND_INTERRUPTED) {
            return code;
        }
    }
}

mach_msg_return_t mach_msg_server(boolean_t (*demux)(mach_msg_header_t *request, mach_msg_header_t *reply),
                                  mach_msg_size_t max_size, mach_port_t rcv_name) {
    struct loop loop = {.size = max_size, .port = rcv_name};
    if (max_size < sizeof(mig_reply_header_t)) {
        return MACH_RCV_TOO_LARGE;
    }
    mig_reply_header_t *first = calloc(1, max_size), *second = calloc(1, max_size);
    loop.request = first;
    loop.reply = second;
    mach_msg_return_t code = KERN_RESOURCE_SHORTAGE;
    if (first != NULL && second != NULL) {
        code = run(&loop, demux);
    }
    free(first);
    free(second);
    return code;
}
