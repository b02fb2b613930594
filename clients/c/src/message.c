#include "message.h"

#include "call.h"
#include "clock.h"

#include <stddef.h>
#include <string.h>

void message_frame(struct connection *connection, const struct message_call *call) {
    frame_begin(&connection->call, CALL_MACH_MSG);
    frame_put(&connection->call, (uint32_t) call->option);
    frame_put(&connection->call, call->receive_size);
    frame_put(&connection->call, call->receive_name);
    frame_put(&connection->call, call->timeout);
    if (call->option & MACH_SEND_MSG) {
        frame_put_bytes(&connection->call, call->message, call->send_size);
    }
}

/* Reports the size and the port of a message that wasn't returned, as far as the buffer reaches. */
static void tell(const struct message_call *call, mach_msg_size_t size, mach_port_t member) {
    unsigned char *buffer = (unsigned char *) call->message;
    if (call->receive_size >= offsetof(mach_msg_header_t, msgh_size) + sizeof size) {
        memcpy(buffer + offsetof(mach_msg_header_t, msgh_size), &size, sizeof size);
    }
    if (call->receive_size >= offsetof(mach_msg_header_t, msgh_local_port) + sizeof member) {
        memcpy(buffer + offsetof(mach_msg_header_t, msgh_local_port), &member, sizeof member);
    }
}

mach_msg_return_t message_result(struct connection *connection, const struct message_call *call, kern_return_t code) {
    mach_msg_size_t size = frame_take(&connection->reply);
    mach_port_t member = frame_take(&connection->reply);
    size_t left = frame_left(&connection->reply);
    if (connection->reply.is_bad) {
        return call_mismatch(connection);
    }
    if (code == MACH_MSG_SUCCESS && (call->option & MACH_RCV_MSG)) {
        if (left != size || size < sizeof(mach_msg_header_t) || size > call->receive_size) {
            return call_mismatch(connection);
        }
        memcpy(call->message, frame_rest(&connection->reply), size);
        return MACH_MSG_SUCCESS;
    }
    if (left != 0) {
        return call_mismatch(connection);
    }
    if (code == MACH_RCV_TOO_LARGE && (call->option & MACH_RCV_MSG)) {
        tell(call, size, member);
    }
    return code;
}

mach_msg_return_t message_no_memory(mach_msg_option_t option) {
    return option & MACH_SEND_MSG ? MACH_SEND_NO_BUFFER : MACH_RCV_HEADER_ERROR | MACH_MSG_IPC_KERNEL;
}

/* Returns the code of a lost connection. A call that was sent may have been made: the code names the half whose outcome
   is unknown. */
static mach_msg_return_t interrupted(mach_msg_option_t option, kern_return_t code) {
    if (!(option & MACH_RCV_MSG)) {
        return MACH_SEND_INTERRUPTED;
    }
    return option & MACH_SEND_MSG ? code : MACH_RCV_INTERRUPTED;
}

mach_msg_option_t message_timeouts(mach_msg_option_t options, mach_msg_timeout_t timeout) {
    return timeout == CLOCK_FOR_EVER ? 0 : options;
}

#define BOTH (MACH_SEND_MSG | MACH_RCV_MSG)
#define TIMEOUTS (MACH_SEND_TIMEOUT | MACH_RCV_TIMEOUT)

/* Makes a call whose halves all have its timeout. */
static mach_msg_return_t message_part(struct connection *connection, const struct settings *settings,
                                      const struct message_call *part) {
    message_frame(connection, part);
    if (connection->call.is_bad) {
        return MACH_SEND_NO_BUFFER;
    }
    uint32_t wait = (part->option & BOTH) == BOTH ? clock_sum(part->timeout, part->timeout) : part->timeout;
    kern_return_t code = connection_exchange(connection, settings, wait);
    if (code != KERN_SUCCESS) {
        return call_was_cut(code) ? interrupted(part->option, code) : code;
    }
    code = call_read(connection, CALL_MACH_MSG);
    return code == MIG_REPLY_MISMATCH ? code : message_result(connection, part, code);
}

/* Makes a call of which each half has this timeout. With several paths a long wait is made in parts, so that the server
   has to answer each: over a path that is cut no answer comes. */
static mach_msg_return_t message_in_parts(struct connection *connection, const struct settings *settings,
                                          const struct message_call *call, mach_msg_timeout_t timeout) {
    struct message_call part = *call;
    struct clock_wait wait = clock_wait_for(timeout);
    uint32_t longest = settings_answer_time(settings);
    for (;;) {
        uint32_t left = clock_wait_left(&wait);
        part.timeout = left < longest ? left : longest;
        part.option = (part.option & ~TIMEOUTS) | message_timeouts(TIMEOUTS, part.timeout);
        mach_msg_return_t code = message_part(connection, settings, &part);
        if (code == MACH_RCV_TIMED_OUT && (part.option & MACH_SEND_MSG)) {
            part.option &= ~MACH_SEND_MSG; /* the receive has begun with this part */
            wait = clock_wait_for(timeout == CLOCK_FOR_EVER ? timeout : timeout - part.timeout);
        }
        bool is_over = clock_wait_left(&wait) == 0;
        if (is_over || (code != MACH_SEND_TIMED_OUT && code != MACH_RCV_TIMED_OUT)) {
            return code;
        }
    }
}

/* Returns the timeout of a half, whose option this is. */
static mach_msg_timeout_t timeout_of(const struct message_call *call, mach_msg_option_t limited) {
    return call->option & limited ? call->timeout : CLOCK_FOR_EVER;
}

static mach_msg_return_t message_plain(struct connection *connection, const struct settings *settings,
                                       const struct message_call *call) {
    mach_msg_timeout_t of_send = timeout_of(call, MACH_SEND_TIMEOUT);
    mach_msg_timeout_t of_receive = timeout_of(call, MACH_RCV_TIMEOUT);
    struct message_call half = *call;
    if (!(call->option & MACH_SEND_MSG) || of_send == of_receive) {
        return message_in_parts(connection, settings, call, of_receive);
    }
    half.option &= ~MACH_RCV_MSG;
    mach_msg_return_t code = message_in_parts(connection, settings, &half, of_send);
    if (code == MACH_MSG_SUCCESS && (call->option & MACH_RCV_MSG)) {
        half.option = call->option & ~MACH_SEND_MSG;
        code = message_in_parts(connection, settings, &half, of_receive);
    }
    return code;
}

mach_msg_return_t mach_msg(mach_msg_header_t *msg, mach_msg_option_t option, mach_msg_size_t send_size,
                           mach_msg_size_t rcv_size, mach_port_t rcv_name, mach_msg_timeout_t timeout, mach_port_t notify) {
    (void) notify;
    struct message_call call = {msg, option, send_size, rcv_size, rcv_name, timeout};
    if (msg == NULL && (option & MACH_SEND_MSG)) {
        return MACH_SEND_INVALID_DATA;
    }
    if (msg == NULL && (option & MACH_RCV_MSG)) {
        return MACH_RCV_INVALID_DATA;
    }
    struct connection *connection = connection_of_thread();
    if (connection == NULL) {
        return message_no_memory(option);
    }
    struct settings settings = settings_now();
    return settings.is_once ? message_once(connection, &settings, &call) : message_plain(connection, &settings, &call);
}
