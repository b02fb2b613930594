/*
 * mach_msg in the mode of machipc_once. Each half is a numbered request, which is one attempt and doesn't wait. The
 * client waits instead: a send is repeated, and a receive waits by a call with limit 0 and MACH_RCV_LARGE, which leaves
 * each message in the queue and only reports it.
 */

#include "call.h"
#include "clock.h"
#include "message.h"
#include "numbered.h"

#define KNOWN_OPTIONS (MACH_SEND_MSG | MACH_RCV_MSG | MACH_SEND_TIMEOUT | MACH_RCV_TIMEOUT | MACH_RCV_LARGE)

/* Makes one numbered attempt at a half. */
static mach_msg_return_t attempt(struct connection *connection, const struct settings *settings,
                                 const struct message_call *half) {
    message_frame(connection, half);
    if (connection->call.is_bad) {
        return MACH_SEND_NO_BUFFER;
    }
    kern_return_t code = numbered_make(connection, settings, CALL_MACH_MSG);
    if (call_was_cut(code)) {
        return half->option & MACH_SEND_MSG ? MACH_SEND_INTERRUPTED : MACH_RCV_INTERRUPTED;
    }
    if (code == KERN_RESOURCE_SHORTAGE) {
        return message_no_memory(half->option);
    }
    /* A refusal of the request itself has no results; each reply to the call in it has a size and a port. */
    bool has_results = code != MIG_REPLY_MISMATCH && frame_left(&connection->reply) > 0;
    return has_results ? message_result(connection, half, code) : code;
}

static mach_msg_return_t send_once(struct connection *connection, const struct settings *settings,
                                   const struct message_call *call) {
    struct message_call half = {.message = call->message, .send_size = call->send_size};
    half.option = MACH_SEND_MSG | MACH_SEND_TIMEOUT;
    struct clock_wait wait = clock_wait_for(call->option & MACH_SEND_TIMEOUT ? call->timeout : CLOCK_FOR_EVER);
    for (;;) {
        mach_msg_return_t code = attempt(connection, settings, &half);
        if (code != MACH_SEND_TIMED_OUT || !clock_wait_pause(&wait)) {
            return code;
        }
    }
}

/* Waits until there is a message, and leaves it in the queue, or until the server has to answer all the same.
   MACH_RCV_TOO_LARGE: there is a message; MACH_RCV_TIMED_OUT: there is none yet. */
static mach_msg_return_t await(struct connection *connection, const struct settings *settings, const struct message_call *call,
                               const struct clock_wait *wait) {
    mach_msg_header_t nothing;
    struct clock_wait patience;
    uint32_t longest = settings_answer_time(settings);
    for (bool is_again = false;; is_again = true) {
        struct message_call look = {.message = &nothing, .receive_name = call->receive_name};
        uint32_t left = clock_wait_left(wait);
        look.timeout = left < longest ? left : longest;
        look.option = MACH_RCV_MSG | MACH_RCV_LARGE | message_timeouts(MACH_RCV_TIMEOUT, look.timeout);
        message_frame(connection, &look);
        kern_return_t code = connection_exchange(connection, settings, look.timeout);
        if (is_again && !call_was_cut(code)) {
            call_count_repeat();
        }
        if (code == KERN_SUCCESS) {
            code = call_read(connection, CALL_MACH_MSG);
            return code == MIG_REPLY_MISMATCH ? code : message_result(connection, &look, code);
        }
        if (!call_was_cut(code)) {
            return code;
        }
        if (!is_again) {
            patience = clock_wait_for(settings->patience);
        }
        if (!clock_wait_pause(&patience)) {
            return MACH_RCV_INTERRUPTED;
        }
    }
}

static mach_msg_return_t receive_once(struct connection *connection, const struct settings *settings,
                                      const struct message_call *call) {
    struct message_call half = {.message = call->message, .receive_size = call->receive_size};
    half.option = MACH_RCV_MSG | MACH_RCV_TIMEOUT | (call->option & MACH_RCV_LARGE);
    half.receive_name = call->receive_name;
    struct clock_wait wait = clock_wait_for(call->option & MACH_RCV_TIMEOUT ? call->timeout : CLOCK_FOR_EVER);
    for (;;) {
        mach_msg_return_t code = attempt(connection, settings, &half);
        if (code != MACH_RCV_TIMED_OUT || clock_wait_left(&wait) == 0) {
            return code;
        }
        code = await(connection, settings, call, &wait);
        if (code != MACH_RCV_TOO_LARGE && code != MACH_RCV_TIMED_OUT) {
            return code;
        }
        /* Another thread may take the message first; then this one waits again. */
    }
}

mach_msg_return_t message_once(struct connection *connection, const struct settings *settings,
                               const struct message_call *call) {
    mach_msg_return_t code = MACH_MSG_SUCCESS;
    if (call->option & ~KNOWN_OPTIONS) {
        return KERN_INVALID_ARGUMENT;
    }
    if (call->option & MACH_SEND_MSG) {
        code = send_once(connection, settings, call);
    }
    if (code == MACH_MSG_SUCCESS && (call->option & MACH_RCV_MSG)) {
        code = receive_once(connection, settings, call);
    }
    return code;
}
