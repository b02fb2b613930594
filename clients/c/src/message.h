/* The frames of mach_msg. */

#ifndef MACHIPC_MESSAGE_H
#define MACHIPC_MESSAGE_H

#include "connection.h"

/* The arguments of mach_msg. */
struct message_call {
    mach_msg_header_t *message;
    mach_msg_option_t option;
    mach_msg_size_t send_size;
    mach_msg_size_t receive_size;
    mach_port_t receive_name;
    mach_msg_timeout_t timeout;
};

/* Puts a call into connection->call. Without MACH_SEND_MSG it has no message. */
void message_frame(struct connection *connection, const struct message_call *call);

/* Reads the results of a reply after its code: the size and the port of a message and, if the code is MACH_MSG_SUCCESS
   and the call receives, the message, which is copied to the caller. Returns the code, or MIG_REPLY_MISMATCH. */
mach_msg_return_t message_result(struct connection *connection, const struct message_call *call, kern_return_t code);

/* Returns the code of mach_msg if it is out of memory before the call is sent. */
mach_msg_return_t message_no_memory(mach_msg_option_t option);

/* Returns the options of a timeout: these, or none if it is CLOCK_FOR_EVER. */
mach_msg_option_t message_timeouts(mach_msg_option_t options, mach_msg_timeout_t timeout);

/* mach_msg in the mode of machipc_once. */
mach_msg_return_t message_once(struct connection *connection, const struct settings *settings,
                               const struct message_call *call);

#endif
