/*
 * A name service, as Mach had one: a program that offers a service checks its port in under a name, and others look it
 * up.
 *
 * Requests to the name service are messages to its port, which is the bootstrap port of every program that it serves.
 */

#ifndef NAMES_H
#define NAMES_H

#include <machipc.h>
#include <stddef.h>

enum { NAMES_CHECK_IN = 1000, NAMES_LOOK_UP, NAMES_REPLY = 100, NAME_LENGTH = 64 };

/* The milliseconds for which the name service's answer is waited for. */
enum { NAMES_PATIENCE = 5000 };

/* Codes of the name service. */
enum { NAME_UNKNOWN = 1, NAME_TAKEN = 2, NAMES_FULL = 3, NAMES_BAD_REQUEST = 4 };

/*
 * A request: a name of at most NAME_LENGTH - 1 letters, and, to check in, two send rights: to the service's port, and
 * to its token, a port that nobody else has a right to. A no-senders notice of the token tells the service that the
 * name service has forgotten its name. The port itself can't tell that, since clients have rights to it too.
 */
struct names_request {
    mach_msg_header_t head;
    mach_msg_type_t name_type;
    char name[NAME_LENGTH];
    mach_msg_type_t ports_type; /* only for a check-in, as are the two ports */
    mach_port_t port;
    mach_port_t token;
};

/* A reply: a code, and a send right if a name was looked up and found. */
struct names_reply {
    mach_msg_header_t head;
    mach_msg_type_t code_type;
    int32_t code;
    mach_msg_type_t port_type;
    mach_port_t port;
};

/* The length of a request and of a reply without ports. */
#define NAMES_REQUEST_ALONE ((mach_msg_size_t) offsetof(struct names_request, ports_type))
#define NAMES_REPLY_ALONE ((mach_msg_size_t) offsetof(struct names_reply, port_type))

/* Returns the descriptor of an item that is in line. */
mach_msg_type_t names_item(mach_msg_type_name_t type, unsigned bits, unsigned count);

/* Checks a service in: send rights are made from the receive rights `port` and `token`. The codes are Mach's or those
   above. MIG_SERVER_DIED means that the name service took the request and ended before it answered. */
kern_return_t names_check_in(mach_port_t names, const char *name, mach_port_t port, mach_port_t token);

/* Looks a name up. The caller gets a send right, or one more user reference if it had the right already. */
kern_return_t names_look_up(mach_port_t names, const char *name, mach_port_t *port);

/* The id of the requests to the services of this example: two numbers, whose sum is the answer. */
enum { SUM = 2000 };

struct sum_message {
    mach_msg_header_t head;
    uint32_t numbers[2]; /* in the reply the sum, and a code in the place where a MIG server has it */
};

/* Sends a request that wants a reply, and waits for that on the thread's reply port, at most the given milliseconds.
   MIG_SERVER_DIED means that there is no server, or that it ended before it answered. */
kern_return_t names_ask(mach_msg_header_t *message, mach_msg_size_t size, mach_msg_size_t room, mach_msg_timeout_t timeout);

#endif
