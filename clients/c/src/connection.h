/* A thread's connection to the server: its socket, and the frames of the current call. */

#ifndef MACHIPC_CONNECTION_H
#define MACHIPC_CONNECTION_H

#include "frame.h"
#include "settings.h"

#include <machipc.h>

struct connection {
    int socket;               /* -1: none */
    unsigned long generation; /* generation of the settings when the socket was connected */
    mach_port_t reply_port;   /* the thread's reply port, or MACH_PORT_NULL */
    unsigned long reply_port_generation;
    struct connection *watch; /* the connection by which the thread waits in machipc_receive, or NULL */
    int events;               /* of a watch: an epoll descriptor for its socket and its timer, or -1 */
    int timer;                /* of a watch: a timer that ends when the answer is late, or -1 */
    mach_port_t watched;      /* of a watch: the port or set of the pending wait, or MACH_PORT_NULL */
    struct connection *next;  /* of the process's connections */
    struct frame call;
    struct frame reply;
};

/* Returns the calling thread's connection, with or without a socket, or NULL if out of memory. It ends with the thread,
   together with the thread's reply port. */
struct connection *connection_of_thread(void);

/* Create a connection that belongs to no thread, without a socket, or return NULL if out of memory; and end it. */
struct connection *connection_new(void);
void connection_free(struct connection *connection);

/* Give the connection a socket that isn't connected yet and doesn't block, and close it. The first returns true on success. */
bool connection_make_socket(struct connection *connection);
void connection_close(struct connection *connection);

/* Closes the descriptors of a watch's event loop. */
void connection_close_events(struct connection *connection);

/* Between these two calls no thread forks: all that is opened meanwhile is closed again or in the connection at the
   end, so that no child keeps it. */
void connection_hold_forks(void);
void connection_release_forks(void);

/* Opens the connection to the server and the space of these settings, unless it is open. MACH_SEND_INTERRUPTED: no
   server answers, or machrun has no connection to give; KERN_INVALID_TASK: the space is gone; KERN_FAILURE: the
   settings are those of a parent that numbers its calls. */
kern_return_t connection_open(struct connection *connection, const struct settings *settings);

/* Sends the call's frame and reads the reply's, once. `wait` has the milliseconds for which the server may wait before it
   answers. MACH_SEND_INTERRUPTED: the connection was lost before the frame was sent; MACH_RCV_INTERRUPTED: it was lost
   after that, or the answer is late and there are other paths; KERN_INVALID_TASK: as above. */
kern_return_t connection_exchange(struct connection *connection, const struct settings *settings, uint32_t wait);

#endif
