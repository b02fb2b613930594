/*
 * Notices that the server sends (Loepere, Mach 3 Kernel Interfaces, 1992, chapter "Notifications"). Each is sent by a
 * send-once right, so its header has MACH_MSG_TYPE_PORT_SEND_ONCE for its local port, and no reply port.
 */

#ifndef _MACH_NOTIFY_H_
#define _MACH_NOTIFY_H_

#include <mach/message.h>
#include <mach/port.h>

#define MACH_NOTIFY_FIRST 64
#define MACH_NOTIFY_PORT_DELETED (MACH_NOTIFY_FIRST + 1)   /* a name with a dead-name request was removed */
#define MACH_NOTIFY_MSG_ACCEPTED (MACH_NOTIFY_FIRST + 2)   /* only supported by Mach kernels */
#define MACH_NOTIFY_PORT_DESTROYED (MACH_NOTIFY_FIRST + 5) /* a receive right comes back instead of its port's death */
#define MACH_NOTIFY_NO_SENDERS (MACH_NOTIFY_FIRST + 6)     /* a port has no send rights any more */
#define MACH_NOTIFY_SEND_ONCE (MACH_NOTIFY_FIRST + 7)      /* a send-once right was destroyed without a message */
#define MACH_NOTIFY_DEAD_NAME (MACH_NOTIFY_FIRST + 8)      /* a name's port died */
#define MACH_NOTIFY_LAST (MACH_NOTIFY_FIRST + 15)

typedef struct {
    mach_msg_header_t not_header;
    mach_msg_type_t not_type; /* MACH_MSG_TYPE_PORT_NAME */
    mach_port_t not_port;
} mach_port_deleted_notification_t;

typedef struct {
    mach_msg_header_t not_header;
    mach_msg_type_t not_type; /* MACH_MSG_TYPE_PORT_RECEIVE */
    mach_port_t not_port;
} mach_port_destroyed_notification_t;

typedef struct {
    mach_msg_header_t not_header;
    mach_msg_type_t not_type; /* MACH_MSG_TYPE_INTEGER_32 */
    natural_t not_count;      /* the port's make-send count */
} mach_no_senders_notification_t;

typedef struct {
    mach_msg_header_t not_header;
} mach_send_once_notification_t;

typedef struct {
    mach_msg_header_t not_header;
    mach_msg_type_t not_type; /* MACH_MSG_TYPE_PORT_NAME */
    mach_port_t not_port;     /* the notice adds a reference to this dead name */
} mach_dead_name_notification_t;

#endif
