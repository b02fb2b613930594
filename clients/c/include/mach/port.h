/*
 * Names of ports, kinds of rights, and the status of receive rights (Loepere, Mach 3 Kernel Interfaces, 1992, chapter
 * "Port Manipulation Interface").
 */

#ifndef _MACH_PORT_H_
#define _MACH_PORT_H_

#include <mach/boolean.h>
#include <stdint.h>

typedef uint32_t natural_t;
typedef int32_t integer_t;

/* A name in the space of the caller. Neither MACH_PORT_NULL nor MACH_PORT_DEAD is ever a name in use. */
typedef natural_t mach_port_t;
typedef mach_port_t mach_port_name_t;
typedef mach_port_t *mach_port_name_array_t;

#define MACH_PORT_NULL ((mach_port_t) 0)
#define MACH_PORT_DEAD ((mach_port_t) ~0)
#define MACH_PORT_VALID(name) (((name) != MACH_PORT_NULL) && ((name) != MACH_PORT_DEAD))

/* Kinds of rights. */
typedef natural_t mach_port_right_t;

#define MACH_PORT_RIGHT_SEND ((mach_port_right_t) 0)
#define MACH_PORT_RIGHT_RECEIVE ((mach_port_right_t) 1)
#define MACH_PORT_RIGHT_SEND_ONCE ((mach_port_right_t) 2)
#define MACH_PORT_RIGHT_PORT_SET ((mach_port_right_t) 3)
#define MACH_PORT_RIGHT_DEAD_NAME ((mach_port_right_t) 4)
#define MACH_PORT_RIGHT_NUMBER ((mach_port_right_t) 5)

/* The type of a name: a bit for each right that it holds, and one for a dead-name request. */
typedef natural_t mach_port_type_t;
typedef mach_port_type_t *mach_port_type_array_t;

#define MACH_PORT_TYPE(right) ((mach_port_type_t) 1 << ((right) + 16))
#define MACH_PORT_TYPE_NONE ((mach_port_type_t) 0)
#define MACH_PORT_TYPE_SEND MACH_PORT_TYPE(MACH_PORT_RIGHT_SEND)
#define MACH_PORT_TYPE_RECEIVE MACH_PORT_TYPE(MACH_PORT_RIGHT_RECEIVE)
#define MACH_PORT_TYPE_SEND_ONCE MACH_PORT_TYPE(MACH_PORT_RIGHT_SEND_ONCE)
#define MACH_PORT_TYPE_PORT_SET MACH_PORT_TYPE(MACH_PORT_RIGHT_PORT_SET)
#define MACH_PORT_TYPE_DEAD_NAME MACH_PORT_TYPE(MACH_PORT_RIGHT_DEAD_NAME)
#define MACH_PORT_TYPE_DNREQUEST ((mach_port_type_t) 0x80000000U)
#define MACH_PORT_TYPE_SEND_RECEIVE (MACH_PORT_TYPE_SEND | MACH_PORT_TYPE_RECEIVE)
#define MACH_PORT_TYPE_SEND_RIGHTS (MACH_PORT_TYPE_SEND | MACH_PORT_TYPE_SEND_ONCE)
#define MACH_PORT_TYPE_PORT_RIGHTS (MACH_PORT_TYPE_SEND_RIGHTS | MACH_PORT_TYPE_RECEIVE)
#define MACH_PORT_TYPE_PORT_OR_DEAD (MACH_PORT_TYPE_PORT_RIGHTS | MACH_PORT_TYPE_DEAD_NAME)
#define MACH_PORT_TYPE_ALL_RIGHTS (MACH_PORT_TYPE_PORT_OR_DEAD | MACH_PORT_TYPE_PORT_SET)

typedef natural_t mach_port_urefs_t;    /* user references of a name */
typedef integer_t mach_port_delta_t;    /* a change of user references */
typedef natural_t mach_port_seqno_t;    /* the sequence number of a port's message */
typedef natural_t mach_port_mscount_t;  /* the number of send rights that were made from a receive right */
typedef natural_t mach_port_msgcount_t; /* messages in a queue, and its limit */
typedef natural_t mach_port_rights_t;   /* a number of rights */
typedef natural_t *mach_port_seqno_array_t;

/* The status of a receive right. */
typedef struct mach_port_status {
    mach_port_t mps_pset;              /* the set that contains the port, or MACH_PORT_NULL */
    mach_port_seqno_t mps_seqno;       /* the sequence number of its next message */
    mach_port_mscount_t mps_mscount;   /* its make-send count */
    mach_port_msgcount_t mps_qlimit;   /* the limit of its queue */
    mach_port_msgcount_t mps_msgcount; /* the number of messages in its queue */
    mach_port_rights_t mps_sorights;   /* the number of send-once rights */
    boolean_t mps_srights;             /* true if there are send rights */
    boolean_t mps_pdrequest;           /* true if there is a port-destroyed request */
    boolean_t mps_nsrequest;           /* true if there is a no-senders request */
} mach_port_status_t;

#define MACH_PORT_QLIMIT_DEFAULT ((mach_port_msgcount_t) 5)
#define MACH_PORT_QLIMIT_MAX ((mach_port_msgcount_t) 64) /* above that of a Mach kernel */

#endif
