/*
 * Messages in the layout of Mach 3 for 32 bits (Loepere, Mach 3 Kernel Interfaces, 1992, chapter "IPC Interface"),
 * which 64-bit programs use too: a header of six words, and a body that is a sequence of items if the message is
 * complex. Every number is little-endian.
 */

#ifndef _MACH_MESSAGE_H_
#define _MACH_MESSAGE_H_

#include <mach/kern_return.h>
#include <mach/port.h>
#include <stdint.h>

/* A timeout in milliseconds. It is used only with MACH_SEND_TIMEOUT or MACH_RCV_TIMEOUT. */
typedef natural_t mach_msg_timeout_t;

#define MACH_MSG_TIMEOUT_NONE ((mach_msg_timeout_t) 0)

/* The header's bits: the dispositions of the remote and the local right, and a bit that says if the body has items. */
typedef uint32_t mach_msg_bits_t;

#define MACH_MSGH_BITS_ZERO 0x00000000U
#define MACH_MSGH_BITS_REMOTE_MASK 0x000000ffU
#define MACH_MSGH_BITS_LOCAL_MASK 0x0000ff00U
#define MACH_MSGH_BITS_COMPLEX 0x80000000U
#define MACH_MSGH_BITS_PORTS_MASK (MACH_MSGH_BITS_REMOTE_MASK | MACH_MSGH_BITS_LOCAL_MASK)
#define MACH_MSGH_BITS(remote, local) ((mach_msg_bits_t) (remote) | ((mach_msg_bits_t) (local) << 8))
#define MACH_MSGH_BITS_REMOTE(bits) (MACH_MSGH_BITS_REMOTE_MASK & (bits))
#define MACH_MSGH_BITS_LOCAL(bits) ((MACH_MSGH_BITS_LOCAL_MASK & (bits)) >> 8)
#define MACH_MSGH_BITS_PORTS(bits) (MACH_MSGH_BITS_PORTS_MASK & (bits))
#define MACH_MSGH_BITS_OTHER(bits) ((bits) & ~MACH_MSGH_BITS_PORTS_MASK)

typedef natural_t mach_msg_size_t; /* bytes */
typedef natural_t mach_msg_seqno_t;
typedef integer_t mach_msg_id_t;

#define MACH_MSG_SIZE_MAX ((mach_msg_size_t) ~0)

/*
 * When sent, the remote port is the destination and the local one the reply right. When received, the remote port is
 * the reply right and the local one the port whose queue the message was in.
 */
typedef struct {
    mach_msg_bits_t msgh_bits;
    mach_msg_size_t msgh_size; /* bytes of header and body when received; ignored when sent */
    mach_port_t msgh_remote_port;
    mach_port_t msgh_local_port;
    mach_port_seqno_t msgh_seqno; /* set when received; ignored when sent */
    mach_msg_id_t msgh_id;
} mach_msg_header_t;

#define msgh_kind msgh_seqno

/* The type of an item in a body. 16 to 21 are rights; every other number is data, known or not. */
typedef unsigned int mach_msg_type_name_t;
typedef unsigned int mach_msg_type_size_t; /* bits of an element */
typedef natural_t mach_msg_type_number_t;  /* elements */

#define MACH_MSG_TYPE_UNSTRUCTURED 0
#define MACH_MSG_TYPE_BIT 0
#define MACH_MSG_TYPE_BOOLEAN 0
#define MACH_MSG_TYPE_INTEGER_16 1
#define MACH_MSG_TYPE_INTEGER_32 2
#define MACH_MSG_TYPE_CHAR 8
#define MACH_MSG_TYPE_BYTE 9
#define MACH_MSG_TYPE_INTEGER_8 9
#define MACH_MSG_TYPE_REAL 10
#define MACH_MSG_TYPE_INTEGER_64 11
#define MACH_MSG_TYPE_STRING 12
#define MACH_MSG_TYPE_STRING_C 12
#define MACH_MSG_TYPE_PORT_NAME 15
#define MACH_MSG_TYPE_MOVE_RECEIVE 16
#define MACH_MSG_TYPE_MOVE_SEND 17
#define MACH_MSG_TYPE_MOVE_SEND_ONCE 18
#define MACH_MSG_TYPE_COPY_SEND 19
#define MACH_MSG_TYPE_MAKE_SEND 20
#define MACH_MSG_TYPE_MAKE_SEND_ONCE 21
#define MACH_MSG_TYPE_LAST 22

/* The three types of received rights. */
#define MACH_MSG_TYPE_PORT_NONE 0
#define MACH_MSG_TYPE_PORT_RECEIVE MACH_MSG_TYPE_MOVE_RECEIVE
#define MACH_MSG_TYPE_PORT_SEND MACH_MSG_TYPE_MOVE_SEND
#define MACH_MSG_TYPE_PORT_SEND_ONCE MACH_MSG_TYPE_MOVE_SEND_ONCE
#define MACH_MSG_TYPE_PROTECTED_PAYLOAD 23
#define MACH_MSG_TYPE_POLYMORPHIC ((mach_msg_type_name_t) -1)

#define MACH_MSG_TYPE_PORT_ANY(type) (((type) >= MACH_MSG_TYPE_MOVE_RECEIVE) && ((type) <= MACH_MSG_TYPE_MAKE_SEND_ONCE))
#define MACH_MSG_TYPE_PORT_ANY_SEND(type) (((type) >= MACH_MSG_TYPE_MOVE_SEND) && ((type) <= MACH_MSG_TYPE_MAKE_SEND_ONCE))
#define MACH_MSG_TYPE_PORT_ANY_RIGHT(type) (((type) >= MACH_MSG_TYPE_MOVE_RECEIVE) && ((type) <= MACH_MSG_TYPE_MOVE_SEND_ONCE))

/* The descriptor before an item's data: one word. The server refuses data out of line (msgt_inline 0). */
typedef struct {
    unsigned int msgt_name : 8, msgt_size : 8, msgt_number : 12, msgt_inline : 1, msgt_longform : 1, msgt_deallocate : 1,
        msgt_unused : 1;
} mach_msg_type_t;

/* A long descriptor: 12 bytes. Only msgt_inline and msgt_longform may be set in msgtl_header. */
typedef struct {
    mach_msg_type_t msgtl_header;
    uint16_t msgtl_name;
    uint16_t msgtl_size;
    natural_t msgtl_number;
} mach_msg_type_long_t;

/* Options of mach_msg. The server refuses all other bits with KERN_INVALID_ARGUMENT. */
typedef integer_t mach_msg_option_t;

#define MACH_MSG_OPTION_NONE 0x00000000
#define MACH_SEND_MSG 0x00000001
#define MACH_RCV_MSG 0x00000002
#define MACH_SEND_TIMEOUT 0x00000010
#define MACH_RCV_TIMEOUT 0x00000100
#define MACH_RCV_LARGE 0x00000800
#define MACH_SEND_ALWAYS 0x00010000 /* this and the next five are only supported by Mach kernels: refused */
#define MACH_SEND_NOTIFY 0x00000020
#define MACH_SEND_INTERRUPT 0x00000040
#define MACH_SEND_CANCEL 0x00000080
#define MACH_RCV_NOTIFY 0x00000200
#define MACH_RCV_INTERRUPT 0x00000400

/* Return codes of mach_msg. */
typedef kern_return_t mach_msg_return_t;

#define MACH_MSG_SUCCESS 0x00000000
#define MACH_MSG_IPC_SPACE 0x00002000  /* added to MACH_RCV_HEADER_ERROR: no names are left */
#define MACH_MSG_IPC_KERNEL 0x00000800 /* added to MACH_RCV_HEADER_ERROR: the server is out of memory */

#define MACH_SEND_IN_PROGRESS 0x10000001
#define MACH_SEND_INVALID_DATA 0x10000002 /* the message is NULL */
#define MACH_SEND_INVALID_DEST 0x10000003 /* the destination is no right to send with */
#define MACH_SEND_TIMED_OUT 0x10000004    /* the queue is full, and the timeout expired */
#define MACH_SEND_WILL_NOTIFY 0x10000005
#define MACH_SEND_NOTIFY_IN_PROGRESS 0x10000006
#define MACH_SEND_INTERRUPTED 0x10000007   /* the connection to the server was lost, or there is none */
#define MACH_SEND_MSG_TOO_SMALL 0x10000008 /* below 24 bytes, not a multiple of 4, or items that extend past the end */
#define MACH_SEND_INVALID_REPLY 0x10000009 /* the local port is no right to reply with */
#define MACH_SEND_INVALID_RIGHT 0x1000000a /* a right of the body can't be taken */
#define MACH_SEND_INVALID_NOTIFY 0x1000000b
#define MACH_SEND_INVALID_MEMORY 0x1000000c /* data out of line */
#define MACH_SEND_NO_BUFFER 0x1000000d      /* above 8,192 bytes or 256 rights, or out of memory */
#define MACH_SEND_NO_NOTIFY 0x1000000e
#define MACH_SEND_INVALID_TYPE 0x1000000f   /* an invalid descriptor */
#define MACH_SEND_INVALID_HEADER 0x10000010 /* invalid dispositions */

#define MACH_RCV_IN_PROGRESS 0x10004001  /* only machipc_receive: there is no message yet */
#define MACH_RCV_INVALID_NAME 0x10004002 /* neither a receive right nor a set */
#define MACH_RCV_TIMED_OUT 0x10004003    /* no message came before the timeout */
#define MACH_RCV_TOO_LARGE 0x10004004    /* the message is larger than the buffer */
#define MACH_RCV_INTERRUPTED 0x10004005  /* the connection to the server was lost, or there is none */
#define MACH_RCV_PORT_CHANGED 0x10004006 /* the port was moved into a set meanwhile */
#define MACH_RCV_INVALID_NOTIFY 0x10004007
#define MACH_RCV_INVALID_DATA 0x10004008 /* the buffer is NULL */
#define MACH_RCV_PORT_DIED 0x10004009    /* the receive right or the set was removed meanwhile */
#define MACH_RCV_IN_SET 0x1000400a       /* the port is in a set: receive from the set */
#define MACH_RCV_HEADER_ERROR 0x1000400b /* with one of the two numbers above */
#define MACH_RCV_BODY_ERROR 0x1000400c

#ifdef __cplusplus
extern "C" {
#endif

/*
 * Sends a message, receives one, or sends one and then receives one (Loepere, "mach_msg").
 *
 * With MACH_SEND_MSG it sends the send_size bytes at msg. With MACH_RCV_MSG it then receives at most rcv_size bytes
 * into msg, from the port or set rcv_name. A larger message makes it fail with MACH_RCV_TOO_LARGE: with MACH_RCV_LARGE
 * the message stays in the queue, otherwise it is destroyed; in either case msgh_size has its size and msgh_local_port
 * its port, as far as rcv_size bytes reach. A send to a full queue waits for room, and a receive for a message: without
 * a timeout, or with MACH_SEND_TIMEOUT or MACH_RCV_TIMEOUT for `timeout` milliseconds, each half from its own
 * beginning. `notify` is ignored. A send that is refused changes nothing, and nothing is received after it.
 *
 * If the connection is lost, or none can be made: MACH_SEND_INTERRUPTED if the call has a send and no receive, or if
 * the call wasn't sent completely; otherwise MACH_RCV_INTERRUPTED. A call that had been sent may or may not have been
 * made, except with machipc_once. MIG_REPLY_MISMATCH: the server's frame is no reply to the call.
 */
mach_msg_return_t mach_msg(mach_msg_header_t *msg, mach_msg_option_t option, mach_msg_size_t send_size,
                           mach_msg_size_t rcv_size, mach_port_t rcv_name, mach_msg_timeout_t timeout, mach_port_t notify);

/*
 * Releases the rights of a message that was received, or that was to be sent and wasn't (Loepere, "mach_msg_destroy"):
 * the remote port and the ports of the body, each by its disposition. The local port stays. The body is read as far as
 * msgh_size reaches and its descriptors are valid.
 */
void mach_msg_destroy(mach_msg_header_t *msg);

/*
 * Receives messages from rcv_name, at most max_size bytes each, passes each to demux and sends the reply that demux
 * made, forever (Loepere, "mach_msg_server"). demux writes the reply to a buffer of max_size bytes, laid out as
 * mig_reply_header_t; MIG_NO_REPLY there means that no reply is sent. A reply that can't be sent is destroyed, and a
 * message above max_size is lost; the loop continues in both cases. It ends with the code of a receive that fails
 * otherwise, such as MACH_RCV_INTERRUPTED if the server can't be reached, or with KERN_RESOURCE_SHORTAGE if out of
 * memory. A max_size below the size of mig_reply_header_t is MACH_RCV_TOO_LARGE.
 */
mach_msg_return_t mach_msg_server(boolean_t (*demux)(mach_msg_header_t *request, mach_msg_header_t *reply),
                                  mach_msg_size_t max_size, mach_port_t rcv_name);

#ifdef __cplusplus
}
#endif

#endif
