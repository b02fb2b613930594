/*
 * Calls on the names and rights of the caller's own space (Loepere, Mach 3 Kernel Interfaces, 1992, chapter "Port
 * Manipulation Interface"; each function has the section of its own name there).
 *
 * Every function may also return
 *     KERN_INVALID_TASK       `task` isn't mach_task_self(), or the space is gone
 *     KERN_RESOURCE_SHORTAGE  the server or the library is out of memory, or the server has no room to store the call
 *     MACH_SEND_INTERRUPTED   no connection could be made, or it was lost before the call was sent: nothing was done
 *     MACH_RCV_INTERRUPTED    the connection was lost before the reply: the call may or may not have been done (except
 *                             with machipc_once, which repeats it)
 *     MIG_REPLY_MISMATCH      the server's frame is no reply to the call
 * A call to which the server doesn't reply KERN_SUCCESS changed nothing. A result at a pointer is written only with
 * KERN_SUCCESS. KERN_INVALID_NAME is returned for MACH_PORT_NULL, MACH_PORT_DEAD and each name that isn't in use.
 */

#ifndef _MACH_MACH_PORT_H_
#define _MACH_MACH_PORT_H_

#include <mach/kern_return.h>
#include <mach/mach_types.h>
#include <mach/message.h>
#include <mach/port.h>

#ifdef __cplusplus
extern "C" {
#endif

/*
 * Returns all names of the space, in ascending order, and their types. The caller releases both arrays with free(). The
 * two counts are equal. KERN_RESOURCE_SHORTAGE: no memory for the arrays.
 */
kern_return_t mach_port_names(mach_port_t task, mach_port_array_t *names, mach_msg_type_number_t *names_count,
                              mach_port_type_array_t *types, mach_msg_type_number_t *types_count);

/* Returns the type of a name, as bits MACH_PORT_TYPE_... KERN_INVALID_NAME. */
kern_return_t mach_port_type(mach_port_t task, mach_port_t name, mach_port_type_t *type);

/* Moves a name's rights to another name. KERN_INVALID_NAME: old_name; KERN_INVALID_VALUE: new_name is MACH_PORT_NULL or
   MACH_PORT_DEAD; KERN_NAME_EXISTS: it is in use. */
kern_return_t mach_port_rename(mach_port_t task, mach_port_t old_name, mach_port_t new_name);

/* Makes a port, a port set or a dead name under a given name. KERN_INVALID_VALUE: another right than these three, or an
   invalid name; KERN_NAME_EXISTS; KERN_NO_SPACE: 4,096 names; KERN_RESOURCE_SHORTAGE: 16,384 ports. */
kern_return_t mach_port_allocate_name(mach_port_t task, mach_port_right_t right, mach_port_t name);

/* The same under a name that the server chooses. */
kern_return_t mach_port_allocate(mach_port_t task, mach_port_right_t right, mach_port_t *name);

/* Releases all rights of a name, which is then free. A receive right's port dies, or the right goes to the target of
   its port-destroyed request. KERN_INVALID_NAME. */
kern_return_t mach_port_destroy(mach_port_t task, mach_port_t name);

/* Releases one user reference of a send right or a dead name, or a send-once right. KERN_INVALID_NAME;
   KERN_INVALID_RIGHT: only a receive right, or a set. */
kern_return_t mach_port_deallocate(mach_port_t task, mach_port_t name);

/* Returns the number of user references of the name for a kind of right: 0 if it holds none. KERN_INVALID_VALUE: not a
   kind of right; KERN_INVALID_NAME. */
kern_return_t mach_port_get_refs(mach_port_t task, mach_port_t name, mach_port_right_t right, mach_port_urefs_t *refs);

/* Adds to a name's user references for a kind of right. KERN_INVALID_VALUE: not a kind of right, a sum below 0, or a
   change other than 0 or -1 for a receive right, a send-once right or a set; KERN_INVALID_NAME; KERN_INVALID_RIGHT: the
   name doesn't hold one; KERN_UREFS_OVERFLOW: above 65,534 for a send right, 65,535 for a dead name. */
kern_return_t mach_port_mod_refs(mach_port_t task, mach_port_t name, mach_port_right_t right, mach_port_delta_t delta);

/* Sets the number of messages in a port's queue from which on sends wait. KERN_INVALID_VALUE: above the maximum limit;
   KERN_INVALID_NAME; KERN_INVALID_RIGHT: not a receive right. */
kern_return_t mach_port_set_qlimit(mach_port_t task, mach_port_t name, mach_port_msgcount_t limit);

/* Sets a port's make-send count. KERN_INVALID_NAME; KERN_INVALID_RIGHT: not a receive right. */
kern_return_t mach_port_set_mscount(mach_port_t task, mach_port_t name, mach_port_mscount_t count);

/* Sets the sequence number of a port's next received message. KERN_INVALID_NAME; KERN_INVALID_RIGHT: not a receive
   right. */
kern_return_t mach_port_set_seqno(mach_port_t task, mach_port_t name, mach_port_seqno_t seqno);

/* Returns the status of a receive right. KERN_INVALID_NAME; KERN_INVALID_RIGHT: not a receive right. */
kern_return_t mach_port_get_receive_status(mach_port_t task, mach_port_t name, mach_port_status_t *status);

/* Returns the members of a set, in ascending order. The caller releases the array with free(). KERN_INVALID_NAME;
   KERN_INVALID_RIGHT: not a set. */
kern_return_t mach_port_get_set_status(mach_port_t task, mach_port_t name, mach_port_array_t *members,
                                       mach_msg_type_number_t *count);

/* Moves a receive right into a set, from its former set if it was in one, or with MACH_PORT_NULL only out of it.
   KERN_INVALID_NAME; KERN_INVALID_RIGHT: member is not a receive right, or after not a set; KERN_NOT_IN_SET: it is in
   none. */
kern_return_t mach_port_move_member(mach_port_t task, mach_port_t member, mach_port_t after);

/*
 * Requests a notice: MACH_NOTIFY_PORT_DESTROYED or MACH_NOTIFY_NO_SENDERS about a receive right, or
 * MACH_NOTIFY_DEAD_NAME. The notice is sent to `notify`, a send-once right that is moved (MACH_MSG_TYPE_MOVE_SEND_ONCE)
 * or made (MACH_MSG_TYPE_MAKE_SEND_ONCE) for it; MACH_PORT_NULL cancels the request. *previous is the send-once right
 * of the former request, or MACH_PORT_NULL. A no-senders notice is sent at once if there are no senders and the
 * make-send count is at least `sync`; a notice about a dead name is sent at once if sync isn't 0. KERN_INVALID_VALUE:
 * another notice, another disposition, or sync with port-destroyed; KERN_INVALID_CAPABILITY: notify; KERN_INVALID_NAME;
 * KERN_INVALID_RIGHT: no such right; KERN_INVALID_ARGUMENT: a dead name with sync 0 or without notify;
 * KERN_UREFS_OVERFLOW; KERN_NO_SPACE: no name for the former right.
 */
kern_return_t mach_port_request_notification(mach_port_t task, mach_port_t name, mach_msg_id_t variant,
                                             mach_port_mscount_t sync, mach_port_t notify, mach_msg_type_name_t disposition,
                                             mach_port_t *previous);

/* Puts a right, which is taken from right_name by the disposition, under a name. KERN_INVALID_VALUE: an invalid name or
   disposition; KERN_INVALID_CAPABILITY: right_name doesn't allow the disposition, or is dead; KERN_RIGHT_EXISTS: the
   port has another name here; KERN_NAME_EXISTS: the name has another entry; KERN_UREFS_OVERFLOW; KERN_NO_SPACE. */
kern_return_t mach_port_insert_right(mach_port_t task, mach_port_t name, mach_port_t right_name,
                                     mach_msg_type_name_t disposition);

/* Takes a right from a name by the disposition, and returns the name and the type with which it arrives. Because it
   arrives in the caller's own space, a send or receive right keeps the port's name. KERN_INVALID_VALUE: the
   disposition; KERN_INVALID_NAME; KERN_INVALID_RIGHT: the name doesn't allow the disposition, or is dead;
   KERN_NO_SPACE. */
kern_return_t mach_port_extract_right(mach_port_t task, mach_port_t name, mach_msg_type_name_t disposition,
                                      mach_port_t *right_name, mach_msg_type_name_t *type);

#ifdef __cplusplus
}
#endif

#endif
