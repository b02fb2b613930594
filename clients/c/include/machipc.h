/*
 * This library's own functions beside Mach's calls: the choice of the server, spaces, tasks that end, and calls that
 * are made once even if the connection is lost.
 *
 * A process is a task: it uses one server and one space, which machipc_connect and machipc_attach choose for all its
 * threads. Each thread has its own connection, which is made at its first call, and made again at its next call after
 * it was lost; so a thread that waits for a message doesn't delay other threads. A child of fork has the same server
 * and space, and makes its own connections. If its parent numbers its calls, all calls of the child fail with
 * KERN_FAILURE until it calls machipc_attach, machipc_once, machipc_connect or machipc_adopt. All functions may be
 * called from any thread, and none from a signal handler.
 *
 * Link with -lmachipc -pthread.
 */

#ifndef _MACHIPC_H_
#define _MACHIPC_H_

#include <mach.h>
#include <stddef.h>
#include <stdint.h>

#ifdef __cplusplus
extern "C" {
#endif

/* The number of a space: 1 is the first one, which always exists; the others are made by machipc_space_create. */
typedef uint32_t machipc_space_t;

#define MACHIPC_FIRST_SPACE ((machipc_space_t) 1)

/*
 * Uses the server whose socket is at `paths`, in the first space, and connects the calling thread.
 *
 * `paths` is a path, or a list of up to four: PATH1:PATH2. In a path a `:` is written `\:`, and a backslash `\\`. The
 * first path that leads to a server counts: the server has to answer within 3 seconds, since a proxy accepts connections
 * for a server that is gone. Each later connection tries the path first that answered last.
 *
 * KERN_INVALID_ARGUMENT: no such list, or a path that is too long for a socket; MACH_SEND_INTERRUPTED: no server answers
 * (see errno); KERN_RESOURCE_SHORTAGE: out of memory.
 */
kern_return_t machipc_connect(const char *paths);

/*
 * Uses this space from now on, in all threads. Any space may be attached to, and any number of connections may use one
 * space. It ends the mode of machipc_once. KERN_INVALID_TASK: there is no such space; KERN_NO_ACCESS: the process is
 * confined to another one. After a failure the process stays in its space.
 */
kern_return_t machipc_attach(machipc_space_t space);

/*
 * Confines the process to the space that it uses: the server then refuses every other space to all its connections, and
 * machipc_attach returns KERN_NO_ACCESS, until machipc_connect. It ends the mode of machipc_once. If the space is
 * destroyed, all calls of its connections fail with KERN_INVALID_TASK, even if another space has its number; a later
 * connection is confined to the space that has the number then. This protects a program against its own mistakes: it
 * could make a new, unconfined connection. To confine an untrusted program, start it with machrun. KERN_INVALID_TASK:
 * the space is gone; KERN_INVALID_ARGUMENT: the server has an older version.
 */
kern_return_t machipc_confine(void);

/* Returns the space that the process uses. */
machipc_space_t machipc_space(void);

/*
 * Creates a space that holds one right, which is taken from the caller's space by the disposition. Returns its number
 * and that right's name in it. The caller stays in its space. KERN_INVALID_VALUE: the disposition; KERN_INVALID_NAME;
 * KERN_INVALID_RIGHT: the name doesn't allow the disposition, or is dead; KERN_RESOURCE_SHORTAGE: 256 spaces.
 */
kern_return_t machipc_space_create(mach_port_t name, mach_msg_type_name_t disposition, machipc_space_t *space,
                                   mach_port_t *name_there);

/*
 * Releases all rights of the caller's space and removes it. Every later call in it fails with KERN_INVALID_TASK until
 * the process attaches to another space. KERN_FAILURE: the first space, which can't be removed.
 */
kern_return_t machipc_space_destroy(void);

/*
 * Attaches to a space so that each call that changes something has one effect and one result even if the connection is
 * lost. The call is made as a numbered request. After a loss the library connects, attaches and repeats the request
 * with the same number, which the server answers with the reply that it keeps. A waiting receive waits by a call that
 * takes nothing, and then takes the message by a numbered call; a send that waits for room is repeated, up to 50
 * milliseconds apart. Calls that change nothing are made again. Only one process at a time may use a space like this,
 * because a space keeps only the last request; the threads of the process take turns. A child of fork isn't in this
 * mode, and must choose again: until then its calls fail with KERN_FAILURE.
 *
 * KERN_INVALID_TASK: there is no such space; KERN_NO_ACCESS: the process is confined to another one;
 * KERN_INVALID_ARGUMENT: the server has no numbered requests, or the space has used up their 4,294,967,295 numbers;
 * MACH_SEND_INTERRUPTED, MACH_RCV_INTERRUPTED: the server couldn't be reached within the time of machipc_set_patience.
 * After a failure the process stays in its space.
 */
kern_return_t machipc_once(machipc_space_t space);

/*
 * Sets the milliseconds for which a call in the mode of machipc_once tries to reach the server after a loss, before it
 * fails with MACH_SEND_INTERRUPTED or MACH_RCV_INTERRUPTED. The default is 30,000, and 0xffffffff means forever. A call
 * that failed like this may or may not have been made.
 *
 * With several paths, in each mode, the server has to answer a call within a third of this time (3 to 10 seconds). A call
 * that waits for a message or for room is made again as often. A later answer is a loss, as over a path that is cut. So a
 * receive without a timeout notices a cut within two thirds of the patience. With one path a call waits until it is
 * answered, as on a server whose disk hangs, and the connection is made within this time (at least 3 seconds).
 */
void machipc_set_patience(uint32_t milliseconds);

/* Returns the number of calls of the process that were repeated after a loss and then answered, in the mode of
   machipc_once or at a task's end. A call that was repeated several times counts once. */
unsigned long machipc_repeats(void);

/*
 * Receives without waiting, for an event loop. It takes one round trip to the server, and none if a receive is pending
 * and no message has come.
 *
 * It receives at most rcv_size bytes into msg, from the port or set rcv_name, as mach_msg with MACH_RCV_MSG does;
 * option is 0 or MACH_RCV_LARGE. MACH_RCV_IN_PROGRESS: there is no message, and a receive is pending. Call it again,
 * with the same port or set, when machipc_fd() is readable.
 *
 * A pending receive has taken no message, so nothing is lost if it is cancelled, or the server is killed. A thread has
 * one at a time, and one for another port or set replaces it; to receive from several ports, use a set. Meanwhile the
 * thread may make all other calls. Another receive may take the message first; then this one is still pending.
 *
 * MACH_RCV_INTERRUPTED: the connection was lost. With machipc_once it is made again instead, and the call then waits
 * for the server as other calls do (machipc_set_patience). Otherwise it returns the codes of mach_msg, of which
 * MACH_RCV_PORT_DIED and MACH_RCV_PORT_CHANGED may end a pending receive.
 */
mach_msg_return_t machipc_receive(mach_msg_header_t *msg, mach_msg_option_t option, mach_msg_size_t rcv_size,
                                  mach_port_t rcv_name);

/*
 * Returns the calling thread's descriptor for its event loop, for poll, epoll or libuv's uv_poll: it becomes readable
 * when machipc_receive has something to do. It stays the same until the thread ends, whatever happens to the
 * connection; a child of fork has its own, and gets it by calling this again. It is only for waiting: don't read it or
 * close it. -1: the process has no descriptors or no memory left (errno).
 */
int machipc_fd(void);

/* Cancels the thread's pending receive, if there is one. Nothing is lost. */
void machipc_receive_cancel(void);

/* A task to be run: a space, and the name in it of the first right that it was given. */
typedef struct machipc_task {
    machipc_space_t space;
    mach_port_t bootstrap; /* like the bootstrap port of a Mach task */
    uint32_t start;        /* the number of this start of the task, from 1 */
} machipc_task_t;

/*
 * Begins a task: makes a space with one right of the caller's, as machipc_space_create does. With MACH_PORT_NULL it
 * gets the receive right of a new port instead, and nothing of the caller's. The right's name in the space is random,
 * so that the space can be told from a later one with its number; a confined process keeps the name that the server
 * chose. The caller stays in its own space. A process that it starts gets the task by machipc_task_export before exec
 * and machipc_adopt after it, or by machipc_attach after fork. It returns the codes of machipc_space_create, and of
 * mach_port_allocate.
 */
kern_return_t machipc_task_begin(mach_port_t name, mach_msg_type_name_t disposition, machipc_task_t *task);

/*
 * Ends a task: destroys its space, over a connection of its own, so that all holders of names for its ports, and all
 * who wait for its replies, get their notices. If the task's space is gone, the task has ended: KERN_SUCCESS. The
 * caller's space stays. A task is ended once, and by one side only, because another space may have its number
 * afterwards. KERN_NO_ACCESS: the process is confined to another space.
 */
kern_return_t machipc_task_end(const machipc_task_t *task);

/*
 * Puts a task and the server's paths into the environment (MACHIPC_SOCKET, MACHIPC_SPACE, MACHIPC_BOOTSTRAP,
 * MACHIPC_START; MACHIPC_FD and MACHIPC_PATHS are removed), where a started program finds them. KERN_RESOURCE_SHORTAGE: out of memory;
 * KERN_NO_ACCESS: the process knows no socket, because machrun gave it its connections. It changes the environment,
 * which no other thread may use meanwhile.
 */
kern_return_t machipc_task_export(const machipc_task_t *task);

/*
 * The first call of a program that machrun or a similar program started: it uses the space in the environment, and
 * connects. If the environment has MACHIPC_FD, all connections of the process come from machrun, over that descriptor,
 * and are confined to the space; otherwise the process connects to MACHIPC_SOCKET and attaches. If task->start is above
 * 1, the program ran in this space before, and names from that time still exist; machipc_sweep removes them.
 * KERN_INVALID_ARGUMENT: the environment has no task; KERN_INVALID_TASK: its space is gone; MACH_SEND_INTERRUPTED: the
 * server can't be reached.
 */
kern_return_t machipc_adopt(machipc_task_t *task);

/*
 * Destroys all names of the space except those given (`count` of them; keep may be NULL if count is 0), so that those
 * who wait for a reply from an earlier start get a send-once or a dead-name notice. A name that is removed meanwhile is
 * skipped. KERN_RESOURCE_SHORTAGE: out of memory.
 */
kern_return_t machipc_sweep(const mach_port_t *keep, size_t count);

#ifdef __cplusplus
}
#endif

#endif
