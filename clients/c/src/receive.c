/*
 * Receives for event loops. If there is no message, it begins a wait on a second connection of the thread, and returns.
 * The wait is a call with limit 0 and MACH_RCV_LARGE, which leaves each message in the queue and only reports it. So a
 * cancelled wait loses nothing, and a message is taken only by the call that returns it. With several paths the server has
 * to answer the wait now and then even if there is no message, and a timer ends when the answer is late: over a path that
 * is cut none comes.
 */

#include "call.h"
#include "message.h"

#include <errno.h>
#include <poll.h>
#include <sys/epoll.h>
#include <sys/timerfd.h>

/* Makes the descriptor for event loops, which is readable when the watch's socket is, or its timer has ended. */
static void make_events(struct connection *watch) {
    struct epoll_event event = {.events = EPOLLIN};
    watch->watched = MACH_PORT_NULL;
    watch->timer = timerfd_create(CLOCK_MONOTONIC, TFD_CLOEXEC);
    watch->events = epoll_create1(EPOLL_CLOEXEC);
    if (epoll_ctl(watch->events, EPOLL_CTL_ADD, watch->timer, &event) != 0) {
        connection_close_events(watch);
    }
}

/* Returns the thread's connection for waits, with its descriptor for event loops, or NULL. */
static struct connection *watch_of_thread(void) {
    struct connection *own = connection_of_thread();
    if (own == NULL) {
        errno = ENOMEM;
        return NULL;
    }
    if (own->watch == NULL) {
        own->watch = connection_new();
    }
    struct connection *watch = own->watch;
    if (watch != NULL && watch->events < 0) {
        make_events(watch);
    }
    return watch != NULL && watch->events >= 0 ? watch : NULL;
}

int machipc_fd(void) {
    struct connection *watch = watch_of_thread();
    return watch != NULL ? watch->events : -1;
}

/* Sets the timer to these milliseconds. 0 or CLOCK_FOR_EVER: it doesn't end. */
static void set_timer(struct connection *watch, uint32_t milliseconds) {
    milliseconds = milliseconds == CLOCK_FOR_EVER ? 0 : milliseconds;
    struct itimerspec time = {.it_value = {milliseconds / 1000, milliseconds % 1000 * 1000000}};
    timerfd_settime(watch->timer, 0, &time, NULL);
}

void machipc_receive_cancel(void) {
    struct connection *watch = watch_of_thread();
    if (watch != NULL && watch->watched != MACH_PORT_NULL) {
        connection_close(watch);
        set_timer(watch, 0);
        watch->watched = MACH_PORT_NULL;
    }
}

/* Returns true if a wait for this port or set is pending, in the space that the process uses now. */
static bool waits_for(const struct connection *watch, mach_port_t name) {
    return name != MACH_PORT_NULL && watch->watched == name && watch->socket >= 0 &&
           watch->generation == settings_now().generation;
}

/* Returns the call of a wait. Its reply's size and port are not used. */
static struct message_call wait_for(mach_port_t name, mach_msg_header_t *nothing, mach_msg_timeout_t timeout) {
    return (struct message_call){
        .message = nothing,
        .option = MACH_RCV_MSG | MACH_RCV_LARGE | message_timeouts(MACH_RCV_TIMEOUT, timeout),
        .receive_name = name,
        .timeout = timeout,
    };
}

static kern_return_t begin_wait(struct connection *watch, mach_port_t name) {
    mach_msg_header_t nothing;
    struct settings settings = settings_now();
    uint32_t time = settings_answer_time(&settings);
    struct message_call call = wait_for(name, &nothing, time);
    struct epoll_event event = {.events = EPOLLIN};
    message_frame(watch, &call);
    kern_return_t code = connection_open(watch, &settings);
    if (code != KERN_SUCCESS) {
        return code;
    }
    bool is_added = epoll_ctl(watch->events, EPOLL_CTL_ADD, watch->socket, &event) == 0 || errno == EEXIST;
    struct clock_wait answer = clock_wait_for(time);
    if (!is_added || !frame_send(&watch->call, watch->socket, &answer)) {
        connection_close(watch);
        return MACH_RCV_INTERRUPTED;
    }
    set_timer(watch, clock_sum(time, time));
    watch->watched = name;
    return KERN_SUCCESS;
}

static bool is_readable(int descriptor) {
    struct pollfd polled = {.fd = descriptor, .events = POLLIN};
    return poll(&polled, 1, 0) != 0;
}

/* Reads the outcome of a wait. KERN_SUCCESS: there was a message, or the wait has to begin again. */
static kern_return_t end_wait(struct connection *watch) {
    mach_msg_header_t nothing;
    struct settings settings = settings_now();
    struct message_call call = wait_for(watch->watched, &nothing, 0);
    struct clock_wait rest = clock_wait_for(is_readable(watch->timer) ? 0 : settings_answer_time(&settings));
    watch->watched = MACH_PORT_NULL;
    set_timer(watch, 0);
    if (!frame_receive(&watch->reply, watch->socket, &rest)) {
        connection_close(watch);
        connection_close(connection_of_thread()); /* it has the same path */
        return MACH_RCV_INTERRUPTED;
    }
    kern_return_t code = call_read(watch, CALL_MACH_MSG);
    if (code != MIG_REPLY_MISMATCH) {
        code = message_result(watch, &call, code);
    }
    return code == MACH_RCV_TOO_LARGE || code == MACH_RCV_TIMED_OUT ? KERN_SUCCESS : code;
}

/* Takes a message, or begins to wait for one. If calls are numbered, a wait that can't begin because the server was
   just killed is begun again: the attempt before it used the patience. */
static mach_msg_return_t take_or_wait(struct connection *watch, mach_msg_header_t *msg, mach_msg_option_t option,
                                      mach_msg_size_t size, mach_port_t name) {
    for (;;) {
        mach_msg_return_t code = mach_msg(msg, MACH_RCV_MSG | MACH_RCV_TIMEOUT | option, 0, size, name, 0, MACH_PORT_NULL);
        if (code != MACH_RCV_TIMED_OUT) {
            return code;
        }
        code = begin_wait(watch, name);
        if (code == KERN_SUCCESS) {
            return MACH_RCV_IN_PROGRESS;
        }
        if (!call_was_cut(code)) {
            return code;
        }
        if (!settings_now().is_once) {
            return MACH_RCV_INTERRUPTED;
        }
    }
}

mach_msg_return_t machipc_receive(mach_msg_header_t *msg, mach_msg_option_t option, mach_msg_size_t rcv_size,
                                  mach_port_t rcv_name) {
    if (option & ~MACH_RCV_LARGE) {
        return KERN_INVALID_ARGUMENT;
    }
    struct connection *watch = watch_of_thread();
    if (watch == NULL) {
        return message_no_memory(MACH_RCV_MSG);
    }
    if (waits_for(watch, rcv_name)) {
        if (!is_readable(watch->socket) && !is_readable(watch->timer)) {
            return MACH_RCV_IN_PROGRESS;
        }
        kern_return_t code = end_wait(watch);
        bool is_asked_again = call_was_cut(code) && settings_now().is_once;
        if (code != KERN_SUCCESS && !is_asked_again) {
            return code;
        }
    } else {
        machipc_receive_cancel();
    }
    return take_or_wait(watch, msg, option, rcv_size, rcv_name);
}
