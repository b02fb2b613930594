#include "brokered.h"

#include <errno.h>
#include <poll.h>
#include <string.h>
#include <sys/socket.h>
#include <sys/uio.h>
#include <unistd.h>

/* Milliseconds to wait for a reply. machrun gives each within 15 seconds, whatever the server does. */
enum { BROKER_PATIENCE = 20000 };

/* A message of one byte, with room for a descriptor. */
struct letter {
    struct msghdr head;
    struct iovec content;
    unsigned char byte;
    union {
        struct cmsghdr aligned;
        unsigned char bytes[CMSG_SPACE(sizeof(int))];
    } control;
};

static void letter_begin(struct letter *letter) {
    memset(letter, 0, sizeof *letter);
    letter->content = (struct iovec){.iov_base = &letter->byte, .iov_len = 1};
    letter->head.msg_iov = &letter->content;
    letter->head.msg_iovlen = 1;
    letter->head.msg_control = letter->control.bytes;
    letter->head.msg_controllen = sizeof letter->control.bytes;
}

static bool send_end(int broker, int end) {
    struct letter letter;
    letter_begin(&letter);
    struct cmsghdr *control = CMSG_FIRSTHDR(&letter.head);
    control->cmsg_level = SOL_SOCKET;
    control->cmsg_type = SCM_RIGHTS;
    control->cmsg_len = CMSG_LEN(sizeof end);
    memcpy(CMSG_DATA(control), &end, sizeof end);
    return sendmsg(broker, &letter.head, MSG_DONTWAIT | MSG_NOSIGNAL) == 1;
}

bool brokered_is_broker(int descriptor) {
    int type = 0;
    socklen_t length = sizeof type;
    return getsockopt(descriptor, SOL_SOCKET, SO_TYPE, &type, &length) == 0 && type == SOCK_SEQPACKET;
}

/* Sends a request, and leaves the connection with the end at which the reply arrives. Returns true on success;
   otherwise see errno. */
static bool ask(struct connection *connection, int broker) {
    int pair[2];
    if (socketpair(AF_UNIX, SOCK_SEQPACKET | SOCK_CLOEXEC, 0, pair) != 0) {
        return false;
    }
    bool is_done = send_end(broker, pair[1]);
    int error = errno;
    close(pair[1]);
    if (is_done) {
        connection->socket = pair[0];
        return true;
    }
    close(pair[0]);
    errno = error;
    return false;
}

/* Does the same while no thread forks. */
static bool ask_alone(struct connection *connection, int broker) {
    connection_hold_forks();
    bool is_done = ask(connection, broker);
    int error = errno;
    connection_release_forks();
    errno = error;
    return is_done;
}

/* Returns true if an operation that failed like this may succeed in a moment: another requester has filled the queue,
   or a signal came. */
static bool may_go_on(int error) {
    return error == EAGAIN || error == EINTR || error == ETOOMANYREFS || error == ENOBUFS;
}

/* Returns the reply's descriptor, or -1. */
static int descriptor_of(struct letter *letter) {
    struct cmsghdr *control = CMSG_FIRSTHDR(&letter->head);
    int descriptor = -1;
    if (control != NULL && control->cmsg_level == SOL_SOCKET && control->cmsg_type == SCM_RIGHTS &&
        control->cmsg_len == CMSG_LEN(sizeof descriptor)) {
        memcpy(&descriptor, CMSG_DATA(control), sizeof descriptor);
    }
    return descriptor;
}

/* Reads the reply, and replaces the socket by which it came by the connection in it. */
static kern_return_t take(struct connection *connection) {
    struct letter letter;
    letter_begin(&letter);
    connection_hold_forks();
    bool is_read = recvmsg(connection->socket, &letter.head, MSG_DONTWAIT | MSG_CMSG_CLOEXEC) == 1;
    int given = is_read ? descriptor_of(&letter) : -1;
    if (given >= 0) {
        close(connection->socket);
        connection->socket = given;
    }
    connection_release_forks();
    if (!is_read || letter.byte == BROKERED_LATER) {
        errno = ECONNREFUSED;
        return MACH_SEND_INTERRUPTED;
    }
    if (letter.byte == BROKERED_GIVEN && given < 0) {
        errno = EMFILE; /* there was no room for the descriptor */
        return MACH_SEND_INTERRUPTED;
    }
    return letter.byte;
}

kern_return_t brokered_open(struct connection *connection, int broker) {
    struct clock_wait wait = clock_wait_for(BROKER_PATIENCE);
    while (!ask_alone(connection, broker)) {
        int error = errno;
        if (!may_go_on(error) || !clock_wait_pause(&wait)) {
            errno = error;
            return MACH_SEND_INTERRUPTED;
        }
    }
    if (!frame_await(connection->socket, POLLIN, &wait)) {
        return MACH_SEND_INTERRUPTED;
    }
    return take(connection);
}
