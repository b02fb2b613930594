#define _GNU_SOURCE /* for SO_DOMAIN and POLLRDHUP */

#include "broker.h"

#include "brokered.h"
#include "call.h"

#include <errno.h>
#include <fcntl.h>
#include <poll.h>
#include <signal.h>
#include <stdlib.h>
#include <string.h>
#include <sys/prctl.h>
#include <sys/socket.h>
#include <sys/uio.h>
#include <sys/un.h>
#include <sys/wait.h>
#include <time.h>
#include <unistd.h>

/* The milliseconds that all paths together have, and the seconds after which a request that isn't finished ends its
   worker. */
enum { ALL_PATHS_TIME = PATHS_MOST * PATHS_TIME, REQUEST_SECONDS = ALL_PATHS_TIME / 1000 + 3 };

/* The milliseconds between a worker's end and the start of the next one, and the longest that broker_end waits for the
   broker's end. */
enum { PAUSE = 100, LAST_MILLISECONDS = 500 };

/* Requests. */

/* Returns the first descriptor that came with a message, or -1 if none did, and closes the others. */
static int first_of(struct msghdr *head) {
    int first = -1;
    for (struct cmsghdr *it = CMSG_FIRSTHDR(head); it != NULL; it = CMSG_NXTHDR(head, it)) {
        if (it->cmsg_level != SOL_SOCKET || it->cmsg_type != SCM_RIGHTS) {
            continue;
        }
        size_t count = (it->cmsg_len - CMSG_LEN(0)) / sizeof(int);
        for (size_t i = 0; i < count; i++) {
            int found;
            memcpy(&found, CMSG_DATA(it) + i * sizeof found, sizeof found);
            if (first < 0) {
                first = found;
            } else {
                close(found);
            }
        }
    }
    return first;
}

/* Waits for the next message. Returns false if waiting failed, other than by a signal. */
static bool await_request(int end) {
    struct pollfd polled = {.fd = end, .events = POLLIN};
    return poll(&polled, 1, -1) > 0 || errno == EINTR;
}

/* Receives a message, and gives the descriptor that came with it, or -1 if none did. Returns false if there can't be
   another message, since no process of the command has the other end any more or one of them has shut it down. */
static bool take_request(int end, int *asked) {
    union {
        struct cmsghdr aligned;
        unsigned char bytes[CMSG_SPACE(sizeof(int))];
    } control;
    unsigned char byte;
    struct iovec content = {.iov_base = &byte, .iov_len = 1};
    struct msghdr head = {
        .msg_iov = &content,
        .msg_iovlen = 1,
        .msg_control = control.bytes,
        .msg_controllen = CMSG_LEN(sizeof(int)), /* the system closes any descriptor beyond it */
    };
    *asked = -1;
    ssize_t length = recvmsg(end, &head, MSG_CMSG_CLOEXEC | MSG_DONTWAIT);
    if (length < 0) {
        return errno == EINTR || errno == EAGAIN;
    }
    *asked = first_of(&head);
    /* A length of zero is the end, or an empty message. */
    struct pollfd polled = {.fd = end, .events = POLLRDHUP};
    return length > 0 || poll(&polled, 1, 0) == 0;
}

/* Returns true if a descriptor is one end of a pair of sockets of the kind that clients make. Nothing may be written to
   any other descriptor, because it would be written with machrun's rights. */
static bool is_of_pair(int asked) {
    int domain = 0, type = 0;
    struct sockaddr_un own, others;
    socklen_t of_domain = sizeof domain, of_type = sizeof type, of_own = sizeof own, of_others = sizeof others;
    return getsockopt(asked, SOL_SOCKET, SO_DOMAIN, &domain, &of_domain) == 0 && domain == AF_UNIX &&
           getsockopt(asked, SOL_SOCKET, SO_TYPE, &type, &of_type) == 0 && type == SOCK_SEQPACKET &&
           getsockname(asked, (struct sockaddr *) &own, &of_own) == 0 && of_own == sizeof own.sun_family &&
           getpeername(asked, (struct sockaddr *) &others, &of_others) == 0 && of_others == sizeof others.sun_family;
}

/* Returns true if the process that asked is still waiting. */
static bool is_awaited(int asked) {
    struct pollfd polled = {.fd = asked};
    return poll(&polled, 1, 0) == 0;
}

/* Answers with a byte, and with a descriptor unless it is -1. Returns true if the answer was sent. */
static bool answer(int asked, unsigned char byte, int given) {
    union {
        struct cmsghdr aligned;
        unsigned char bytes[CMSG_SPACE(sizeof(int))];
    } control = {.bytes = {0}};
    struct iovec content = {.iov_base = &byte, .iov_len = 1};
    struct msghdr head = {.msg_iov = &content, .msg_iovlen = 1};
    if (given >= 0) {
        head.msg_control = control.bytes;
        head.msg_controllen = sizeof control.bytes;
        struct cmsghdr *rights = CMSG_FIRSTHDR(&head);
        rights->cmsg_level = SOL_SOCKET;
        rights->cmsg_type = SCM_RIGHTS;
        rights->cmsg_len = CMSG_LEN(sizeof given);
        memcpy(CMSG_DATA(rights), &given, sizeof given);
    }
    return sendmsg(asked, &head, MSG_DONTWAIT | MSG_NOSIGNAL) == 1;
}

/* Connections. */

/* Connects to the server at a path, attaches the connection to the command's space and confines it there. The space's
   number may belong to another space by now, so the connection is given to the command only if its space has the name by
   which machrun knows the command's space. */
static kern_return_t enter(int made, const struct broker *broker, const char *path) {
    static struct frame frame;
    struct clock_wait wait = clock_wait_for(broker->paths->count > 1 ? PATHS_TIME : ALL_PATHS_TIME);
    if (!paths_connect(made, path, &wait)) {
        return MACH_SEND_INTERRUPTED;
    }
    kern_return_t code = paths_call(made, &frame, &wait, CALL_ATTACH, &broker->space, 1);
    if (code == KERN_SUCCESS) {
        code = paths_call(made, &frame, &wait, CALL_CONFINE, NULL, 0);
    }
    if (code == KERN_SUCCESS) {
        code = paths_call(made, &frame, &wait, CALL_TYPE, &broker->name, 1);
        code = code == KERN_INVALID_NAME ? KERN_INVALID_TASK : code;
    }
    return code;
}

/* Makes a connection by the first path that leads to a server, beginning with the one that did so last. Returns its
   descriptor, or -1; and the code. */
static int connect_by_any(const struct broker *broker, kern_return_t *code) {
    static size_t first;
    for (size_t i = 0; i < broker->paths->count; i++) {
        size_t place = (first + i) % broker->paths->count;
        int made = socket(AF_UNIX, SOCK_STREAM | SOCK_CLOEXEC | SOCK_NONBLOCK, 0);
        *code = made >= 0 ? enter(made, broker, broker->paths->each[place]) : MACH_SEND_INTERRUPTED;
        if (*code != MACH_SEND_INTERRUPTED) {
            first = place;
            return made;
        }
        if (made >= 0) {
            close(made);
        }
    }
    return -1;
}

static void serve(int asked, const struct broker *broker) {
    if (!is_of_pair(asked) || !is_awaited(asked)) {
        return;
    }
    kern_return_t code = MACH_SEND_INTERRUPTED;
    int made = connect_by_any(broker, &code);
    /* Clients of all versions want a descriptor that blocks. */
    if (code == KERN_SUCCESS && (fcntl(made, F_SETFL, 0) != 0 || !answer(asked, BROKERED_GIVEN, made))) {
        code = MACH_SEND_INTERRUPTED;
    }
    if (code != KERN_SUCCESS) {
        bool is_told = code > 0 && code < BROKERED_LATER;
        answer(asked, is_told ? (unsigned char) code : BROKERED_LATER, -1);
    }
    if (made >= 0) {
        close(made);
    }
}

/* The worker, which answers requests. One that is blocked for too long is ended by its alarm. Receiving a message may
   block too, if the message brought more descriptors than there is room for. */
static void work(const struct broker *broker, int end) {
    int asked;
    bool goes_on = true;
    while (goes_on && await_request(end)) {
        alarm(REQUEST_SECONDS);
        goes_on = take_request(end, &asked);
        if (asked >= 0) {
            serve(asked, broker);
            close(asked);
        }
        alarm(0);
    }
    _exit(0);
}

/* The process above the worker, which machrun knows: it starts a new worker when a signal ended the last one. */

static volatile sig_atomic_t worker; /* its process id, or 0 */
static volatile sig_atomic_t is_over;

static void end_worker(int number) {
    (void) number;
    is_over = 1;
    if (worker != 0) {
        kill((pid_t) worker, SIGKILL);
    }
}

static void sleep_for(long milliseconds) {
    nanosleep(&(struct timespec){.tv_nsec = milliseconds * 1000000}, NULL);
}

/* Makes the calling process end with its parent. */
static void end_with(pid_t parent) {
    prctl(PR_SET_PDEATHSIG, SIGKILL);
    if (getppid() != parent) {
        _exit(0);
    }
}

/* Starts a worker, unless the broker is to end. */
static void start_worker(const struct broker *broker, int end, const sigset_t *signals) {
    pid_t own = getpid();
    sigprocmask(SIG_BLOCK, signals, NULL);
    pid_t made = is_over ? -1 : fork();
    if (made == 0) {
        signal(SIGUSR1, SIG_DFL);
        signal(SIGALRM, SIG_DFL);
        sigprocmask(SIG_UNBLOCK, signals, NULL);
        end_with(own);
        work(broker, end);
    }
    if (made < 0) {
        _exit(0);
    }
    worker = made;
    sigprocmask(SIG_UNBLOCK, signals, NULL);
}

static void see_workers(const struct broker *broker, int end, pid_t parent) {
    struct sigaction action = {.sa_handler = end_worker};
    sigset_t signals;
    sigemptyset(&action.sa_mask);
    sigemptyset(&signals);
    sigaddset(&signals, SIGUSR1);
    sigaddset(&signals, SIGALRM);
    /* Signals that ask machrun to end are meant for the command. The broker continues until the command has ended. */
    signal(SIGHUP, SIG_IGN);
    signal(SIGINT, SIG_IGN);
    signal(SIGTERM, SIG_IGN);
    sigaction(SIGUSR1, &action, NULL);
    end_with(parent);
    for (;;) {
        int status = 0;
        start_worker(broker, end, &signals);
        while (waitpid((pid_t) worker, &status, 0) < 0 && errno == EINTR) {
        }
        worker = 0;
        if (WIFEXITED(status)) {
            _exit(0);
        }
        sleep_for(PAUSE);
    }
}

/* machrun's side. It keeps no copy of the broker's end of the pair, because closing that would wait too for what the
   command left in the queue. */

static bool start(struct broker *broker, const int *pair) {
    pid_t parent = getpid();
    pid_t made = fork();
    if (made == 0) {
        close(broker->end_of_command);
        see_workers(broker, pair[0], parent);
    }
    broker->process = made > 0 ? made : 0;
    return made > 0;
}

bool broker_begin(struct broker *broker) {
    int pair[2];
    if (socketpair(AF_UNIX, SOCK_SEQPACKET | SOCK_CLOEXEC, 0, pair) != 0) {
        return false;
    }
    /* At least 3, so that it can't replace the command's standard input, output or errors if these are closed. */
    broker->end_of_command = fcntl(pair[1], F_DUPFD_CLOEXEC, 3);
    close(pair[1]);
    bool is_done = broker->end_of_command >= 0 && start(broker, pair);
    int error = errno;
    close(pair[0]);
    if (!is_done) {
        broker_was_given(broker);
        errno = error;
    }
    return is_done;
}

void broker_was_given(struct broker *broker) {
    if (broker->end_of_command >= 0) {
        close(broker->end_of_command);
    }
    broker->end_of_command = -1;
}

static bool has_ended(pid_t process) {
    for (int i = 0; i < LAST_MILLISECONDS; i++) {
        if (waitpid(process, NULL, WNOHANG) != 0) {
            return true;
        }
        sleep_for(1);
    }
    return false;
}

void broker_end(struct broker *broker) {
    if (broker->process != 0) {
        kill(broker->process, SIGUSR1);
        if (!has_ended(broker->process)) {
            kill(broker->process, SIGKILL); /* the system ends the worker, whatever blocks it */
        }
    }
    broker->process = 0;
}
