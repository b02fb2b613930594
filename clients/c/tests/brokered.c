/* How the library handles a broker's answers, including those that machrun never gives. */

#include "check.h"

#include <errno.h>
#include <fcntl.h>
#include <pthread.h>
#include <stdio.h>
#include <stdlib.h>
#include <string.h>
#include <sys/socket.h>
#include <sys/uio.h>
#include <sys/un.h>
#include <time.h>
#include <unistd.h>

static int broker[2]; /* the test's end and the library's end */
static const char *path;

static int connected(void) {
    struct sockaddr_un address = {.sun_family = AF_UNIX};
    int made = socket(AF_UNIX, SOCK_STREAM, 0);
    memcpy(address.sun_path, path, strlen(path) + 1);
    CHECK(connect(made, (struct sockaddr *) &address, sizeof address) == 0);
    return made;
}

/* A message of one byte with a descriptor, or with space for one. */
struct letter {
    struct msghdr head;
    struct iovec content;
    char byte;
    union {
        struct cmsghdr aligned;
        unsigned char bytes[CMSG_SPACE(sizeof(int))];
    } control;
};

static void begin(struct letter *letter, char byte) {
    memset(letter, 0, sizeof *letter);
    letter->byte = byte;
    letter->content = (struct iovec){&letter->byte, 1};
    letter->head.msg_iov = &letter->content;
    letter->head.msg_iovlen = 1;
    letter->head.msg_control = letter->control.bytes;
    letter->head.msg_controllen = sizeof letter->control.bytes;
}

static int next_asked(void) {
    struct letter letter;
    int asked = -1;
    begin(&letter, 0);
    CHECK(recvmsg(broker[0], &letter.head, 0) == 1);
    struct cmsghdr *control = CMSG_FIRSTHDR(&letter.head);
    CHECK(control != NULL && control->cmsg_len == CMSG_LEN(sizeof asked));
    if (control != NULL) {
        memcpy(&asked, CMSG_DATA(control), sizeof asked);
    }
    return asked;
}

static void answer(int asked, char byte, int given) {
    struct letter letter;
    begin(&letter, byte);
    if (given < 0) {
        letter.head.msg_control = NULL;
        letter.head.msg_controllen = 0;
    } else {
        struct cmsghdr *control = CMSG_FIRSTHDR(&letter.head);
        control->cmsg_level = SOL_SOCKET;
        control->cmsg_type = SCM_RIGHTS;
        control->cmsg_len = CMSG_LEN(sizeof given);
        memcpy(CMSG_DATA(control), &given, sizeof given);
    }
    CHECK(sendmsg(asked, &letter.head, MSG_NOSIGNAL) == 1);
}

/* Answers in turn: a later time, two codes, no answer, no connection, a connection that is cut, and two connections
   that aren't. */
static void *give(void *unused) {
    static const char codes[] = {(char) 255, KERN_INVALID_TASK, KERN_INVALID_ARGUMENT};
    (void) unused;
    for (size_t i = 0; i < sizeof codes; i++) {
        int asked = next_asked();
        answer(asked, codes[i], -1);
        close(asked);
    }
    close(next_asked());
    int asked = next_asked();
    answer(asked, 0, -1);
    close(asked);
    for (int i = 0; i < 3; i++) {
        int given = connected();
        asked = next_asked();
        if (i == 0) {
            shutdown(given, SHUT_RDWR);
        }
        answer(asked, 0, given);
        close(asked);
        close(given);
    }
    return NULL;
}

static void *call(void *unused) {
    (void) unused;
    CHECK(check_type(MACH_PORT_NULL) == MACH_PORT_TYPE_NONE);
    return NULL;
}

static void answers(void) {
    pthread_t giver, caller;
    machipc_task_t task;
    mach_port_type_t type;
    CHECK(pthread_create(&giver, NULL, give, NULL) == 0);
    CHECK_CODE(machipc_adopt(&task), MACH_SEND_INTERRUPTED);
    CHECK_CODE(mach_port_type(SELF, 1, &type), KERN_INVALID_TASK);
    CHECK_CODE(mach_port_type(SELF, 1, &type), KERN_INVALID_ARGUMENT);
    CHECK_CODE(mach_port_type(SELF, 1, &type), MACH_SEND_INTERRUPTED);
    CHECK_CODE(mach_port_type(SELF, 1, &type), MACH_SEND_INTERRUPTED);
    kern_return_t code = mach_port_type(SELF, 1, &type);
    CHECK(code == MACH_SEND_INTERRUPTED || code == MACH_RCV_INTERRUPTED);
    CHECK_CODE(mach_port_type(SELF, 1, &type), KERN_INVALID_NAME);
    CHECK_CODE(mach_port_type(SELF, 1, &type), KERN_INVALID_NAME);
    CHECK(pthread_create(&caller, NULL, call, NULL) == 0);
    pthread_join(caller, NULL);
    pthread_join(giver, NULL);
    CHECK_CODE(machipc_attach(2), KERN_NO_ACCESS);
    CHECK_CODE(machipc_task_export(&task), KERN_NO_ACCESS);
}

/* Fills the queue, and returns the number of messages that this took. */
static int fill(void) {
    char byte = 0;
    int count = 0;
    while (send(broker[1], &byte, 1, MSG_DONTWAIT) == 1) {
        count++;
    }
    CHECK(errno == EAGAIN);
    return count;
}

static void *drain_and_give(void *count) {
    char byte;
    nanosleep(&(struct timespec){.tv_nsec = 200000000}, NULL);
    for (int i = 0; i < *(int *) count; i++) {
        CHECK(recv(broker[0], &byte, 1, 0) == 1);
    }
    int asked = next_asked(), given = connected();
    answer(asked, 0, given);
    close(asked);
    close(given);
    return NULL;
}

/* A request waits until there is room in the queue. */
static void waits(void) {
    pthread_t drainer;
    machipc_task_t task;
    int count = fill();
    CHECK(pthread_create(&drainer, NULL, drain_and_give, &count) == 0);
    CHECK_OK(machipc_adopt(&task));
    pthread_join(drainer, NULL);
}

/* A broker that ended is noticed at once, whatever its queue contains. */
static void ends(void) {
    machipc_task_t task;
    fill();
    close(broker[0]);
    CHECK_CODE(machipc_adopt(&task), MACH_SEND_INTERRUPTED);
    close(broker[1]);
    CHECK_CODE(machipc_adopt(&task), KERN_INVALID_ARGUMENT);
    CHECK_OK(machipc_connect(path));
    CHECK(check_type(MACH_PORT_NULL) == MACH_PORT_TYPE_NONE);
}

int main(int count, char **words) {
    char number[16];
    if (count != 2 || socketpair(AF_UNIX, SOCK_SEQPACKET, 0, broker) != 0) {
        return 2;
    }
    path = words[1];
    snprintf(number, sizeof number, "%d", broker[1]);
    setenv("MACHIPC_FD", number, 1);
    setenv("MACHIPC_SPACE", "1", 1);
    setenv("MACHIPC_BOOTSTRAP", "0x100", 1);
    answers();
    waits();
    ends();
    return check_status();
}
