/*
 * confined SECONDS
 *
 * The calls of a confined command under machrun, with connections that all come from machrun. For the given time its
 * threads and the children that it forks make calls; the server may be killed meanwhile.
 */

#include "check.h"

#include <pthread.h>
#include <stdio.h>
#include <stdlib.h>
#include <sys/wait.h>
#include <time.h>
#include <unistd.h>

enum { THREADS = 4, FIRST_NAME = 0x1000, NAMES_OF_EACH = 0x1000 };

static machipc_task_t task;
static time_t end;

static kern_return_t adopt_again(void) {
    kern_return_t code;
    while ((code = machipc_adopt(&task)) == MACH_SEND_INTERRUPTED) {
        nanosleep(&(struct timespec){.tv_nsec = 20000000}, NULL);
    }
    return code;
}

/* Makes names. Each call is made once, and its name shows that it was made. */
static void *make_names(void *number) {
    mach_port_t first = FIRST_NAME + *(mach_port_t *) number * NAMES_OF_EACH;
    for (mach_port_t i = 0; time(NULL) < end; i = (i + 1) % NAMES_OF_EACH) {
        CHECK_OK(mach_port_allocate_name(SELF, MACH_PORT_RIGHT_RECEIVE, first + i));
        CHECK_OK(mach_port_destroy(SELF, first + i));
    }
    return NULL;
}

/* Makes a call in a forked child, which has connections of its own in the same space. Since the parent numbers its
   calls, the child has to choose first whether it does too. */
static int look_in_child(void) {
    mach_port_type_t type;
    kern_return_t code = mach_port_type(SELF, task.bootstrap, &type);
    if (code != KERN_FAILURE || mach_reply_port() != MACH_PORT_NULL) {
        return false;
    }
    do {
        code = machipc_attach(task.space);
    } while (code == MACH_SEND_INTERRUPTED);
    if (code != KERN_SUCCESS) {
        return false;
    }
    do {
        code = mach_port_type(SELF, task.bootstrap, &type);
    } while (code == MACH_SEND_INTERRUPTED || code == MACH_RCV_INTERRUPTED);
    return code == KERN_SUCCESS && type == MACH_PORT_TYPE_RECEIVE && machipc_attach(MACHIPC_FIRST_SPACE) == KERN_NO_ACCESS;
}

static unsigned fork_children(void) {
    unsigned made = 0;
    for (; time(NULL) < end; made++) {
        int ended = 1;
        pid_t child = fork();
        if (child == 0) {
            _exit(!look_in_child());
        }
        waitpid(child, &ended, 0);
        CHECK(ended == 0);
    }
    return made;
}

static void refusals(void) {
    machipc_task_t below = {0};
    CHECK_CODE(machipc_attach(MACHIPC_FIRST_SPACE), KERN_NO_ACCESS);
    CHECK_CODE(machipc_once(MACHIPC_FIRST_SPACE), KERN_NO_ACCESS);
    CHECK_CODE(machipc_task_export(&task), KERN_NO_ACCESS);
    CHECK_OK(machipc_task_begin(task.bootstrap, MACH_MSG_TYPE_MAKE_SEND, &below));
    CHECK(below.bootstrap < 0x80000000u); /* the name that the server chose */
    CHECK_CODE(machipc_attach(below.space), KERN_NO_ACCESS);
    CHECK_CODE(machipc_task_end(&below), KERN_NO_ACCESS);
    printf("%u ", (unsigned) below.space);
}

int main(int count, char **words) {
    pthread_t threads[THREADS];
    mach_port_t numbers[THREADS];
    machipc_set_patience(20000);
    if (count != 2 || adopt_again() != KERN_SUCCESS || machipc_space() != task.space) {
        return 2;
    }
    CHECK(getenv("MACHIPC_SOCKET") == NULL);
    CHECK_OK(machipc_once(task.space));
    refusals();
    end = time(NULL) + check_number(words[1]);
    for (int i = 0; i < THREADS; i++) {
        numbers[i] = (mach_port_t) i;
        CHECK(pthread_create(&threads[i], NULL, make_names, &numbers[i]) == 0);
    }
    unsigned children = fork_children();
    for (int i = 0; i < THREADS; i++) {
        pthread_join(threads[i], NULL);
    }
    printf("%u children, %lu calls asked again, ", children, machipc_repeats());
    return check_status();
}
