/*
 * client NAME SECONDS
 *
 * Looks a service up and asks it again and again for so many seconds, and until it has an answer. Where the service goes, a
 * notice says so, and the client looks it up anew. It prints, in this order, how many requests were answered, answered
 * wrongly, answered by a notice, and left without either; how often it looked the service up; and how many of its calls were
 * asked again after a cut. The status is 1 where a request was answered wrongly or not at all.
 */

#include "names.h"

#include "../begin.h"

#include <stdio.h>
#include <stdlib.h>
#include <time.h>

enum { PATIENCE = 20000 }; /* milliseconds */

static unsigned answered, wrong, gone, unanswered, looked_up;

static void pause_for(long milliseconds) {
    nanosleep(&(struct timespec){.tv_nsec = milliseconds * 1000000}, NULL);
}

static kern_return_t ask(mach_port_t service, uint32_t number) {
    union {
        struct sum_message sum;
        mach_msg_header_t head;
        unsigned char room[128];
    } message = {.sum = {.numbers = {number, 3 * number}}};
    message.head.msgh_remote_port = service;
    message.head.msgh_id = SUM;
    kern_return_t code = names_ask(&message.head, sizeof message.sum, sizeof message, PATIENCE);
    if (code == KERN_SUCCESS) {
        answered++;
        wrong += message.head.msgh_size != sizeof message.sum || message.sum.numbers[0] != 4 * number;
    } else if (code == MIG_SERVER_DIED) {
        gone++;
    } else {
        unanswered++;
    }
    return code;
}

int main(int count, char **words) {
    machipc_task_t task;
    mach_port_t service = MACH_PORT_NULL;
    if (count != 3 || begin_task(&task) != KERN_SUCCESS) {
        return 2;
    }
    time_t end = time(NULL) + seconds_of(words[2]);
    for (uint32_t number = 1; time(NULL) < end || answered == 0; number++) {
        if (service == MACH_PORT_NULL) {
            looked_up++;
            if (names_look_up(task.bootstrap, words[1], &service) != KERN_SUCCESS) {
                pause_for(20);
                continue;
            }
        }
        kern_return_t code = ask(service, number);
        if (code == MIG_SERVER_DIED) {
            mach_port_destroy(mach_task_self(), service);
            service = MACH_PORT_NULL;
        }
        if (code != KERN_SUCCESS) {
            pause_for(5);
        }
    }
    printf("%u %u %u %u %u %lu\n", answered, wrong, gone, unanswered, looked_up, machipc_repeats());
    return wrong != 0 || unanswered != 0;
}
