#include "begin.h"

#include <stdio.h>
#include <stdlib.h>
#include <time.h>

kern_return_t adopt_task(machipc_task_t *task) {
    kern_return_t code;
    while ((code = machipc_adopt(task)) == MACH_SEND_INTERRUPTED) {
        nanosleep(&(struct timespec){.tv_nsec = 20000000}, NULL);
    }
    return code;
}

kern_return_t begin_task(machipc_task_t *task) {
    kern_return_t code = adopt_task(task);
    return code == KERN_SUCCESS ? machipc_once(task->space) : code;
}

unsigned seconds_of(const char *word) {
    char *end;
    unsigned long seconds = strtoul(word, &end, 10);
    if (*word == '\0' || *end != '\0') {
        fprintf(stderr, "%s is no number of seconds\n", word);
        exit(2);
    }
    return (unsigned) seconds;
}
