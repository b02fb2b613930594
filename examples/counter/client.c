/*
 * counter-client SECONDS
 *
 * Adds 1 to the counter at its bootstrap port, again and again for the given time. It prints the number of additions,
 * the counter's last value, the number of calls that were repeated after a cut, and the last code. The status is 1 if a
 * call failed.
 */

#include "counter.h"

#include "../begin.h"

#include <stdio.h>
#include <stdlib.h>
#include <time.h>

int main(int count, char **words) {
    machipc_task_t task;
    label_t before = "";
    int value = 0, calls = 0;
    if (count != 2 || begin_task(&task) != KERN_SUCCESS) {
        return 2;
    }
    time_t end = time(NULL) + seconds_of(words[1]);
    kern_return_t code = counter_label(task.bootstrap, "a label", before);
    while (code == KERN_SUCCESS && time(NULL) < end) {
        int last = value;
        code = counter_add(task.bootstrap, 1, &value);
        if (code == KERN_SUCCESS) {
            calls++;
        }
        if (code == KERN_SUCCESS && value <= last) {
            code = KERN_FAILURE; /* each call makes it grow by at least 1 */
        }
    }
    if (code == KERN_SUCCESS) {
        code = counter_read(task.bootstrap, &value);
    }
    printf("%d %d %lu %s\n", calls, value, machipc_repeats(), mach_error_string(code));
    return code != KERN_SUCCESS;
}
