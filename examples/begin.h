/* The beginning of each example. */

#ifndef BEGIN_H
#define BEGIN_H

#include <machipc.h>

/* Goes to the space of the task that the environment names. It waits for a server that is being started again. */
kern_return_t adopt_task(machipc_task_t *task);

/* Does the same, and numbers the calls, so that each has one effect and one answer, whatever is killed meanwhile. */
kern_return_t begin_task(machipc_task_t *task);

/* Returns the seconds that an argument says. The program ends if it isn't a number. */
unsigned seconds_of(const char *word);

#endif
