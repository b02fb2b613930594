/* The task that calls, and ports for replies. */

#ifndef _MACH_MACH_TRAPS_H_
#define _MACH_MACH_TRAPS_H_

#include <mach/port.h>

#ifdef __cplusplus
extern "C" {
#endif

/*
 * Returns the constant for the caller's own task in the mach_port calls (Loepere, "mach_task_self"). It isn't a name of
 * the space, so it can't be sent. A call for any other task fails with KERN_INVALID_TASK.
 */
mach_port_t mach_task_self(void);

/* Returns a new receive right, as mach_port_allocate does, or MACH_PORT_NULL if none can be made (Loepere,
   "mach_reply_port"). */
mach_port_t mach_reply_port(void);

#ifdef __cplusplus
}
#endif

#endif
