/* Types for names of ports, and for arrays of them. */

#ifndef _MACH_MACH_TYPES_H_
#define _MACH_MACH_TYPES_H_

#include <mach/message.h>
#include <mach/port.h>
#include <mach/std_types.h>

typedef mach_port_t mach_task_t;
typedef mach_port_t task_t;
typedef mach_port_t ipc_space_t;
typedef mach_port_t *mach_port_array_t;

#endif
