/* Interfaces made for older kernels include this; all of it is in mach/message.h. */

#ifndef _MACH_MSG_TYPE_H_
#define _MACH_MSG_TYPE_H_

#include <mach/message.h>

#endif
