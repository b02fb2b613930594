/* Return codes as text. */

#ifndef _MACH_ERROR_H_
#define _MACH_ERROR_H_

#include <mach/kern_return.h>

#ifdef __cplusplus
extern "C" {
#endif

/* Returns the name of a code in Mach's headers, such as "KERN_INVALID_NAME", or "unknown return code". It is never
   freed. */
const char *mach_error_string(kern_return_t code);

#ifdef __cplusplus
}
#endif

#endif
