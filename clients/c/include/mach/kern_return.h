/*
 * Return codes of the mach_port calls. The numbers are those of Loepere, Mach 3 Kernel Interfaces (1992), without the
 * codes that this server never returns. mach_error_string returns their names.
 */

#ifndef _MACH_KERN_RETURN_H_
#define _MACH_KERN_RETURN_H_

typedef int kern_return_t;

#define KERN_SUCCESS 0
#define KERN_NO_SPACE 3            /* the space has the maximum number of names */
#define KERN_INVALID_ARGUMENT 4    /* no such call, or invalid arguments */
#define KERN_FAILURE 5             /* the call can't be made, such as destroying the first space */
#define KERN_RESOURCE_SHORTAGE 6   /* out of memory, ports, spaces or room to store the call */
#define KERN_NO_ACCESS 8           /* the connection is confined to its space */
#define KERN_NOT_IN_SET 12         /* the port is in no set */
#define KERN_NAME_EXISTS 13        /* the name is in use */
#define KERN_INVALID_NAME 15       /* the name isn't in use */
#define KERN_INVALID_TASK 16       /* the space is gone */
#define KERN_INVALID_RIGHT 17      /* the name doesn't hold such a right */
#define KERN_INVALID_VALUE 18      /* a value out of its range */
#define KERN_UREFS_OVERFLOW 19     /* more user references than a name may have */
#define KERN_INVALID_CAPABILITY 20 /* the right can't be given like this */
#define KERN_RIGHT_EXISTS 21       /* the space has the right under another name */

#endif
