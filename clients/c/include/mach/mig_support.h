/* Functions for stubs of the Mach Interface Generator. */

#ifndef _MACH_MIG_SUPPORT_H_
#define _MACH_MIG_SUPPORT_H_

#include <mach/message.h>
#include <mach/port.h>
#include <mach/std_types.h>
#include <string.h>

#ifdef __cplusplus
extern "C" {
#endif

/* Returns the calling thread's reply port, or MACH_PORT_NULL if none can be made. It is made at its first use and after
   the thread moved to another space, and destroyed with the thread. */
mach_port_t mig_get_reply_port(void);

/* Says that the calling thread got its reply at this port, which is then kept for the next one. */
void mig_put_reply_port(mach_port_t port);

/* Releases this port, because a reply may still come to it; the thread's next reply gets a new port. */
void mig_dealloc_reply_port(mach_port_t port);

/* Copies a string, of which at most length - 1 bytes are used, and a zero after it. Returns the number of bytes
   written, with the zero. A length of 0 writes nothing. */
vm_size_t mig_strncpy(char *to, const char *from, vm_size_t length);

/* Allocates and frees memory for arrays that are longer than a stub's own room for them. Their contents would have
   to be sent out of line, which the server refuses with MACH_SEND_INVALID_MEMORY. KERN_RESOURCE_SHORTAGE: out of
   memory. */
kern_return_t mig_allocate(vm_address_t *address, vm_size_t size);
void mig_deallocate(vm_address_t address, vm_size_t size);

/* Makes the reply to a request that no routine handles: to its reply port, with MIG_BAD_ID. */
void mig_reply_setup(const mach_msg_header_t *request, mach_msg_header_t *reply);

#ifdef __cplusplus
}
#endif

#endif
