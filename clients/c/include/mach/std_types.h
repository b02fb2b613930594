/*
 * Sizes and addresses in the caller's own memory, for stubs of the Mach Interface Generator. They have as many bits as
 * the machine's words, and are never in a message: numbers in messages have 32 bits everywhere (mach/port.h,
 * mach/message.h).
 */

#ifndef _MACH_STD_TYPES_H_
#define _MACH_STD_TYPES_H_

#include <mach/boolean.h>
#include <mach/kern_return.h>
#include <mach/port.h>
#include <stdint.h>

typedef uintptr_t vm_offset_t;
typedef uintptr_t vm_size_t;
typedef vm_offset_t pointer_t;
typedef vm_offset_t vm_address_t;

#endif
