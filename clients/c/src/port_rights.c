/* Calls on the rights that names hold. */

#include "call.h"

kern_return_t mach_port_deallocate(mach_port_t task, mach_port_t name) {
    return call_of_task(task, CALL_DEALLOCATE, WORDS(name), NO_RESULTS);
}

kern_return_t mach_port_get_refs(mach_port_t task, mach_port_t name, mach_port_right_t right, mach_port_urefs_t *refs) {
    return call_of_task(task, CALL_GET_REFS, WORDS(name, right), refs, 1);
}

kern_return_t mach_port_mod_refs(mach_port_t task, mach_port_t name, mach_port_right_t right, mach_port_delta_t delta) {
    return call_of_task(task, CALL_MOD_REFS, WORDS(name, right, (uint32_t) delta), NO_RESULTS);
}

kern_return_t mach_port_request_notification(mach_port_t task, mach_port_t name, mach_msg_id_t variant,
                                             mach_port_mscount_t sync, mach_port_t notify, mach_msg_type_name_t disposition,
                                             mach_port_t *previous) {
    return call_of_task(task, CALL_REQUEST_NOTIFICATION, WORDS(name, (uint32_t) variant, sync, notify, disposition), previous,
                        1);
}

kern_return_t mach_port_insert_right(mach_port_t task, mach_port_t name, mach_port_t right_name,
                                     mach_msg_type_name_t disposition) {
    return call_of_task(task, CALL_INSERT_RIGHT, WORDS(name, right_name, disposition), NO_RESULTS);
}

kern_return_t mach_port_extract_right(mach_port_t task, mach_port_t name, mach_msg_type_name_t disposition,
                                      mach_port_t *right_name, mach_msg_type_name_t *type) {
    uint32_t results[2];
    kern_return_t code = call_of_task(task, CALL_EXTRACT_RIGHT, WORDS(name, disposition), results, 2);
    if (code == KERN_SUCCESS) {
        *right_name = results[0];
        *type = results[1];
    }
    return code;
}
