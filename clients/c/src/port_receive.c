/* Calls on receive rights. */

#include "call.h"

kern_return_t mach_port_set_qlimit(mach_port_t task, mach_port_t name, mach_port_msgcount_t limit) {
    return call_of_task(task, CALL_SET_QLIMIT, WORDS(name, limit), NO_RESULTS);
}

kern_return_t mach_port_set_mscount(mach_port_t task, mach_port_t name, mach_port_mscount_t count) {
    return call_of_task(task, CALL_SET_MSCOUNT, WORDS(name, count), NO_RESULTS);
}

kern_return_t mach_port_set_seqno(mach_port_t task, mach_port_t name, mach_port_seqno_t seqno) {
    return call_of_task(task, CALL_SET_SEQNO, WORDS(name, seqno), NO_RESULTS);
}

kern_return_t mach_port_move_member(mach_port_t task, mach_port_t member, mach_port_t after) {
    return call_of_task(task, CALL_MOVE_MEMBER, WORDS(member, after), NO_RESULTS);
}

kern_return_t mach_port_get_receive_status(mach_port_t task, mach_port_t name, mach_port_status_t *status) {
    uint32_t results[9];
    kern_return_t code = call_of_task(task, CALL_GET_RECEIVE_STATUS, WORDS(name), results, 9);
    if (code == KERN_SUCCESS) {
        *status = (mach_port_status_t){
            .mps_pset = results[0],
            .mps_seqno = results[1],
            .mps_mscount = results[2],
            .mps_qlimit = results[3],
            .mps_msgcount = results[4],
            .mps_sorights = results[5],
            .mps_srights = results[6] != 0,
            .mps_pdrequest = results[7] != 0,
            .mps_nsrequest = results[8] != 0,
        };
    }
    return code;
}
