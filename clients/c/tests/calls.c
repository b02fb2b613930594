/* Each call on names and rights, with its results and its refusals. */

#include "check.h"

#include <stdlib.h>

static void names(mach_port_t first) {
    mach_port_t port = check_port(), set = 0, dead = 0;
    CHECK_OK(mach_port_allocate(SELF, MACH_PORT_RIGHT_PORT_SET, &set));
    CHECK_OK(mach_port_allocate(SELF, MACH_PORT_RIGHT_DEAD_NAME, &dead));
    CHECK_CODE(mach_port_allocate(SELF, MACH_PORT_RIGHT_SEND, &dead), KERN_INVALID_VALUE);
    CHECK(check_type(port) == MACH_PORT_TYPE_RECEIVE);
    CHECK(check_type(set) == MACH_PORT_TYPE_PORT_SET);
    CHECK(check_type(dead) == MACH_PORT_TYPE_DEAD_NAME);

    mach_port_array_t found;
    mach_port_type_array_t types;
    mach_msg_type_number_t count, types_count;
    CHECK_OK(mach_port_names(SELF, &found, &count, &types, &types_count));
    CHECK(count == 4 && types_count == 4 && found[0] == port && types[0] == check_type(port) && found[3] == first);
    free(found);
    free(types);

    CHECK_OK(mach_port_rename(SELF, port, 0x1000));
    CHECK_CODE(mach_port_rename(SELF, port, 0x1001), KERN_INVALID_NAME);
    CHECK_CODE(mach_port_rename(SELF, 0x1000, MACH_PORT_DEAD), KERN_INVALID_VALUE);
    CHECK_CODE(mach_port_rename(SELF, 0x1000, set), KERN_NAME_EXISTS);
    CHECK_OK(mach_port_allocate_name(SELF, MACH_PORT_RIGHT_RECEIVE, 0x1001));
    CHECK_CODE(mach_port_allocate_name(SELF, MACH_PORT_RIGHT_RECEIVE, 0x1001), KERN_NAME_EXISTS);
    CHECK_OK(mach_port_destroy(SELF, 0x1000));
    CHECK_OK(mach_port_destroy(SELF, 0x1001));
    CHECK_CODE(mach_port_destroy(SELF, 0x1001), KERN_INVALID_NAME);
    CHECK_OK(mach_port_deallocate(SELF, dead));
    CHECK_CODE(mach_port_deallocate(SELF, set), KERN_INVALID_RIGHT);
    CHECK_OK(mach_port_destroy(SELF, set));
}

static void references(void) {
    mach_port_t port = check_port();
    mach_port_urefs_t count = 9;
    CHECK_OK(mach_port_insert_right(SELF, port, port, MACH_MSG_TYPE_MAKE_SEND));
    CHECK_CODE(mach_port_insert_right(SELF, 0x1000, port, MACH_MSG_TYPE_MAKE_SEND), KERN_RIGHT_EXISTS);
    CHECK_CODE(mach_port_insert_right(SELF, port, 0x1000, MACH_MSG_TYPE_MAKE_SEND), KERN_INVALID_CAPABILITY);
    CHECK_OK(mach_port_mod_refs(SELF, port, MACH_PORT_RIGHT_SEND, 3));
    CHECK_CODE(mach_port_mod_refs(SELF, port, MACH_PORT_RIGHT_SEND, -5), KERN_INVALID_VALUE);
    CHECK_CODE(mach_port_mod_refs(SELF, port, MACH_PORT_RIGHT_SEND, 65534), KERN_UREFS_OVERFLOW);
    CHECK_OK(mach_port_get_refs(SELF, port, MACH_PORT_RIGHT_SEND, &count));
    CHECK(count == 4);
    CHECK_OK(mach_port_deallocate(SELF, port));
    CHECK_OK(mach_port_mod_refs(SELF, port, MACH_PORT_RIGHT_RECEIVE, -1));
    CHECK(check_type(port) == MACH_PORT_TYPE_DEAD_NAME);
    CHECK_OK(mach_port_get_refs(SELF, port, MACH_PORT_RIGHT_DEAD_NAME, &count));
    CHECK(count == 3);
    CHECK_OK(mach_port_get_refs(SELF, port, MACH_PORT_RIGHT_SEND, &count));
    CHECK(count == 0);
    CHECK_OK(mach_port_destroy(SELF, port));
}

static void receive_rights(void) {
    mach_port_t port = check_port(), set = 0, once = 0;
    mach_msg_type_name_t type = 0;
    CHECK_CODE(mach_port_set_qlimit(SELF, port, MACH_PORT_QLIMIT_MAX + 1), KERN_INVALID_VALUE);
    CHECK_OK(mach_port_set_qlimit(SELF, port, MACH_PORT_QLIMIT_MAX));
    CHECK_OK(mach_port_set_qlimit(SELF, port, 3));
    CHECK_OK(mach_port_set_mscount(SELF, port, 7));
    CHECK_OK(mach_port_set_seqno(SELF, port, 8));
    CHECK_OK(mach_port_extract_right(SELF, port, MACH_MSG_TYPE_MAKE_SEND_ONCE, &once, &type));
    CHECK(type == MACH_MSG_TYPE_PORT_SEND_ONCE && check_type(once) == MACH_PORT_TYPE_SEND_ONCE);
    CHECK_OK(mach_port_allocate(SELF, MACH_PORT_RIGHT_PORT_SET, &set));
    CHECK_CODE(mach_port_move_member(SELF, port, MACH_PORT_NULL), KERN_NOT_IN_SET);
    CHECK_OK(mach_port_move_member(SELF, port, set));
    mach_port_status_t status = check_port_status(port);
    CHECK(status.mps_pset == set && status.mps_seqno == 8 && status.mps_mscount == 7 && status.mps_qlimit == 3);
    CHECK(status.mps_msgcount == 0 && status.mps_sorights == 1 && !status.mps_srights && !status.mps_pdrequest);

    mach_port_array_t members;
    mach_msg_type_number_t count;
    CHECK_OK(mach_port_get_set_status(SELF, set, &members, &count));
    CHECK(count == 1 && members[0] == port);
    free(members);
    CHECK_CODE(mach_port_get_set_status(SELF, port, &members, &count), KERN_INVALID_RIGHT);
    CHECK_OK(mach_port_destroy(SELF, set));
    CHECK_OK(mach_port_get_receive_status(SELF, port, &status));
    CHECK(status.mps_pset == MACH_PORT_NULL);
    CHECK_OK(mach_port_destroy(SELF, port));
    CHECK(check_type(once) == MACH_PORT_TYPE_DEAD_NAME);
    CHECK_OK(mach_port_destroy(SELF, once));
}

static void requests(void) {
    mach_port_t port = check_port(), target = check_port(), previous = 9;
    CHECK_OK(
        mach_port_request_notification(SELF, port, MACH_NOTIFY_DEAD_NAME, 0, target, MACH_MSG_TYPE_MAKE_SEND_ONCE, &previous));
    CHECK(previous == MACH_PORT_NULL && (check_type(port) & MACH_PORT_TYPE_DNREQUEST));
    CHECK_OK(mach_port_request_notification(SELF, port, MACH_NOTIFY_DEAD_NAME, 0, MACH_PORT_NULL, 0, &previous));
    CHECK(check_type(previous) == MACH_PORT_TYPE_SEND_ONCE);
    CHECK_CODE(
        mach_port_request_notification(SELF, port, MACH_NOTIFY_SEND_ONCE, 0, target, MACH_MSG_TYPE_MAKE_SEND_ONCE, &previous),
        KERN_INVALID_VALUE);
    CHECK_OK(mach_port_destroy(SELF, port));
    CHECK_OK(mach_port_destroy(SELF, target));
    CHECK_OK(mach_port_destroy(SELF, previous));
}

static void spaces(void) {
    machipc_space_t own = machipc_space(), made = 0;
    mach_port_t port = check_port(), there = 0;
    CHECK_OK(machipc_space_create(port, MACH_MSG_TYPE_MAKE_SEND, &made, &there));
    CHECK_CODE(machipc_space_create(port, 99, &made, &there), KERN_INVALID_VALUE);
    CHECK_CODE(machipc_attach(9999), KERN_INVALID_TASK);
    CHECK(machipc_space() == own);
    CHECK_OK(machipc_attach(made));
    CHECK(check_type(there) == MACH_PORT_TYPE_SEND);
    CHECK_OK(machipc_space_destroy());
    mach_port_type_t type = 0;
    CHECK_CODE(mach_port_type(SELF, there, &type), KERN_INVALID_TASK);
    CHECK_OK(machipc_attach(own));
    CHECK_OK(mach_port_destroy(SELF, port));
    CHECK_CODE(mach_port_type(port, port, &type), KERN_INVALID_TASK);
    CHECK_CODE(machipc_connect(NULL), KERN_INVALID_ARGUMENT);
}

static void names_of_codes(void) {
    char short_text[4] = "xxx";
    CHECK(mach_error_string(KERN_INVALID_NAME)[5] == 'I');
    CHECK(mach_error_string(123456)[0] == 'u');
    CHECK(mig_strncpy(short_text, "abcdef", sizeof short_text) == 4 && short_text[2] == 'c' && short_text[3] == '\0');
    CHECK(mig_strncpy(short_text, "a", sizeof short_text) == 2 && mig_strncpy(short_text, "b", 0) == 0);
    CHECK(short_text[0] == 'a');
}

int main(int count, char **words) {
    mach_port_t first = check_begin(count, words);
    names(first);
    references();
    receive_rights();
    requests();
    spaces();
    names_of_codes();
    return check_end();
}
