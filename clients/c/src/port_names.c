/* Calls on names and their types. */

#include "call.h"

#include <stdlib.h>

/* A constant that servers don't choose as a name. */
#define OWN_TASK ((mach_port_t) 1)

mach_port_t mach_task_self(void) {
    return OWN_TASK;
}

mach_port_t mach_reply_port(void) {
    mach_port_t name;
    return mach_port_allocate(OWN_TASK, MACH_PORT_RIGHT_RECEIVE, &name) == KERN_SUCCESS ? name : MACH_PORT_NULL;
}

/* Makes a call whose result is a count and as many rows of `width` words. The reply is read up to the first row. */
static kern_return_t list(mach_port_t task, uint32_t number, const uint32_t *name, uint32_t width, uint32_t *count) {
    struct connection *connection = connection_of_thread();
    if (task != mach_task_self() || connection == NULL) {
        return connection == NULL ? KERN_RESOURCE_SHORTAGE : KERN_INVALID_TASK;
    }
    struct settings settings = settings_now();
    frame_begin(&connection->call, number);
    if (name != NULL) {
        frame_put(&connection->call, *name);
    }
    kern_return_t code = call_make(connection, &settings, number);
    if (code != KERN_SUCCESS) {
        return code;
    }
    *count = frame_take(&connection->reply);
    bool is_whole = !connection->reply.is_bad && frame_left(&connection->reply) == (uint64_t) *count * width * 4;
    return is_whole ? KERN_SUCCESS : call_mismatch(connection);
}

/* Allocates room for words; not NULL for a count of 0. */
static uint32_t *room(uint32_t count) {
    return calloc(count > 0 ? count : 1, sizeof(uint32_t));
}

kern_return_t mach_port_names(mach_port_t task, mach_port_array_t *names, mach_msg_type_number_t *names_count,
                              mach_port_type_array_t *types, mach_msg_type_number_t *types_count) {
    uint32_t count = 0;
    kern_return_t code = list(task, CALL_NAMES, NULL, 2, &count);
    if (code != KERN_SUCCESS) {
        return code;
    }
    uint32_t *first = room(count), *second = room(count);
    if (first == NULL || second == NULL) {
        free(first);
        free(second);
        return KERN_RESOURCE_SHORTAGE;
    }
    struct frame *reply = &connection_of_thread()->reply;
    for (uint32_t i = 0; i < count; i++) {
        first[i] = frame_take(reply);
        second[i] = frame_take(reply);
    }
    *names = first;
    *types = second;
    *names_count = *types_count = count;
    return KERN_SUCCESS;
}

kern_return_t mach_port_get_set_status(mach_port_t task, mach_port_t name, mach_port_array_t *members,
                                       mach_msg_type_number_t *count) {
    uint32_t found = 0;
    kern_return_t code = list(task, CALL_GET_SET_STATUS, &name, 1, &found);
    if (code != KERN_SUCCESS) {
        return code;
    }
    uint32_t *names = room(found);
    if (names == NULL) {
        return KERN_RESOURCE_SHORTAGE;
    }
    for (uint32_t i = 0; i < found; i++) {
        names[i] = frame_take(&connection_of_thread()->reply);
    }
    *members = names;
    *count = found;
    return KERN_SUCCESS;
}

kern_return_t mach_port_type(mach_port_t task, mach_port_t name, mach_port_type_t *type) {
    return call_of_task(task, CALL_TYPE, WORDS(name), type, 1);
}

kern_return_t mach_port_rename(mach_port_t task, mach_port_t old_name, mach_port_t new_name) {
    return call_of_task(task, CALL_RENAME, WORDS(old_name, new_name), NO_RESULTS);
}

kern_return_t mach_port_allocate_name(mach_port_t task, mach_port_right_t right, mach_port_t name) {
    return call_of_task(task, CALL_ALLOCATE_NAME, WORDS(right, name), NO_RESULTS);
}

kern_return_t mach_port_allocate(mach_port_t task, mach_port_right_t right, mach_port_t *name) {
    return call_of_task(task, CALL_ALLOCATE, WORDS(right), name, 1);
}

kern_return_t mach_port_destroy(mach_port_t task, mach_port_t name) {
    return call_of_task(task, CALL_DESTROY, WORDS(name), NO_RESULTS);
}
