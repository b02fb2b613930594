#include "brokered.h"
#include "call.h"
#include "chance.h"
#include "connection.h"
#include "settings.h"
#include "space_end.h"

#include <errno.h>
#include <limits.h>
#include <stdio.h>
#include <stdlib.h>

/* Makes the space, with a right of the caller's or the receive right of a new port. */
static kern_return_t make_space(mach_port_t name, mach_msg_type_name_t disposition, machipc_task_t *task) {
    mach_port_t made = MACH_PORT_NULL;
    if (name == MACH_PORT_NULL) {
        kern_return_t code = mach_port_allocate(mach_task_self(), MACH_PORT_RIGHT_RECEIVE, &made);
        if (code != KERN_SUCCESS) {
            return code;
        }
        name = made;
        disposition = MACH_MSG_TYPE_MOVE_RECEIVE;
    }
    task->start = 1;
    kern_return_t code = machipc_space_create(name, disposition, &task->space, &task->bootstrap);
    if (code != KERN_SUCCESS && made != MACH_PORT_NULL) {
        mach_port_destroy(mach_task_self(), made);
    }
    return code;
}

/* Gives the task's first right a random name, so that its space can be told from a later one with its number. A
   confined process can't do that, and keeps the name that the server chose. */
static kern_return_t name_by_chance(struct connection *connection, machipc_task_t *task) {
    struct settings there = settings_now();
    if (there.is_confined) {
        return KERN_SUCCESS;
    }
    mach_port_t name = chance_name();
    there.space = task->space;
    frame_begin(&connection->call, CALL_RENAME);
    frame_put(&connection->call, task->bootstrap);
    frame_put(&connection->call, name);
    kern_return_t code = call_repeated(connection, &there, CALL_RENAME);
    code = code == KERN_INVALID_NAME ? KERN_SUCCESS : code; /* it was done before a loss */
    task->bootstrap = name;
    if (code != KERN_SUCCESS && !call_was_cut(code)) {
        space_end(connection, &there);
    }
    return code;
}

kern_return_t machipc_task_begin(mach_port_t name, mach_msg_type_name_t disposition, machipc_task_t *task) {
    struct connection *to_task = connection_new();
    if (to_task == NULL) {
        return KERN_RESOURCE_SHORTAGE;
    }
    kern_return_t code = make_space(name, disposition, task);
    code = code == KERN_SUCCESS ? name_by_chance(to_task, task) : code;
    connection_free(to_task);
    return code;
}

kern_return_t machipc_task_end(const machipc_task_t *task) {
    struct connection *connection = connection_new();
    if (connection == NULL) {
        return KERN_RESOURCE_SHORTAGE;
    }
    struct settings there = settings_now();
    bool may_use = settings_may_use(&there, task->space);
    there.space = task->space;
    kern_return_t code = may_use ? space_end(connection, &there) : KERN_NO_ACCESS;
    connection_free(connection);
    return code == KERN_INVALID_TASK ? KERN_SUCCESS : code;
}

static bool export_number(const char *variable, uint32_t number) {
    char text[16];
    snprintf(text, sizeof text, "%lu", (unsigned long) number);
    return setenv(variable, text, 1) == 0;
}

kern_return_t machipc_task_export(const machipc_task_t *task) {
    struct settings settings = settings_now();
    if (settings.broker >= 0) {
        return KERN_NO_ACCESS;
    }
    bool is_done = unsetenv("MACHIPC_FD") == 0 && unsetenv("MACHIPC_PATHS") == 0 &&
                   setenv("MACHIPC_SOCKET", settings.paths, 1) == 0 && export_number("MACHIPC_SPACE", task->space) &&
                   export_number("MACHIPC_BOOTSTRAP", task->bootstrap) && export_number("MACHIPC_START", task->start);
    return is_done ? KERN_SUCCESS : KERN_RESOURCE_SHORTAGE;
}

/* Reads a number from the environment, in decimal, or in hexadecimal after 0x. Returns true if there is one. */
static bool import_number(const char *variable, uint32_t *number) {
    const char *text = getenv(variable);
    if (text == NULL || text[0] < '0' || text[0] > '9') {
        return false;
    }
    char *end;
    errno = 0;
    unsigned long long found = strtoull(text, &end, 0);
    *number = (uint32_t) found;
    return errno == 0 && *end == '\0' && found <= UINT32_MAX;
}

/* Uses the connections that machrun gives. Nothing is written to a descriptor that was closed, and perhaps opened as
   something else. */
static kern_return_t adopt_brokered(machipc_space_t space) {
    uint32_t descriptor;
    if (!import_number("MACHIPC_FD", &descriptor) || descriptor > INT_MAX || !brokered_is_broker((int) descriptor)) {
        return KERN_INVALID_ARGUMENT;
    }
    struct connection *connection = connection_of_thread();
    if (connection == NULL) {
        return KERN_RESOURCE_SHORTAGE;
    }
    uint32_t paths = 1;
    settings_use_broker((int) descriptor, space, import_number("MACHIPC_PATHS", &paths) && paths > 1);
    struct settings settings = settings_now();
    return connection_open(connection, &settings);
}

kern_return_t machipc_adopt(machipc_task_t *task) {
    if (!import_number("MACHIPC_SPACE", &task->space) || !import_number("MACHIPC_BOOTSTRAP", &task->bootstrap)) {
        return KERN_INVALID_ARGUMENT;
    }
    if (!import_number("MACHIPC_START", &task->start)) {
        task->start = 1;
    }
    if (getenv("MACHIPC_FD") != NULL) {
        return adopt_brokered(task->space);
    }
    kern_return_t code = machipc_connect(getenv("MACHIPC_SOCKET"));
    return code == KERN_SUCCESS ? machipc_attach(task->space) : code;
}

static bool is_among(mach_port_t name, const mach_port_t *names, size_t count) {
    for (size_t i = 0; i < count; i++) {
        if (names[i] == name) {
            return true;
        }
    }
    return false;
}

kern_return_t machipc_sweep(const mach_port_t *keep, size_t count) {
    mach_port_array_t names;
    mach_port_type_array_t types;
    mach_msg_type_number_t names_count, types_count;
    kern_return_t code = mach_port_names(mach_task_self(), &names, &names_count, &types, &types_count);
    if (code != KERN_SUCCESS) {
        return code;
    }
    struct connection *connection = connection_of_thread();
    for (mach_msg_type_number_t i = 0; i < names_count && code == KERN_SUCCESS; i++) {
        if (is_among(names[i], keep, count)) {
            continue;
        }
        code = mach_port_destroy(mach_task_self(), names[i]);
        code = code == KERN_INVALID_NAME ? KERN_SUCCESS : code;
        if (connection->reply_port == names[i]) {
            connection->reply_port = MACH_PORT_NULL;
        }
    }
    free(names);
    free(types);
    return code;
}
