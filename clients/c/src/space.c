#include "call.h"
#include "connection.h"
#include "settings.h"
#include "space_end.h"

kern_return_t machipc_connect(const char *paths) {
    struct connection *connection = connection_of_thread();
    if (connection == NULL) {
        return KERN_RESOURCE_SHORTAGE;
    }
    if (!settings_use_server(paths)) {
        return KERN_INVALID_ARGUMENT;
    }
    struct settings settings = settings_now();
    return connection_open(connection, &settings);
}

kern_return_t machipc_attach(machipc_space_t space) {
    struct connection *connection = connection_of_thread();
    if (connection == NULL) {
        return KERN_RESOURCE_SHORTAGE;
    }
    struct settings wanted = settings_now();
    if (!settings_may_use(&wanted, space)) {
        return KERN_NO_ACCESS;
    }
    wanted.space = space;
    wanted.is_refused = false;
    connection_close(connection);
    kern_return_t code = connection_open(connection, &wanted);
    if (code == KERN_SUCCESS) {
        connection->generation = settings_use_space(space, false);
    }
    return code;
}

kern_return_t machipc_confine(void) {
    struct connection *connection = connection_of_thread();
    if (connection == NULL) {
        return KERN_RESOURCE_SHORTAGE;
    }
    struct settings settings = settings_now();
    frame_begin(&connection->call, CALL_CONFINE);
    kern_return_t code = call_make(connection, &settings, CALL_CONFINE);
    if (code == KERN_SUCCESS) {
        connection->generation = settings_confine(settings.space);
    }
    return code;
}

machipc_space_t machipc_space(void) {
    return settings_now().space;
}

void machipc_set_patience(uint32_t milliseconds) {
    settings_use_patience(milliseconds);
}

kern_return_t machipc_space_create(mach_port_t name, mach_msg_type_name_t disposition, machipc_space_t *space,
                                   mach_port_t *name_there) {
    uint32_t results[2];
    kern_return_t code = call_words(CALL_SPACE_CREATE, WORDS(name, disposition), results, 2);
    if (code == KERN_SUCCESS) {
        *space = results[0];
        *name_there = results[1];
    }
    return code;
}

kern_return_t machipc_space_destroy(void) {
    struct connection *connection = connection_of_thread();
    if (connection == NULL) {
        return KERN_RESOURCE_SHORTAGE;
    }
    struct settings settings = settings_now();
    if (settings.is_once && settings.space != MACHIPC_FIRST_SPACE) {
        return space_end(connection, &settings);
    }
    return call_words(CALL_SPACE_DESTROY, NULL, 0, NO_RESULTS);
}
