#include "connection.h"

#include "brokered.h"
#include "call.h"
#include "settings.h"

#include <errno.h>
#include <stdatomic.h>

/* The place in the list of the path that answered last. It is tried first. */
static atomic_size_t place_of_last;

/* Connects the connection to the server at a path, and takes it to the settings' space. A server that accepts and doesn't
   answer isn't ready, or isn't reached: a proxy accepts for a server that is gone. */
static kern_return_t enter(struct connection *connection, const struct settings *settings, const char *path) {
    struct clock_wait wait = clock_wait_for(settings_path_time(settings));
    struct frame *frame = &connection->reply; /* the call's frame may hold a call that is repeated */
    connection_close(connection);
    if (!connection_make_socket(connection) || !paths_connect(connection->socket, path, &wait)) {
        return MACH_SEND_INTERRUPTED;
    }
    kern_return_t code = paths_call(connection->socket, frame, &wait, CALL_ATTACH, &settings->space, 1);
    if (code == KERN_SUCCESS && settings->is_confined) {
        code = paths_call(connection->socket, frame, &wait, CALL_CONFINE, NULL, 0);
    }
    return code;
}

static kern_return_t enter_by_any(struct connection *connection, const struct settings *settings) {
    struct paths paths;
    if (!paths_read(&paths, settings->paths)) {
        errno = ENOENT;
        return MACH_SEND_INTERRUPTED;
    }
    size_t first = atomic_load(&place_of_last);
    kern_return_t code = MACH_SEND_INTERRUPTED;
    for (size_t i = 0; i < paths.count && code == MACH_SEND_INTERRUPTED; i++) {
        size_t place = (first + i) % paths.count;
        code = enter(connection, settings, paths.each[place]);
        if (code != MACH_SEND_INTERRUPTED) {
            atomic_store(&place_of_last, place);
        }
    }
    return code;
}

kern_return_t connection_open(struct connection *connection, const struct settings *settings) {
    if (settings->is_refused) {
        return KERN_FAILURE;
    }
    if (connection->socket >= 0 && connection->generation == settings->generation) {
        return KERN_SUCCESS;
    }
    connection_close(connection);
    connection->generation = settings->generation;
    kern_return_t code =
        settings->broker >= 0 ? brokered_open(connection, settings->broker) : enter_by_any(connection, settings);
    if (code != KERN_SUCCESS) {
        int error = errno;
        connection_close(connection);
        errno = error;
    }
    return code;
}

kern_return_t connection_exchange(struct connection *connection, const struct settings *settings, uint32_t wait) {
    kern_return_t code = connection_open(connection, settings);
    if (code != KERN_SUCCESS) {
        return code;
    }
    struct clock_wait answer = clock_wait_for(clock_sum(wait, settings_answer_time(settings)));
    if (!frame_send(&connection->call, connection->socket, &answer)) {
        connection_close(connection);
        return MACH_SEND_INTERRUPTED;
    }
    if (!frame_receive(&connection->reply, connection->socket, &answer)) {
        connection_close(connection);
        return MACH_RCV_INTERRUPTED;
    }
    return KERN_SUCCESS;
}
