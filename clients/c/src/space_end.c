/*
 * The end of a space. It has no numbered request, because the space would keep the number. After a lost connection
 * nothing says if the space was destroyed, and its number may already be another space's. So a mark, a dead name with a
 * random name, is put into the space first: if the mark isn't found after a loss, the space is gone.
 */

#include "space_end.h"

#include "call.h"
#include "chance.h"

static kern_return_t mark(struct connection *connection, const struct settings *settings, mach_port_t name) {
    frame_begin(&connection->call, CALL_ALLOCATE_NAME);
    frame_put(&connection->call, MACH_PORT_RIGHT_DEAD_NAME);
    frame_put(&connection->call, name);
    kern_return_t code = call_repeated(connection, settings, CALL_ALLOCATE_NAME);
    return code == KERN_NAME_EXISTS ? KERN_SUCCESS : code; /* it was made before a loss */
}

/* KERN_INVALID_NAME: the mark isn't there, so the space was destroyed. */
static kern_return_t look(struct connection *connection, const struct settings *settings, mach_port_t name) {
    frame_begin(&connection->call, CALL_TYPE);
    frame_put(&connection->call, name);
    return call_repeated(connection, settings, CALL_TYPE);
}

static kern_return_t destroy(struct connection *connection, const struct settings *settings) {
    frame_begin(&connection->call, CALL_SPACE_DESTROY);
    kern_return_t code = connection_exchange(connection, settings, 0);
    return code == KERN_SUCCESS ? call_read(connection, CALL_SPACE_DESTROY) : code;
}

kern_return_t space_end(struct connection *connection, const struct settings *settings) {
    mach_port_t name = chance_name();
    kern_return_t code = mark(connection, settings, name);
    if (code == KERN_NO_SPACE) {
        return destroy(connection, settings); /* there is no name left for the mark */
    }
    while (code == KERN_SUCCESS) {
        code = destroy(connection, settings);
        if (!call_was_cut(code)) {
            return code;
        }
        code = look(connection, settings, name);
        if (code == KERN_INVALID_NAME || code == KERN_INVALID_TASK) {
            return KERN_SUCCESS;
        }
    }
    return code;
}
