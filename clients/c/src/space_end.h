#ifndef MACHIPC_SPACE_END_H
#define MACHIPC_SPACE_END_H

#include "connection.h"

/* Destroys the space of these settings, even if the connection is lost meanwhile. KERN_INVALID_TASK: it isn't there. */
kern_return_t space_end(struct connection *connection, const struct settings *settings);

#endif
