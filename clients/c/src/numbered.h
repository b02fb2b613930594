/*
 * Numbered requests: call 22 contains a number and another call. The server keeps the last number of a space and its
 * reply. The same number again is answered with that reply and does nothing; a higher one is a new request.
 */

#ifndef MACHIPC_NUMBERED_H
#define MACHIPC_NUMBERED_H

#include "connection.h"

/* Returns true if calls with this number change something, and can be numbered. */
bool numbered_has(uint32_t number);

/* Makes the call in connection->call as a numbered request, under the next number of the space. The reply is read up to
   the inner results, and the returned code is the inner one. After a loss it is repeated, within the settings'
   patience. */
kern_return_t numbered_make(struct connection *connection, const struct settings *settings, uint32_t number);

#endif
