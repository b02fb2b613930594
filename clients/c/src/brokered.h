/*
 * Connections that machrun gives to the processes of a confined command, which can't open the server's socket.
 *
 * MACHIPC_FD is one end of a pair of sockets (SOCK_SEQPACKET), and machrun has the other one. To request a connection,
 * a process makes a pair of its own, sends one byte with one end of it over MACHIPC_FD, and waits at the other end.
 * There machrun replies with one byte: BROKERED_GIVEN and a connection, which is attached to the command's space and
 * confined to it; or, without a connection, one of Mach's codes, or BROKERED_LATER if the server can't be reached now.
 * Nobody reads at MACHIPC_FD itself, so threads and processes can share it, and each gets only its own connection.
 */

#ifndef MACHIPC_BROKERED_H
#define MACHIPC_BROKERED_H

#include "connection.h"

enum { BROKERED_GIVEN = 0, BROKERED_LATER = 255 };

/* Returns true if connections can be requested over this descriptor. */
bool brokered_is_broker(int descriptor);

/* Requests a connection from the broker for `connection`, which has no socket. MACH_SEND_INTERRUPTED: there is none
   now; another code means that there never is. The connection may be left with a useless socket. */
kern_return_t brokered_open(struct connection *connection, int broker);

#endif
