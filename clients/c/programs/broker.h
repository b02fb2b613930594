/*
 * The broker, which gives a confined command its connections: two processes of machrun, alongside the command.
 *
 * They are separate processes because closing a descriptor that the command sent may block. machrun itself never has
 * such a descriptor, so it notices the command's end whatever the command sends. One process, the worker, answers
 * requests, one at a time, and either makes each connection within 12 seconds or refuses it. A worker that is
 * blocked for longer ends, and the other process starts a new one.
 */

#ifndef MACHRUN_BROKER_H
#define MACHRUN_BROKER_H

#include "paths.h"

#include <machipc.h>
#include <stdbool.h>
#include <sys/types.h>

struct broker {
    const struct paths *paths;
    machipc_space_t space;
    mach_port_t name;   /* a name that the space has, and that no later space with its number has */
    int end_of_command; /* of the pair, or -1 once it was given to the command */
    pid_t process;      /* 0 if there is none */
};

/* Makes the pair and starts the broker. Returns true if that was done; otherwise errno says why. */
bool broker_begin(struct broker *broker);

/* Closes machrun's copy of the command's end, once the command has its own. */
void broker_was_given(struct broker *broker);

/* Ends the broker, and waits for its end for a short time only. */
void broker_end(struct broker *broker);

#endif
