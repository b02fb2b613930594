/* The command's process, from fork to exec: its user, what it sees of the file system, and its environment. */

#ifndef MACHRUN_CHILD_H
#define MACHRUN_CHILD_H

#include "paths.h"

#include <limits.h>
#include <stdbool.h>
#include <sys/types.h>

/* The exit status of machrun if it fails itself, if the command can't be run, and if the command isn't found. */
enum { FAILED = 125, NOT_RUN = 126, NOT_FOUND = 127 };

struct child {
    char **words;
    struct paths paths;
    char found[PATHS_MOST][PATH_MAX]; /* the same paths without symbolic links; empty: there isn't even the folder */
    const char *user;                 /* NULL for machrun's own user */
    uid_t uid;
    gid_t gid;
    int broker; /* the command's end of the pair, or -1 if the command isn't confined */
};

/* Finds the user that the command is to run as. Returns true if that user exists and machrun may become it; otherwise a
   line on standard error says why not. */
bool child_find_user(struct child *child);

/* Finds the sockets' paths without symbolic links, so that they can be hidden. Returns false if there is no socket, as
   happens for a moment while a server is started again. */
bool child_find_sockets(struct child *child);

/* Becomes the command, or ends with one of the statuses above. */
void child_run(const struct child *child);

#endif
