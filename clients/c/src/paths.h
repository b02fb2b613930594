/*
 * The paths of a server's sockets, as users write them: PATH1:PATH2. A `:` in a path is written `\:`, and a backslash
 * `\\`. machrun's broker uses this module as well as the library.
 */

#ifndef MACHIPC_PATHS_H
#define MACHIPC_PATHS_H

#include "clock.h"
#include "frame.h"

#include <mach/kern_return.h>
#include <sys/un.h>

#define PATHS_SIZE sizeof(((struct sockaddr_un *) 0)->sun_path)

/* The most paths of a list, and the bytes of the longest list. */
enum { PATHS_MOST = 4, PATHS_LIST = PATHS_MOST * 2 * PATHS_SIZE };

/* The milliseconds within which a path has to lead to a server that answers, with all calls that a connection begins
   with. */
enum { PATHS_TIME = 3000 };

struct paths {
    size_t count;
    char each[PATHS_MOST][PATHS_SIZE];
};

/* Reads a list. Returns false if it isn't one, has too many paths, or one that is empty or too long for a socket. */
bool paths_read(struct paths *paths, const char *list);

/* Connects a socket that doesn't block. Returns true on success; otherwise see errno. */
bool paths_connect(int socket, const char *path, struct clock_wait *wait);

/* Makes a call whose results aren't used. MACH_SEND_INTERRUPTED: the server doesn't answer in time, see errno. */
kern_return_t paths_call(int socket, struct frame *frame, const struct clock_wait *wait, uint32_t number,
                         const uint32_t *arguments, size_t count);

#endif
