#include "paths.h"

#include <mach/message.h>
#include <mach/mig_errors.h>

#include <errno.h>
#include <string.h>
#include <sys/socket.h>

/* Reads the path at the beginning of a list. Returns the rest of the list, or NULL if there is no such path. */
static const char *read_path(char *path, const char *list) {
    size_t length = 0;
    while (*list != '\0' && *list != ':') {
        if (*list == '\\') {
            list++;
            if (*list != ':' && *list != '\\') {
                return NULL;
            }
        }
        if (length == PATHS_SIZE - 1) {
            return NULL;
        }
        path[length] = *list;
        length++;
        list++;
    }
    path[length] = '\0';
    return length > 0 ? list : NULL;
}

bool paths_read(struct paths *paths, const char *list) {
    for (paths->count = 0; paths->count < PATHS_MOST; list++) {
        list = read_path(paths->each[paths->count], list);
        if (list == NULL) {
            return false;
        }
        paths->count++;
        if (*list == '\0') {
            return true;
        }
    }
    return false;
}

bool paths_connect(int socket, const char *path, struct clock_wait *wait) {
    struct sockaddr_un address = {.sun_family = AF_UNIX};
    memcpy(address.sun_path, path, strlen(path) + 1);
    while (connect(socket, (struct sockaddr *) &address, sizeof address) != 0) {
        int error = errno;
        bool is_busy = error == EAGAIN || error == EINTR; /* the server has accepted none for a while */
        if (!is_busy || !clock_wait_pause(wait)) {
            errno = error;
            return false;
        }
    }
    return true;
}

kern_return_t paths_call(int socket, struct frame *frame, const struct clock_wait *wait, uint32_t number,
                         const uint32_t *arguments, size_t count) {
    frame_begin(frame, number);
    for (size_t i = 0; i < count; i++) {
        frame_put(frame, arguments[i]);
    }
    if (!frame_send(frame, socket, wait) || !frame_receive(frame, socket, wait)) {
        return MACH_SEND_INTERRUPTED;
    }
    uint32_t found = frame_take(frame);
    uint32_t code = frame_take(frame);
    return frame->is_bad || found != number ? MIG_REPLY_MISMATCH : (kern_return_t) code;
}
