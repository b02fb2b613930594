#include "frame.h"

#include <errno.h>
#include <poll.h>
#include <string.h>
#include <sys/socket.h>
#include <sys/types.h>

#define PREFIX ((size_t) 4) /* length of the length word in bytes */

static void write_word(unsigned char *at, uint32_t word) {
    for (int i = 0; i < 4; i++) {
        at[i] = (unsigned char) (word >> (8 * i));
    }
}

static uint32_t read_word(const unsigned char *at) {
    return (uint32_t) at[0] | (uint32_t) at[1] << 8 | (uint32_t) at[2] << 16 | (uint32_t) at[3] << 24;
}

void frame_begin(struct frame *frame, uint32_t number) {
    frame->length = 0;
    frame->place = 0;
    frame->is_bad = false;
    frame_put(frame, number);
}

void frame_put(struct frame *frame, uint32_t word) {
    unsigned char bytes[4];
    write_word(bytes, word);
    frame_put_bytes(frame, bytes, sizeof bytes);
}

void frame_put_bytes(struct frame *frame, const void *bytes, size_t count) {
    if (count > FRAME_LONGEST - frame->length) {
        frame->is_bad = true;
        return;
    }
    if (count > 0) {
        memcpy(frame->bytes + PREFIX + frame->length, bytes, count);
    }
    frame->length += count;
}

void frame_put_in_front(struct frame *frame, uint32_t first, uint32_t second) {
    if (frame->length > FRAME_LONGEST - 8) {
        frame->is_bad = true;
        return;
    }
    memmove(frame->bytes + PREFIX + 8, frame->bytes + PREFIX, frame->length);
    write_word(frame->bytes + PREFIX, first);
    write_word(frame->bytes + PREFIX + 4, second);
    frame->length += 8;
}

uint32_t frame_take(struct frame *frame) {
    if (frame_left(frame) < 4) {
        frame->is_bad = true;
        return 0;
    }
    frame->place += 4;
    return read_word(frame->bytes + PREFIX + frame->place - 4);
}

size_t frame_left(const struct frame *frame) {
    return frame->length - frame->place;
}

const unsigned char *frame_rest(const struct frame *frame) {
    return frame->bytes + PREFIX + frame->place;
}

bool frame_await(int socket, short event, const struct clock_wait *wait) {
    struct pollfd polled = {.fd = socket, .events = event};
    int found;
    do {
        found = poll(&polled, 1, (int) clock_wait_left(wait));
    } while (found < 0 && errno == EINTR);
    if (found == 0) {
        errno = ETIMEDOUT;
    }
    return found > 0;
}

/* Signals interrupt neither sending nor receiving, and a peer that disconnected raises none. */

static bool send_all(int socket, const unsigned char *bytes, size_t count, const struct clock_wait *wait) {
    while (count > 0) {
        ssize_t sent = send(socket, bytes, count, MSG_NOSIGNAL | MSG_DONTWAIT);
        if (sent > 0) {
            bytes += sent;
            count -= (size_t) sent;
            continue;
        }
        if (errno == EAGAIN && frame_await(socket, POLLOUT, wait)) {
            continue;
        }
        if (errno != EINTR) {
            return false;
        }
    }
    return true;
}

bool frame_send(struct frame *frame, int socket, const struct clock_wait *wait) {
    write_word(frame->bytes, (uint32_t) frame->length);
    return send_all(socket, frame->bytes, PREFIX + frame->length, wait);
}

/* Reads what has come, or comes in time. Returns the number of bytes, or 0 if there are none. */
static size_t receive_some(int socket, unsigned char *bytes, size_t room, const struct clock_wait *wait) {
    while (frame_await(socket, POLLIN, wait)) {
        ssize_t received = recv(socket, bytes, room, MSG_DONTWAIT);
        if (received > 0) {
            return (size_t) received;
        }
        if (received == 0) {
            errno = ECONNRESET;
            return 0;
        }
        if (errno != EINTR && errno != EAGAIN) {
            return 0;
        }
    }
    return 0;
}

/* The peer sends one frame and then waits for the next call, so nothing is read beyond the frame. */
bool frame_receive(struct frame *frame, int socket, const struct clock_wait *wait) {
    size_t count = 0, wanted = PREFIX;
    frame->length = 0;
    frame->place = 0;
    frame->is_bad = false;
    while (count < wanted) {
        size_t received = receive_some(socket, frame->bytes + count, sizeof frame->bytes - count, wait);
        if (received == 0) {
            return false;
        }
        count += received;
        if (count >= PREFIX) {
            wanted = PREFIX + read_word(frame->bytes);
        }
        if (count > wanted || wanted > sizeof frame->bytes) {
            errno = EPROTO;
            return false;
        }
    }
    if (wanted < PREFIX + 4) {
        errno = EPROTO;
        return false;
    }
    frame->length = wanted - PREFIX;
    return true;
}
