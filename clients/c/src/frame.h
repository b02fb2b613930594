/*
 * Frames: the length of the content in four bytes, and the content, which consists of little-endian words. The first
 * word of a call is its number. The first words of a reply are the call's number and the code.
 */

#ifndef MACHIPC_FRAME_H
#define MACHIPC_FRAME_H

#include "clock.h"

#include <stdbool.h>
#include <stddef.h>
#include <stdint.h>

#if defined(__BYTE_ORDER__) && __BYTE_ORDER__ != __ORDER_LITTLE_ENDIAN__
#error "messages are sent as they stand in memory, so the lowest byte has to come first there"
#endif

/* The server closes a connection whose frame has more content. */
#define FRAME_LONGEST ((size_t) 65532)

struct frame {
    size_t length; /* length of the content in bytes */
    size_t place;  /* offset at which reading continues */
    bool is_bad;   /* more was put than there is room for, or taken than there is */
    unsigned char bytes[4 + FRAME_LONGEST];
};

/* Replaces the content by this number. */
void frame_begin(struct frame *frame, uint32_t number);

void frame_put(struct frame *frame, uint32_t word);
void frame_put_bytes(struct frame *frame, const void *bytes, size_t count);

/* Inserts two words before the content. */
void frame_put_in_front(struct frame *frame, uint32_t first, uint32_t second);

/* Returns the next word, or 0 if none is left. */
uint32_t frame_take(struct frame *frame);

/* Return the number of bytes left, and a pointer to them. */
size_t frame_left(const struct frame *frame);
const unsigned char *frame_rest(const struct frame *frame);

/* Waits until a socket can be read (POLLIN) or written (POLLOUT), or has ended. Returns false if the timeout expired. */
bool frame_await(int socket, short event, const struct clock_wait *wait);

/* Write the frame to a socket, and read one from it, within a timeout. Both return true on success; otherwise see errno,
   and the socket can't be used any more. */
bool frame_send(struct frame *frame, int socket, const struct clock_wait *wait);
bool frame_receive(struct frame *frame, int socket, const struct clock_wait *wait);

#endif
