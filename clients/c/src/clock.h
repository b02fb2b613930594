/* Timeouts, and growing pauses within them. */

#ifndef MACHIPC_CLOCK_H
#define MACHIPC_CLOCK_H

#include <stdbool.h>
#include <stdint.h>

#define CLOCK_FOR_EVER UINT32_MAX

struct clock_wait {
    bool is_endless;
    uint64_t end;   /* milliseconds of a monotonic clock */
    uint32_t pause; /* milliseconds of the next pause */
};

/* Returns a timeout of these milliseconds from now on, or CLOCK_FOR_EVER. */
struct clock_wait clock_wait_for(uint32_t milliseconds);

/* Returns the sum of two timeouts, which is CLOCK_FOR_EVER if one of them is. */
uint32_t clock_sum(uint32_t one, uint32_t other);

/* Returns the milliseconds that are left: 0 if the timeout expired, CLOCK_FOR_EVER if it never does. */
uint32_t clock_wait_left(const struct clock_wait *wait);

/* Sleeps, each time for longer, at most 50 milliseconds and not beyond the timeout. Returns true if time was left. */
bool clock_wait_pause(struct clock_wait *wait);

#endif
