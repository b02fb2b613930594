#include "clock.h"

#include <time.h>

#define LONGEST_PAUSE 50u

static uint64_t now(void) {
    struct timespec time;
    clock_gettime(CLOCK_MONOTONIC, &time);
    return (uint64_t) time.tv_sec * 1000 + (uint64_t) time.tv_nsec / 1000000;
}

struct clock_wait clock_wait_for(uint32_t milliseconds) {
    return (struct clock_wait){
        .is_endless = milliseconds == CLOCK_FOR_EVER,
        .end = now() + milliseconds,
        .pause = 1,
    };
}

uint32_t clock_sum(uint32_t one, uint32_t other) {
    return one < CLOCK_FOR_EVER - other ? one + other : CLOCK_FOR_EVER;
}

uint32_t clock_wait_left(const struct clock_wait *wait) {
    if (wait->is_endless) {
        return CLOCK_FOR_EVER;
    }
    uint64_t time = now();
    return time < wait->end ? (uint32_t) (wait->end - time) : 0;
}

bool clock_wait_pause(struct clock_wait *wait) {
    uint32_t left = clock_wait_left(wait);
    if (left == 0) {
        return false;
    }
    uint32_t pause = wait->pause < left ? wait->pause : left;
    struct timespec time = {.tv_nsec = (long) pause * 1000000};
    nanosleep(&time, NULL);
    wait->pause = wait->pause < LONGEST_PAUSE / 2 ? 2 * wait->pause : LONGEST_PAUSE;
    return true;
}
