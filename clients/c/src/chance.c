#include "chance.h"

#include <sys/random.h>
#include <time.h>
#include <unistd.h>

mach_port_t chance_name(void) {
    uint32_t drawn;
    if (getrandom(&drawn, sizeof drawn, 0) != sizeof drawn) {
        struct timespec time;
        clock_gettime(CLOCK_REALTIME, &time);
        drawn = (uint32_t) time.tv_nsec * 2654435761u ^ (uint32_t) getpid() << 16 ^ (uint32_t) time.tv_sec;
    }
    return 0x80000000u | drawn % 0x7fffffffu;
}
