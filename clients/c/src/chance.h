#ifndef MACHIPC_CHANCE_H
#define MACHIPC_CHANCE_H

#include <machipc.h>

/* Returns a random name: above those that servers choose, so that hardly any other space has it. */
mach_port_t chance_name(void);

#endif
