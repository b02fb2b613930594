#ifndef COUNTER_TYPES_H
#define COUNTER_TYPES_H

typedef char label_t[32];
typedef const char *const_label_t;

#endif
