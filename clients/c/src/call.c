#include "call.h"

#include "clock.h"
#include "numbered.h"

#include <stdatomic.h>

static atomic_ulong repeats;

void call_count_repeat(void) {
    atomic_fetch_add(&repeats, 1);
}

unsigned long machipc_repeats(void) {
    return atomic_load(&repeats);
}

bool call_was_cut(kern_return_t code) {
    return code == MACH_SEND_INTERRUPTED || code == MACH_RCV_INTERRUPTED;
}

kern_return_t call_mismatch(struct connection *connection) {
    connection_close(connection);
    return MIG_REPLY_MISMATCH;
}

kern_return_t call_read(struct connection *connection, uint32_t number) {
    uint32_t found = frame_take(&connection->reply);
    uint32_t code = frame_take(&connection->reply);
    if (connection->reply.is_bad || found != number) {
        return call_mismatch(connection);
    }
    return (kern_return_t) code;
}

static kern_return_t exchange_repeated(struct connection *connection, const struct settings *settings) {
    struct clock_wait patience;
    bool was_out = false;
    for (bool is_again = false;; is_again = true) {
        kern_return_t code = connection_exchange(connection, settings, 0);
        if (!call_was_cut(code)) {
            if (is_again) {
                call_count_repeat();
            }
            return code;
        }
        if (!is_again) {
            patience = clock_wait_for(settings->patience); /* which begins with the first loss */
        }
        was_out = was_out || code == MACH_RCV_INTERRUPTED;
        if (!clock_wait_pause(&patience)) {
            return was_out ? MACH_RCV_INTERRUPTED : MACH_SEND_INTERRUPTED;
        }
    }
}

kern_return_t call_repeated(struct connection *connection, const struct settings *settings, uint32_t number) {
    kern_return_t code = exchange_repeated(connection, settings);
    return code == KERN_SUCCESS ? call_read(connection, number) : code;
}

kern_return_t call_make(struct connection *connection, const struct settings *settings, uint32_t number) {
    if (settings->is_once) {
        return numbered_has(number) ? numbered_make(connection, settings, number)
                                    : call_repeated(connection, settings, number);
    }
    kern_return_t code = connection_exchange(connection, settings, 0);
    return code == KERN_SUCCESS ? call_read(connection, number) : code;
}

kern_return_t call_words(uint32_t number, const uint32_t *arguments, size_t count, uint32_t *results, size_t wanted) {
    struct connection *connection = connection_of_thread();
    if (connection == NULL) {
        return KERN_RESOURCE_SHORTAGE;
    }
    struct settings settings = settings_now();
    frame_begin(&connection->call, number);
    for (size_t i = 0; i < count; i++) {
        frame_put(&connection->call, arguments[i]);
    }
    kern_return_t code = call_make(connection, &settings, number);
    if (code != KERN_SUCCESS) {
        return code;
    }
    if (frame_left(&connection->reply) != 4 * wanted) {
        return call_mismatch(connection);
    }
    for (size_t i = 0; i < wanted; i++) {
        results[i] = frame_take(&connection->reply);
    }
    return KERN_SUCCESS;
}

kern_return_t call_of_task(mach_port_t task, uint32_t number, const uint32_t *arguments, size_t count, uint32_t *results,
                           size_t wanted) {
    if (task != mach_task_self()) {
        return KERN_INVALID_TASK;
    }
    return call_words(number, arguments, count, results, wanted);
}
