#include "numbered.h"

#include "call.h"
#include "settings.h"

#include <pthread.h>

/* Held during a request: a space keeps only its last request, so each is answered before the next is made, by any
   thread. */
static pthread_mutex_t turn = PTHREAD_MUTEX_INITIALIZER;
static pthread_once_t prepared = PTHREAD_ONCE_INIT;
static uint32_t last_request;            /* the greatest number that was used in the space */
static unsigned long request_generation; /* generation of the settings by which that space is used */

/* In a child of fork no thread holds the lock. */
static void after_fork_in_child(void) {
    pthread_mutex_init(&turn, NULL);
}

static void prepare(void) {
    pthread_atfork(NULL, NULL, after_fork_in_child);
}

bool numbered_has(uint32_t number) {
    return (number >= CALL_RENAME && number <= CALL_DEALLOCATE) || (number >= CALL_MOD_REFS && number <= CALL_SET_SEQNO) ||
           (number >= CALL_MOVE_MEMBER && number <= CALL_SPACE_CREATE);
}

/* The outcome of a request: its own code and, if that is KERN_SUCCESS, the code of the call in it. */
struct answer {
    kern_return_t own;
    kern_return_t inner;
};

/* Makes the request whose frame is in connection->call. */
static struct answer ask(struct connection *connection, const struct settings *settings, uint32_t request, uint32_t number) {
    struct answer answer = {.own = call_repeated(connection, settings, CALL_NUMBERED)};
    if (answer.own != KERN_SUCCESS) {
        return answer;
    }
    uint32_t found_request = frame_take(&connection->reply);
    uint32_t found_number = frame_take(&connection->reply);
    answer.inner = (kern_return_t) frame_take(&connection->reply);
    if (connection->reply.is_bad || found_request != request || found_number != number) {
        answer.own = call_mismatch(connection);
    }
    return answer;
}

/*
 * Finds out if a request with this number would be a new one. The request destroys MACH_PORT_NULL, which is refused as
 * a new request, and then changes nothing and keeps no number; no request that was done has that reply. An older number
 * is refused itself; the last one is answered with the reply to its call, or as another call.
 */
static kern_return_t is_new(struct connection *connection, const struct settings *settings, uint32_t request, bool *found) {
    frame_begin(&connection->call, CALL_NUMBERED);
    frame_put(&connection->call, request);
    frame_put(&connection->call, CALL_DESTROY);
    frame_put(&connection->call, MACH_PORT_NULL);
    struct answer answer = ask(connection, settings, request, CALL_DESTROY);
    *found = answer.own == KERN_SUCCESS && answer.inner == KERN_INVALID_NAME;
    bool is_told = answer.own == KERN_SUCCESS || answer.own == KERN_INVALID_VALUE || answer.own == KERN_INVALID_ARGUMENT;
    return is_told ? KERN_SUCCESS : answer.own;
}

/* Searches for the greatest number that the space has used, on a server that can't be asked for it. KERN_INVALID_ARGUMENT:
   all are used, or the server has no such requests. */
static kern_return_t search_last(struct connection *connection, const struct settings *settings, uint32_t *last) {
    bool found;
    kern_return_t code = is_new(connection, settings, UINT32_MAX, &found);
    if (code != KERN_SUCCESS) {
        return code;
    }
    if (!found) {
        return KERN_INVALID_ARGUMENT;
    }
    uint32_t used = 0, unused = UINT32_MAX;
    while (unused - used > 1) {
        uint32_t middle = used + (unused - used) / 2;
        code = is_new(connection, settings, middle, &found);
        if (code != KERN_SUCCESS) {
            return code;
        }
        if (found) {
            unused = middle;
        } else {
            used = middle;
        }
    }
    *last = used;
    return KERN_SUCCESS;
}

/* Asks for the same number. KERN_INVALID_ARGUMENT: the server has an older version. */
static kern_return_t ask_last(struct connection *connection, const struct settings *settings, uint32_t *last) {
    frame_begin(&connection->call, CALL_LAST_REQUEST);
    kern_return_t code = call_repeated(connection, settings, CALL_LAST_REQUEST);
    if (code != KERN_SUCCESS) {
        return code;
    }
    *last = frame_take(&connection->reply);
    frame_take(&connection->reply); /* the number of the call in that request */
    return connection->reply.is_bad || frame_left(&connection->reply) > 0 ? call_mismatch(connection) : KERN_SUCCESS;
}

/* Finds the greatest number that the space has used, or 0 if there is none. KERN_INVALID_ARGUMENT: all are used, or the
   server has no numbered requests. */
static kern_return_t find_last(struct connection *connection, const struct settings *settings, uint32_t *last) {
    kern_return_t code = ask_last(connection, settings, last);
    if (code == KERN_INVALID_ARGUMENT) {
        code = search_last(connection, settings, last);
    }
    bool is_full = code == KERN_SUCCESS && *last >= UINT32_MAX - 1;
    return is_full ? KERN_INVALID_ARGUMENT : code;
}

/* Handles a number that is too low, or that another call has: a second process uses the space. The outcome of its call
   before the loss can't be found out any more. */
static kern_return_t overtaken(struct connection *connection, const struct settings *settings) {
    find_last(connection, settings, &last_request);
    return MACH_RCV_INTERRUPTED;
}

static kern_return_t ask_next(struct connection *connection, const struct settings *settings, uint32_t number) {
    if (request_generation != settings->generation) {
        return MACH_SEND_INTERRUPTED; /* another thread moved to another space meanwhile */
    }
    if (last_request == UINT32_MAX) {
        return KERN_RESOURCE_SHORTAGE;
    }
    uint32_t request = last_request + 1;
    frame_put_in_front(&connection->call, CALL_NUMBERED, request);
    if (connection->call.is_bad) {
        return KERN_RESOURCE_SHORTAGE;
    }
    struct answer answer = ask(connection, settings, request, number);
    if (answer.own == KERN_INVALID_VALUE || answer.own == KERN_INVALID_ARGUMENT) {
        return overtaken(connection, settings);
    }
    /* A wait for room or for a message is refused often, and would use numbers up; such a refusal keeps none. */
    bool is_free = answer.own == KERN_SUCCESS && (answer.inner == MACH_SEND_TIMED_OUT || answer.inner == MACH_RCV_TIMED_OUT);
    if (!is_free) {
        last_request = request;
    }
    return answer.own == KERN_SUCCESS ? answer.inner : answer.own;
}

kern_return_t numbered_make(struct connection *connection, const struct settings *settings, uint32_t number) {
    pthread_mutex_lock(&turn);
    kern_return_t code = ask_next(connection, settings, number);
    pthread_mutex_unlock(&turn);
    return code;
}

kern_return_t machipc_once(machipc_space_t space) {
    struct connection *connection = connection_of_thread();
    if (connection == NULL) {
        return KERN_RESOURCE_SHORTAGE;
    }
    pthread_once(&prepared, prepare);
    pthread_mutex_lock(&turn);
    struct settings wanted = settings_now();
    bool may_use = settings_may_use(&wanted, space);
    wanted.space = space;
    wanted.is_refused = false;
    connection_close(connection);
    uint32_t last = 0;
    kern_return_t code = may_use ? find_last(connection, &wanted, &last) : KERN_NO_ACCESS;
    if (code == KERN_SUCCESS) {
        /* The next number is left to a request that an earlier process may still have on its way to the server. It had
           at most one, and whenever that arrives its number belongs to another call or is too old. */
        last_request = last + 1;
        request_generation = settings_use_space(space, true);
        connection->generation = request_generation;
    } else {
        connection_close(connection);
    }
    pthread_mutex_unlock(&turn);
    return code;
}
