/* Calls by their numbers. Each is made once, again after a lost connection, or as a numbered request. */

#ifndef MACHIPC_CALL_H
#define MACHIPC_CALL_H

#include "connection.h"

#include <machipc.h>

enum {
    CALL_ATTACH = 0,
    CALL_NAMES = 1,
    CALL_TYPE = 2,
    CALL_RENAME = 3,
    CALL_ALLOCATE_NAME = 4,
    CALL_ALLOCATE = 5,
    CALL_DESTROY = 6,
    CALL_DEALLOCATE = 7,
    CALL_GET_REFS = 8,
    CALL_MOD_REFS = 9,
    CALL_SET_QLIMIT = 10,
    CALL_SET_MSCOUNT = 11,
    CALL_SET_SEQNO = 12,
    CALL_GET_RECEIVE_STATUS = 13,
    CALL_GET_SET_STATUS = 14,
    CALL_MOVE_MEMBER = 15,
    CALL_REQUEST_NOTIFICATION = 16,
    CALL_INSERT_RIGHT = 17,
    CALL_EXTRACT_RIGHT = 18,
    CALL_MACH_MSG = 19,
    CALL_SPACE_CREATE = 20,
    CALL_SPACE_DESTROY = 21,
    CALL_NUMBERED = 22,
    CALL_CONFINE = 23,
    CALL_LAST_REQUEST = 24
};

/* Returns true if the code says that the connection was lost, or that there is none. */
bool call_was_cut(kern_return_t code);

/* Reads the number and the code of the reply. MIG_REPLY_MISMATCH: the number isn't this one. */
kern_return_t call_read(struct connection *connection, uint32_t number);

/* Returns the code for a frame that is no reply to the call. The connection ends, because it may be out of step. */
kern_return_t call_mismatch(struct connection *connection);

/* Counts a call that was repeated (machipc_repeats). */
void call_count_repeat(void);

/* Makes the call with this number in connection->call, again after each loss, within the settings' patience. The reply
   is read up to its results. */
kern_return_t call_repeated(struct connection *connection, const struct settings *settings, uint32_t number);

/* Makes the call with this number in connection->call in the settings' mode. */
kern_return_t call_make(struct connection *connection, const struct settings *settings, uint32_t number);

/* Makes a whole call whose arguments and results are words, with exactly `wanted` results. */
kern_return_t call_words(uint32_t number, const uint32_t *arguments, size_t count, uint32_t *results, size_t wanted);

/* The same for a mach_port call, which has a task. */
kern_return_t call_of_task(mach_port_t task, uint32_t number, const uint32_t *arguments, size_t count, uint32_t *results,
                           size_t wanted);

/* A list of words as two arguments: the words and their number. */
#define WORDS(...) (const uint32_t[]){__VA_ARGS__}, sizeof((const uint32_t[]){__VA_ARGS__}) / sizeof(uint32_t)

/* A call that has no results. */
#define NO_RESULTS NULL, 0

#endif
