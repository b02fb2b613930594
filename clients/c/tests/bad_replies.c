/* Tests the library against a server that sends invalid replies or goes away: each call returns a code. The test
   program makes that server itself. */

#include "check.h"

#include <pthread.h>
#include <stdio.h>
#include <stdlib.h>
#include <string.h>
#include <sys/socket.h>
#include <sys/un.h>
#include <unistd.h>

/* The bytes that the server sends after each frame. Then it closes the connection, or leaves it open. */
static unsigned char answer[70000];
static size_t answer_length;
static bool ends;
static int listener;

/* The reply to attach, by which each connection begins. */
static const unsigned char attached[12] = {8};

static void read_frame(int peer) {
    unsigned char bytes[4];
    static unsigned char rest[70000];
    if (recv(peer, bytes, sizeof bytes, MSG_WAITALL) == (ssize_t) sizeof bytes) {
        size_t length = bytes[0] | (size_t) bytes[1] << 8 | (size_t) bytes[2] << 16;
        recv(peer, rest, length, MSG_WAITALL);
    }
}

/* Accepts one connection after the other, attaches it, answers one frame and waits until the client closes it. */
static void *be_server(void *nothing) {
    for (;;) {
        char end;
        int peer = accept(listener, NULL, NULL);
        if (peer < 0) {
            return nothing;
        }
        read_frame(peer);
        send(peer, attached, sizeof attached, MSG_NOSIGNAL);
        read_frame(peer);
        send(peer, answer, answer_length, MSG_NOSIGNAL);
        if (ends) {
            shutdown(peer, SHUT_WR);
        }
        while (recv(peer, &end, 1, 0) > 0) {
        }
        close(peer);
    }
}

static void put(uint32_t word) {
    for (int i = 0; i < 4; i++) {
        answer[answer_length++] = (unsigned char) (word >> 8 * i);
    }
}

/* Prepares a reply of these words, of which the first is the frame's length, for a new connection. */
#define ANSWER(is_end, ...) prepare(is_end, (const uint32_t[]){__VA_ARGS__}, sizeof((const uint32_t[]){__VA_ARGS__}) / 4)

static char path[64];

static void prepare(bool is_end, const uint32_t *words, size_t count) {
    answer_length = 0;
    for (size_t i = 0; i < count; i++) {
        put(words[i]);
    }
    ends = is_end;
    CHECK_OK(machipc_connect(path));
}

static void words_of_calls(void) {
    mach_port_t name = 0xabc;
    ANSWER(false, 12, 5, 0, 0x100);
    CHECK_OK(mach_port_allocate(SELF, MACH_PORT_RIGHT_RECEIVE, &name));
    CHECK(name == 0x100);
    name = 0xabc;
    ANSWER(false, 12, 6, 0, 0x100); /* another call's number */
    CHECK_CODE(mach_port_allocate(SELF, MACH_PORT_RIGHT_RECEIVE, &name), MIG_REPLY_MISMATCH);
    ANSWER(false, 8, 5, 0); /* no name */
    CHECK_CODE(mach_port_allocate(SELF, MACH_PORT_RIGHT_RECEIVE, &name), MIG_REPLY_MISMATCH);
    ANSWER(false, 16, 5, 0, 1, 2); /* two names */
    CHECK_CODE(mach_port_allocate(SELF, MACH_PORT_RIGHT_RECEIVE, &name), MIG_REPLY_MISMATCH);
    ANSWER(false, 4, 5); /* no code */
    CHECK_CODE(mach_port_allocate(SELF, MACH_PORT_RIGHT_RECEIVE, &name), MIG_REPLY_MISMATCH);
    ANSWER(false, 3, 5); /* impossible lengths */
    CHECK_CODE(mach_port_allocate(SELF, MACH_PORT_RIGHT_RECEIVE, &name), MACH_RCV_INTERRUPTED);
    ANSWER(false, 65533, 5, 0, 1);
    CHECK_CODE(mach_port_allocate(SELF, MACH_PORT_RIGHT_RECEIVE, &name), MACH_RCV_INTERRUPTED);
    ANSWER(true, 12, 5, 0); /* cut within the reply */
    CHECK_CODE(mach_port_allocate(SELF, MACH_PORT_RIGHT_RECEIVE, &name), MACH_RCV_INTERRUPTED);
    ANSWER(true, 12);
    answer_length = 0; /* cut before the reply */
    CHECK_CODE(mach_port_allocate(SELF, MACH_PORT_RIGHT_RECEIVE, &name), MACH_RCV_INTERRUPTED);
    CHECK(name == 0xabc);
}

static void lists(void) {
    mach_port_array_t names;
    mach_port_type_array_t types;
    mach_msg_type_number_t count, types_count;
    ANSWER(false, 12, 1, 0, 0);
    CHECK_OK(mach_port_names(SELF, &names, &count, &types, &types_count));
    free(names);
    free(types);
    ANSWER(false, 20, 1, 0, 2, 1, 1); /* fewer than it says */
    CHECK_CODE(mach_port_names(SELF, &names, &count, &types, &types_count), MIG_REPLY_MISMATCH);
    ANSWER(false, 20, 1, 0, 0x20000001, 1, 1); /* more than 32 bits count */
    CHECK_CODE(mach_port_names(SELF, &names, &count, &types, &types_count), MIG_REPLY_MISMATCH);
    ANSWER(false, 12, 14, 0, UINT32_MAX);
    CHECK_CODE(mach_port_get_set_status(SELF, 1, &names, &count), MIG_REPLY_MISMATCH);
    ANSWER(false, 8, 14, 0);
    CHECK_CODE(mach_port_get_set_status(SELF, 1, &names, &count), MIG_REPLY_MISMATCH);
}

static mach_msg_return_t receive(mach_msg_header_t *message) {
    return mach_msg(message, MACH_RCV_MSG, 0, sizeof *message, 0x100, 0, MACH_PORT_NULL);
}

static void messages(void) {
    mach_msg_header_t message = {0};
    ANSWER(false, 40, 19, 0, 24, 0x100, 0x1100, 24, 0, 0x100, 0, 7);
    CHECK_OK(receive(&message));
    CHECK(message.msgh_id == 7);
    ANSWER(false, 44, 19, 0, 28, 0x100, 0x1100, 28, 0, 0x100, 0, 7, 8); /* more words than were asked for */
    CHECK_CODE(receive(&message), MIG_REPLY_MISMATCH);
    ANSWER(false, 40, 19, 0, 28, 0x100, 0x1100, 28, 0, 0x100, 0, 7); /* fewer words than it says */
    CHECK_CODE(receive(&message), MIG_REPLY_MISMATCH);
    ANSWER(false, 16, 19, 0, 0, 0); /* none, with success */
    CHECK_CODE(receive(&message), MIG_REPLY_MISMATCH);
    ANSWER(false, 8, 19, 0);
    CHECK_CODE(receive(&message), MIG_REPLY_MISMATCH);
    ANSWER(false, 20, 19, MACH_RCV_TIMED_OUT, 0, 0, 1);
    CHECK_CODE(receive(&message), MIG_REPLY_MISMATCH);
    ANSWER(false, 16, 19, 0x7fffffff, 0, 0); /* an unknown code is passed on */
    CHECK_CODE(receive(&message), 0x7fffffff);
    ANSWER(true, 16);
    CHECK_CODE(receive(&message), MACH_RCV_INTERRUPTED);
    ANSWER(true, 16);
    CHECK_CODE(mach_msg(&message, MACH_SEND_MSG, 24, 0, 0, 0, 0), MACH_SEND_INTERRUPTED);
    ANSWER(true, 16);
    CHECK_CODE(mach_msg(&message, MACH_SEND_MSG | MACH_RCV_MSG, 24, 24, 0x100, 0, 0), MACH_RCV_INTERRUPTED);
}

/* Returns a random word: often 0 or a small number, otherwise any number. */
static uint32_t word_by_chance(void) {
    if (rand() % 2) {
        return 0;
    }
    return rand() % 2 ? (uint32_t) rand() % 64 : (uint32_t) rand();
}

/* Answers at random: whatever the reply, the call returns, and nothing is read or written out of bounds. */
static void at_random(void) {
    srand(7);
    for (int i = 0; i < 2000; i++) {
        unsigned char buffer[64];
        mach_port_array_t names;
        mach_port_type_array_t types;
        mach_msg_type_number_t count, types_count;
        uint32_t length = (uint32_t) rand() % 100;
        answer_length = 0;
        put(rand() % 4 ? length : (uint32_t) rand());
        put(rand() % 2 ? 19 : 1);
        for (uint32_t at = 4; at < length; at += 4) {
            put(word_by_chance());
        }
        ends = true;
        machipc_connect(path);
        if (rand() % 2) {
            mach_msg((mach_msg_header_t *) (void *) buffer, MACH_RCV_MSG, 0, (mach_msg_size_t) rand() % 65, 1, 0, 0);
        } else if (mach_port_names(SELF, &names, &count, &types, &types_count) == KERN_SUCCESS) {
            free(names);
            free(types);
        }
    }
}

/* The server doesn't accept connections any more. */
static void gone(void) {
    mach_port_t name;
    mach_msg_header_t message = {0};
    unlink(path);
    CHECK_CODE(machipc_connect(path), MACH_SEND_INTERRUPTED);
    CHECK_CODE(mach_port_allocate(SELF, MACH_PORT_RIGHT_RECEIVE, &name), MACH_SEND_INTERRUPTED);
    CHECK_CODE(receive(&message), MACH_RCV_INTERRUPTED);
    CHECK_CODE(mach_msg(&message, MACH_SEND_MSG | MACH_RCV_MSG, 24, 24, 1, 0, 0), MACH_SEND_INTERRUPTED);
    CHECK(mach_reply_port() == MACH_PORT_NULL && mig_get_reply_port() == MACH_PORT_NULL);
    CHECK_CODE(machipc_space_destroy(), MACH_SEND_INTERRUPTED);
    machipc_set_patience(20);
    CHECK_CODE(machipc_once(1), MACH_SEND_INTERRUPTED);
}

int main(void) {
    struct sockaddr_un address = {.sun_family = AF_UNIX};
    pthread_t server;
    snprintf(path, sizeof path, "/tmp/machipc-bad-%ld", (long) getpid());
    strcpy(address.sun_path, path);
    unlink(path);
    listener = socket(AF_UNIX, SOCK_STREAM, 0);
    if (bind(listener, (struct sockaddr *) &address, sizeof address) != 0 || listen(listener, 10) != 0) {
        return 2;
    }
    pthread_create(&server, NULL, be_server, NULL);
    words_of_calls();
    lists();
    messages();
    at_random();
    gone();
    return check_status();
}
