/* mach_msg_server, with routines like those that the Mach Interface Generator makes. */

#include "check.h"

#include <pthread.h>
#include <string.h>

enum { ADD = 500, FAIL, ONE_WAY, BENT_REPLY, STOP, SIZE = 256 };

struct add_request {
    mach_msg_header_t head;
    mach_msg_type_t type;
    uint32_t numbers[2];
};

struct add_reply {
    mig_reply_header_t head;
    mach_msg_type_t type;
    uint32_t sum;
};

static const mach_msg_type_t word_type = {
    .msgt_name = MACH_MSG_TYPE_INTEGER_32,
    .msgt_size = 32,
    .msgt_number = 1,
    .msgt_inline = 1,
};

static mach_port_t service;
static int one_ways;

static void add(const struct add_request *request, struct add_reply *reply) {
    reply->type = word_type;
    reply->sum = request->numbers[0] + request->numbers[1];
    reply->head.RetCode = KERN_SUCCESS;
    reply->head.Head.msgh_size = sizeof *reply;
}

static boolean_t demux(mach_msg_header_t *request, mach_msg_header_t *reply) {
    mig_reply_header_t *made = (mig_reply_header_t *) reply;
    mig_reply_setup(request, reply);
    switch (request->msgh_id) {
    case ADD:
        add((struct add_request *) request, (struct add_reply *) reply);
        return TRUE;
    case FAIL:
        made->RetCode = KERN_FAILURE;
        return TRUE;
    case ONE_WAY:
        one_ways++;
        made->RetCode = MIG_NO_REPLY;
        return TRUE;
    case BENT_REPLY: /* larger than its buffer, with invalid items */
        made->RetCode = KERN_SUCCESS;
        reply->msgh_bits |= MACH_MSGH_BITS_COMPLEX;
        reply->msgh_size = 1000000;
        return TRUE;
    case STOP:
        made->RetCode = MIG_NO_REPLY;
        mach_port_destroy(SELF, service);
        return TRUE;
    default:
        return FALSE;
    }
}

static void *serve(void *nothing) {
    CHECK_CODE(mach_msg_server(demux, SIZE, service), MACH_RCV_INVALID_NAME);
    return nothing;
}

static mach_msg_return_t ask(struct add_request *request, mach_msg_id_t id, mach_port_t reply_port,
                             mach_msg_type_name_t reply_disposition, mach_msg_option_t option, mach_msg_size_t room) {
    request->head.msgh_bits = MACH_MSGH_BITS(MACH_MSG_TYPE_MAKE_SEND, reply_disposition);
    request->head.msgh_remote_port = service;
    request->head.msgh_local_port = reply_port;
    request->head.msgh_id = id;
    request->type = word_type;
    return mach_msg(&request->head, option, sizeof *request, room, reply_port, 0, MACH_PORT_NULL);
}

union exchange {
    struct add_request request;
    struct add_reply reply;
    unsigned char room[SIZE];
};

static void ask_and_check(mach_msg_id_t id, uint32_t number, kern_return_t code) {
    union exchange exchange = {.request = {.numbers = {number, number}}};
    mach_port_t port = mig_get_reply_port();
    CHECK_OK(ask(&exchange.request, id, port, MACH_MSG_TYPE_MAKE_SEND_ONCE, MACH_SEND_MSG | MACH_RCV_MSG, sizeof exchange));
    CHECK(exchange.reply.head.Head.msgh_id == id + 100);
    CHECK_CODE(exchange.reply.head.RetCode, code);
    if (code == KERN_SUCCESS) {
        CHECK(exchange.reply.head.Head.msgh_size == sizeof(struct add_reply) && exchange.reply.sum == 2 * number);
    }
}

/* Requests whose replies can't be sent: to a port that died, to a full queue, too large to be received, and invalid
   ones. */
static void unanswerable(void) {
    union exchange exchange = {.request = {.numbers = {1, 2}}};
    mach_port_t gone = check_port(), full = check_port();
    CHECK_OK(ask(&exchange.request, ADD, gone, MACH_MSG_TYPE_MAKE_SEND, MACH_SEND_MSG, 0));
    CHECK_OK(mach_port_destroy(SELF, gone));
    CHECK_OK(mach_port_set_qlimit(SELF, full, 0));
    CHECK_OK(ask(&exchange.request, ADD, full, MACH_MSG_TYPE_MAKE_SEND, MACH_SEND_MSG, 0));
    CHECK_OK(ask(&exchange.request, ADD, MACH_PORT_NULL, 0, MACH_SEND_MSG, 0));
    CHECK_OK(ask(&exchange.request, BENT_REPLY, full, MACH_MSG_TYPE_MAKE_SEND_ONCE, MACH_SEND_MSG, 0));

    unsigned char large[SIZE + 4] = {0};
    mach_msg_header_t head = {.msgh_bits = MACH_MSGH_BITS(MACH_MSG_TYPE_MAKE_SEND, 0), .msgh_remote_port = service};
    memcpy(large, &head, sizeof head);
    CHECK_OK(mach_msg((mach_msg_header_t *) large, MACH_SEND_MSG, sizeof large, 0, MACH_PORT_NULL, 0, MACH_PORT_NULL));
    ask_and_check(ADD, 5, KERN_SUCCESS);
    /* All requests above were answered, and no right of them is left. The invalid reply was destroyed with its
       send-once right, whose notice went to that right's port. */
    mach_port_status_t status = check_port_status(full);
    CHECK(!status.mps_srights && status.mps_sorights == 1 && status.mps_msgcount == 1);
    CHECK_OK(mach_port_destroy(SELF, full));
}

int main(int count, char **words) {
    pthread_t thread;
    union exchange exchange = {.request = {.numbers = {0, 0}}};
    service = check_begin(count, words);
    CHECK_CODE(mach_msg_server(demux, 8, service), MACH_RCV_TOO_LARGE);
    CHECK(pthread_create(&thread, NULL, serve, NULL) == 0);
    for (uint32_t i = 0; i < 50; i++) {
        ask_and_check(ADD, i, KERN_SUCCESS);
    }
    ask_and_check(FAIL, 1, KERN_FAILURE);
    ask_and_check(12345, 1, MIG_BAD_ID);
    CHECK_OK(ask(&exchange.request, ONE_WAY, MACH_PORT_NULL, 0, MACH_SEND_MSG, 0));
    unanswerable();
    ask_and_check(ADD, 7, KERN_SUCCESS);
    CHECK(one_ways == 1);
    CHECK_OK(ask(&exchange.request, STOP, MACH_PORT_NULL, 0, MACH_SEND_MSG, 0));
    pthread_join(thread, NULL);
    return check_end();
}
