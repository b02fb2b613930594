/* mach_msg: sending, receiving, refusals, and waiting. */

#include "check.h"

#include <stddef.h>
#include <string.h>

/* The layout is that of 32 bits on every machine. */
_Static_assert(sizeof(mach_msg_header_t) == 24, "a header is six words");
_Static_assert(sizeof(mach_msg_type_t) == 4 && sizeof(mach_msg_type_long_t) == 12, "descriptors are one word and three");
_Static_assert(sizeof(mig_reply_header_t) == 32, "a reply's code stands in its eighth word");
_Static_assert(sizeof(mach_port_destroyed_notification_t) == 32, "a notice has eight words");
_Static_assert(sizeof(mach_port_t) == 4 && sizeof(natural_t) == 4 && sizeof(integer_t) == 4, "numbers have 32 bits");

struct note {
    mach_msg_header_t head;
    uint32_t words[2];
};

/* A message with an item of one right, and one of bytes. */
struct carrier {
    mach_msg_header_t head;
    mach_msg_type_t port_type;
    mach_port_t port;
    mach_msg_type_long_t text_type;
    char text[8];
};

static struct note note_to(mach_port_t port, mach_msg_type_name_t disposition, mach_msg_id_t id) {
    struct note note = {.words = {0x11223344, 5}};
    note.head.msgh_bits = MACH_MSGH_BITS(disposition, 0);
    note.head.msgh_remote_port = port;
    note.head.msgh_id = id;
    return note;
}

static mach_msg_return_t send(mach_msg_header_t *message, mach_msg_size_t size) {
    return mach_msg(message, MACH_SEND_MSG | MACH_SEND_TIMEOUT, size, 0, MACH_PORT_NULL, 0, MACH_PORT_NULL);
}

static mach_msg_return_t receive(mach_msg_header_t *message, mach_msg_option_t more, mach_msg_size_t room, mach_port_t port) {
    return mach_msg(message, MACH_RCV_MSG | MACH_RCV_TIMEOUT | more, 0, room, port, 0, MACH_PORT_NULL);
}

static struct carrier carrier_of(mach_port_t to, mach_port_t port, mach_msg_type_name_t disposition) {
    struct carrier made = {.port = port, .text = "carried"};
    made.head.msgh_bits = MACH_MSGH_BITS(MACH_MSG_TYPE_MAKE_SEND, 0) | MACH_MSGH_BITS_COMPLEX;
    made.head.msgh_remote_port = to;
    made.port_type = (mach_msg_type_t){.msgt_name = disposition, .msgt_size = 32, .msgt_number = 1, .msgt_inline = 1};
    made.text_type.msgtl_header = (mach_msg_type_t){.msgt_inline = 1, .msgt_longform = 1};
    made.text_type.msgtl_name = MACH_MSG_TYPE_STRING_C;
    made.text_type.msgtl_size = 8;
    made.text_type.msgtl_number = sizeof made.text;
    return made;
}

static void plain(mach_port_t port) {
    struct note sent = note_to(port, MACH_MSG_TYPE_MAKE_SEND, 7), got;
    CHECK_OK(send(&sent.head, sizeof sent));
    memset(&got, 0, sizeof got);
    CHECK_OK(receive(&got.head, 0, sizeof got, port));
    CHECK(got.head.msgh_bits == MACH_MSGH_BITS(0, MACH_MSG_TYPE_PORT_SEND) && got.head.msgh_size == sizeof got);
    CHECK(got.head.msgh_local_port == port && got.head.msgh_remote_port == MACH_PORT_NULL && got.head.msgh_id == 7);
    CHECK(memcmp(got.words, sent.words, sizeof got.words) == 0);
    CHECK_CODE(receive(&got.head, 0, sizeof got, port), MACH_RCV_TIMED_OUT);
    CHECK_CODE(receive(&got.head, 0, sizeof got, 0x5555), MACH_RCV_INVALID_NAME);
    CHECK_OK(mach_msg(NULL, MACH_MSG_OPTION_NONE, 0, 0, 0, 0, 0));
    CHECK_CODE(mach_msg(NULL, MACH_SEND_MSG, 24, 0, 0, 0, 0), MACH_SEND_INVALID_DATA);
    CHECK_CODE(mach_msg(NULL, MACH_RCV_MSG, 0, 24, port, 0, 0), MACH_RCV_INVALID_DATA);
    CHECK_CODE(mach_msg(&got.head, MACH_RCV_MSG | MACH_RCV_NOTIFY, 0, sizeof got, port, 0, port), KERN_INVALID_ARGUMENT);
}

static void refused(mach_port_t port) {
    static unsigned char large[70000] __attribute__((aligned(4)));
    struct note sent = note_to(port, MACH_MSG_TYPE_MAKE_SEND, 0);
    CHECK_CODE(send(&sent.head, 20), MACH_SEND_MSG_TOO_SMALL);
    CHECK_CODE(send(&sent.head, 26), MACH_SEND_MSG_TOO_SMALL);
    memcpy(large, &sent, sizeof sent);
    CHECK_CODE(send((mach_msg_header_t *) large, 8196), MACH_SEND_NO_BUFFER);
    CHECK_CODE(send((mach_msg_header_t *) large, 65512), MACH_SEND_NO_BUFFER);
    CHECK_CODE(send((mach_msg_header_t *) large, 65516), MACH_SEND_NO_BUFFER);
    CHECK_CODE(send((mach_msg_header_t *) large, sizeof large), MACH_SEND_NO_BUFFER);
    CHECK_CODE(send((mach_msg_header_t *) large, MACH_MSG_SIZE_MAX), MACH_SEND_NO_BUFFER);
    sent.head.msgh_bits = MACH_MSGH_BITS(99, 0);
    CHECK_CODE(send(&sent.head, sizeof sent), MACH_SEND_INVALID_HEADER);
    sent.head.msgh_bits = MACH_MSGH_BITS(MACH_MSG_TYPE_COPY_SEND, 0);
    CHECK_CODE(send(&sent.head, sizeof sent), MACH_SEND_INVALID_DEST);
    sent.head.msgh_bits = MACH_MSGH_BITS(MACH_MSG_TYPE_MAKE_SEND, MACH_MSG_TYPE_COPY_SEND);
    sent.head.msgh_local_port = 0x5555;
    CHECK_CODE(send(&sent.head, sizeof sent), MACH_SEND_INVALID_REPLY);

    struct carrier carrier = carrier_of(port, port, MACH_MSG_TYPE_COPY_SEND);
    CHECK_CODE(send(&carrier.head, sizeof carrier), MACH_SEND_INVALID_RIGHT);
    carrier = carrier_of(port, port, MACH_MSG_TYPE_MAKE_SEND);
    carrier.text_type.msgtl_header.msgt_inline = 0;
    CHECK_CODE(send(&carrier.head, sizeof carrier), MACH_SEND_INVALID_MEMORY);
    carrier.text_type.msgtl_header = (mach_msg_type_t){.msgt_inline = 1, .msgt_longform = 1, .msgt_deallocate = 1};
    CHECK_CODE(send(&carrier.head, sizeof carrier), MACH_SEND_INVALID_TYPE);
    CHECK(check_port_status(port).mps_msgcount == 0);
}

static void too_large(mach_port_t port) {
    struct note sent = note_to(port, MACH_MSG_TYPE_MAKE_SEND, 9), got;
    memset(&got, 0x55, sizeof got);
    CHECK_OK(send(&sent.head, sizeof sent));
    CHECK_CODE(receive(&got.head, MACH_RCV_LARGE, sizeof got.head, port), MACH_RCV_TOO_LARGE);
    CHECK(got.head.msgh_size == sizeof sent && got.head.msgh_local_port == port && got.words[0] == 0x55555555);
    CHECK_CODE(receive(&got.head, MACH_RCV_LARGE, 0, port), MACH_RCV_TOO_LARGE);
    CHECK_OK(receive(&got.head, MACH_RCV_LARGE, sizeof got, port));
    CHECK_OK(send(&sent.head, sizeof sent));
    CHECK_CODE(receive(&got.head, 0, sizeof got.head, port), MACH_RCV_TOO_LARGE);
    CHECK_CODE(receive(&got.head, 0, sizeof got, port), MACH_RCV_TIMED_OUT);
}

static void rights_in_messages(mach_port_t port) {
    mach_port_t carried = check_port();
    struct carrier sent = carrier_of(port, carried, MACH_MSG_TYPE_MAKE_SEND), got;
    CHECK_OK(send(&sent.head, sizeof sent));
    CHECK_OK(receive(&got.head, 0, sizeof got, port));
    CHECK((got.head.msgh_bits & MACH_MSGH_BITS_COMPLEX) && got.port_type.msgt_name == MACH_MSG_TYPE_PORT_SEND);
    CHECK(got.port == carried && strcmp(got.text, "carried") == 0);
    CHECK(check_type(carried) == MACH_PORT_TYPE_SEND_RECEIVE);
    mach_msg_destroy(&got.head);
    CHECK(check_type(carried) == MACH_PORT_TYPE_RECEIVE);

    sent = carrier_of(port, carried, MACH_MSG_TYPE_MAKE_SEND_ONCE);
    sent.head.msgh_size = sizeof sent;
    mach_msg_destroy(&sent.head); /* never sent: the send-once right is made and given up, which causes a notice */
    CHECK(check_port_status(carried).mps_msgcount == 1);

    sent = carrier_of(port, carried, MACH_MSG_TYPE_MOVE_RECEIVE);
    CHECK_OK(send(&sent.head, sizeof sent));
    CHECK(check_type(carried) == MACH_PORT_TYPE_NONE);
    CHECK_OK(receive(&got.head, 0, sizeof got, port));
    CHECK(check_type(got.port) == MACH_PORT_TYPE_RECEIVE);
    mach_msg_destroy(&got.head);
    CHECK(check_type(got.port) == MACH_PORT_TYPE_NONE);
    mach_msg_destroy(NULL);
}

/* Invalid descriptors are ignored, and nothing after the end of the message is read. */
static void bent_bodies(void) {
    mach_port_t port = check_port();
    struct carrier bent = carrier_of(MACH_PORT_NULL, port, MACH_MSG_TYPE_MOVE_RECEIVE);
    bent.head.msgh_bits = MACH_MSGH_BITS_COMPLEX;
    bent.head.msgh_size = offsetof(struct carrier, port) + 3;
    mach_msg_destroy(&bent.head);
    bent.head.msgh_size = 0;
    mach_msg_destroy(&bent.head);
    bent.head.msgh_size = sizeof bent;
    bent.port_type.msgt_number = 4095;
    mach_msg_destroy(&bent.head);
    bent.port_type.msgt_number = 1;
    bent.port_type.msgt_size = 8;
    mach_msg_destroy(&bent.head);
    CHECK(check_type(port) == MACH_PORT_TYPE_RECEIVE);
    bent.port_type.msgt_size = 32;
    bent.text_type.msgtl_number = UINT32_MAX;
    bent.text_type.msgtl_size = UINT16_MAX;
    mach_msg_destroy(&bent.head);
    CHECK(check_type(port) == MACH_PORT_TYPE_NONE);
}

static void full_queue_and_both_halves(mach_port_t port) {
    mach_port_t other = check_port();
    struct note sent = note_to(port, MACH_MSG_TYPE_MAKE_SEND, 1);
    CHECK_OK(mach_port_set_qlimit(SELF, port, 1));
    CHECK_OK(send(&sent.head, sizeof sent));
    CHECK_CODE(send(&sent.head, sizeof sent), MACH_SEND_TIMED_OUT);
    CHECK_CODE(mach_msg(&sent.head, MACH_SEND_MSG | MACH_SEND_TIMEOUT, sizeof sent, 0, 0, 20, 0), MACH_SEND_TIMED_OUT);
    CHECK_OK(receive(&sent.head, 0, sizeof sent, port));
    CHECK_OK(mach_port_set_qlimit(SELF, port, MACH_PORT_QLIMIT_DEFAULT));

    sent = note_to(port, MACH_MSG_TYPE_MAKE_SEND, 2);
    CHECK_OK(mach_msg(&sent.head, MACH_SEND_MSG | MACH_RCV_MSG, sizeof sent, sizeof sent, port, 0, 0));
    CHECK(sent.head.msgh_id == 2 && sent.head.msgh_local_port == port);
    sent = note_to(port, MACH_MSG_TYPE_MAKE_SEND, 3);
    CHECK_CODE(mach_msg(&sent.head, MACH_SEND_MSG | MACH_RCV_MSG | MACH_RCV_TIMEOUT, sizeof sent, sizeof sent, other, 20, 0),
               MACH_RCV_TIMED_OUT);
    sent.head.msgh_bits = MACH_MSGH_BITS(MACH_MSG_TYPE_MOVE_SEND, 0);
    CHECK_CODE(mach_msg(&sent.head, MACH_SEND_MSG | MACH_RCV_MSG, sizeof sent, sizeof sent, other, 0, 0),
               MACH_SEND_INVALID_DEST);
    CHECK_OK(receive(&sent.head, 0, sizeof sent, port));
    CHECK_OK(mach_port_destroy(SELF, other));
}

static void notices(mach_port_t port) {
    mach_port_t watched = check_port(), previous;
    mach_dead_name_notification_t dead;
    mach_no_senders_notification_t none;
    CHECK_OK(mach_port_insert_right(SELF, watched, watched, MACH_MSG_TYPE_MAKE_SEND));
    CHECK_OK(mach_port_request_notification(SELF, watched, MACH_NOTIFY_NO_SENDERS, 0, port, MACH_MSG_TYPE_MAKE_SEND_ONCE,
                                            &previous));
    CHECK_OK(mach_port_deallocate(SELF, watched));
    CHECK_OK(receive(&none.not_header, 0, sizeof none, port));
    CHECK(none.not_header.msgh_id == MACH_NOTIFY_NO_SENDERS && none.not_count == 1);
    CHECK(none.not_type.msgt_name == MACH_MSG_TYPE_INTEGER_32);

    CHECK_OK(mach_port_insert_right(SELF, watched, watched, MACH_MSG_TYPE_MAKE_SEND));
    CHECK_OK(mach_port_request_notification(SELF, watched, MACH_NOTIFY_DEAD_NAME, 0, port, MACH_MSG_TYPE_MAKE_SEND_ONCE,
                                            &previous));
    CHECK_OK(mach_port_mod_refs(SELF, watched, MACH_PORT_RIGHT_RECEIVE, -1));
    CHECK_OK(receive(&dead.not_header, 0, sizeof dead, port));
    CHECK(dead.not_header.msgh_id == MACH_NOTIFY_DEAD_NAME && dead.not_port == watched);
    CHECK_OK(mach_port_mod_refs(SELF, watched, MACH_PORT_RIGHT_DEAD_NAME, -2));
    CHECK(check_type(watched) == MACH_PORT_TYPE_NONE);
}

int main(int count, char **words) {
    mach_port_t port = check_begin(count, words);
    plain(port);
    refused(port);
    too_large(port);
    rights_in_messages(port);
    bent_bodies();
    full_queue_and_both_halves(port);
    notices(port);
    return check_end();
}
