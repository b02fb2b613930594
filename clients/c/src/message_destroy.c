/* Releases the rights of a message. */

#include <mach.h>
#include <stdbool.h>
#include <stddef.h>
#include <stdint.h>
#include <string.h>

static void destroy_made_send_once(mach_port_t name) {
    mach_port_t made;
    mach_msg_type_name_t type;
    if (mach_port_extract_right(mach_task_self(), name, MACH_MSG_TYPE_MAKE_SEND_ONCE, &made, &type) == KERN_SUCCESS) {
        mach_port_deallocate(mach_task_self(), made);
    }
}

/* Releases a right with this name and disposition. A right that was to be made is made and released, so that a port
   without senders sends its notice, as it would for a message that was destroyed in transit. */
static void destroy_right(mach_port_t name, mach_msg_type_name_t disposition) {
    if (!MACH_PORT_VALID(name)) {
        return;
    }
    switch (disposition) {
    case MACH_MSG_TYPE_MOVE_SEND:
    case MACH_MSG_TYPE_MOVE_SEND_ONCE:
        mach_port_deallocate(mach_task_self(), name);
        break;
    case MACH_MSG_TYPE_MOVE_RECEIVE:
        mach_port_mod_refs(mach_task_self(), name, MACH_PORT_RIGHT_RECEIVE, -1);
        break;
    case MACH_MSG_TYPE_MAKE_SEND:
        if (mach_port_insert_right(mach_task_self(), name, name, MACH_MSG_TYPE_MAKE_SEND) == KERN_SUCCESS) {
            mach_port_deallocate(mach_task_self(), name);
        }
        break;
    case MACH_MSG_TYPE_MAKE_SEND_ONCE:
        destroy_made_send_once(name);
        break;
    default: /* MACH_MSG_TYPE_COPY_SEND takes nothing, and other types aren't rights */
        break;
    }
}

/* An item of a body. */
struct item {
    mach_msg_type_name_t type;
    size_t data;  /* offset of its data */
    size_t count; /* elements */
    size_t end;   /* offset of the next item */
};

/* Reads the item at an offset of the body. Returns true if there is a whole one, with data in line. */
static bool read_item(const unsigned char *body, size_t length, size_t place, struct item *item) {
    mach_msg_type_long_t descriptor;
    if (length - place < sizeof descriptor.msgtl_header) {
        return false;
    }
    memcpy(&descriptor.msgtl_header, body + place, sizeof descriptor.msgtl_header);
    uint64_t bits = descriptor.msgtl_header.msgt_size;
    item->type = descriptor.msgtl_header.msgt_name;
    item->count = descriptor.msgtl_header.msgt_number;
    item->data = place + sizeof descriptor.msgtl_header;
    if (descriptor.msgtl_header.msgt_longform) {
        if (length - place < sizeof descriptor) {
            return false;
        }
        memcpy(&descriptor, body + place, sizeof descriptor);
        bits = descriptor.msgtl_size;
        item->type = descriptor.msgtl_name;
        item->count = descriptor.msgtl_number;
        item->data = place + sizeof descriptor;
    }
    uint64_t bytes = ((uint64_t) item->count * bits + 7) / 8;
    uint64_t padded = (bytes + 3) / 4 * 4;
    if (!descriptor.msgtl_header.msgt_inline || padded > length - item->data) {
        return false;
    }
    item->end = item->data + (size_t) padded;
    return !MACH_MSG_TYPE_PORT_ANY(item->type) || bits == 32;
}

static void destroy_body(const unsigned char *body, size_t length) {
    struct item item;
    for (size_t place = 0; place < length && read_item(body, length, place, &item); place = item.end) {
        if (!MACH_MSG_TYPE_PORT_ANY(item.type)) {
            continue;
        }
        for (size_t i = 0; i < item.count; i++) {
            mach_port_t name;
            memcpy(&name, body + item.data + i * sizeof name, sizeof name);
            destroy_right(name, item.type);
        }
    }
}

void mach_msg_destroy(mach_msg_header_t *msg) {
    if (msg == NULL) {
        return;
    }
    destroy_right(msg->msgh_remote_port, MACH_MSGH_BITS_REMOTE(msg->msgh_bits));
    if ((msg->msgh_bits & MACH_MSGH_BITS_COMPLEX) && msg->msgh_size > sizeof *msg) {
        destroy_body((const unsigned char *) msg + sizeof *msg, msg->msgh_size - sizeof *msg);
    }
}
