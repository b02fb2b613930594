#include "purse.h"

#include <stdlib.h>

struct coin {
    mach_msg_header_t head;
    uint32_t words[COIN_LARGEST];
};

struct payment {
    mach_msg_header_t head;
    mach_msg_type_t type;
    mach_port_t purse;
};

kern_return_t purse_make(unsigned units, mach_port_t *purse) {
    kern_return_t code = mach_port_allocate(mach_task_self(), MACH_PORT_RIGHT_RECEIVE, purse);
    if (code != KERN_SUCCESS) {
        return code;
    }
    struct coin coin = {.head.msgh_bits = MACH_MSGH_BITS(MACH_MSG_TYPE_MAKE_SEND, 0)};
    coin.head.msgh_remote_port = *purse;
    mach_msg_size_t size = (mach_msg_size_t) (sizeof coin.head + units * sizeof coin.words[0]);
    return mach_msg(&coin.head, MACH_SEND_MSG, size, 0, MACH_PORT_NULL, 0, MACH_PORT_NULL);
}

kern_return_t purse_units(mach_port_t purse, unsigned *units) {
    /* There is only room for a header, so the coin stays in the queue, and the call returns its size. */
    mach_msg_header_t head = {0};
    mach_msg_option_t option = MACH_RCV_MSG | MACH_RCV_LARGE | MACH_RCV_TIMEOUT;
    kern_return_t code = mach_msg(&head, option, 0, sizeof head, purse, 0, MACH_PORT_NULL);
    if (code != MACH_RCV_TOO_LARGE) {
        return code == MACH_MSG_SUCCESS ? KERN_FAILURE : code;
    }
    *units = (unsigned) ((head.msgh_size - sizeof head) / sizeof(uint32_t));
    return KERN_SUCCESS;
}

kern_return_t purse_pay(mach_port_t purse, mach_port_t account) {
    struct payment payment = {.purse = purse};
    payment.head.msgh_bits = MACH_MSGH_BITS(MACH_MSG_TYPE_COPY_SEND, 0) | MACH_MSGH_BITS_COMPLEX;
    payment.head.msgh_remote_port = account;
    payment.head.msgh_id = PAYMENT;
    payment.type = (mach_msg_type_t){
        .msgt_name = MACH_MSG_TYPE_MOVE_RECEIVE,
        .msgt_size = 32,
        .msgt_number = 1,
        .msgt_inline = TRUE,
    };
    return mach_msg(&payment.head, MACH_SEND_MSG | MACH_SEND_TIMEOUT, sizeof payment, 0, MACH_PORT_NULL, 0, MACH_PORT_NULL);
}

kern_return_t purse_collect(mach_port_t account, mach_msg_timeout_t timeout) {
    struct payment payment;
    return mach_msg(&payment.head, MACH_RCV_MSG | MACH_RCV_TIMEOUT, 0, sizeof payment, account, timeout, MACH_PORT_NULL);
}

kern_return_t holdings_read(mach_port_t own_account, struct holdings *holdings) {
    mach_port_array_t names;
    mach_port_type_array_t types;
    mach_msg_type_number_t count, types_count;
    kern_return_t code = mach_port_names(mach_task_self(), &names, &count, &types, &types_count);
    if (code != KERN_SUCCESS) {
        return code;
    }
    *holdings = (struct holdings){.purses = calloc(count + 1, sizeof *names), .accounts = calloc(count + 1, sizeof *names)};
    bool is_done = holdings->purses != NULL && holdings->accounts != NULL;
    for (mach_msg_type_number_t i = 0; is_done && i < count; i++) {
        if (names[i] == own_account) {
            continue;
        }
        if (types[i] & MACH_PORT_TYPE_RECEIVE) {
            holdings->purses[holdings->purses_count++] = names[i];
        } else if (types[i] & MACH_PORT_TYPE_SEND) {
            holdings->accounts[holdings->accounts_count++] = names[i];
        }
    }
    free(names);
    free(types);
    return is_done ? KERN_SUCCESS : KERN_RESOURCE_SHORTAGE;
}

void holdings_free(struct holdings *holdings) {
    free(holdings->purses);
    free(holdings->accounts);
    *holdings = (struct holdings){0};
}
