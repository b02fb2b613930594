/*
 * Money that is never lost, whatever is killed.
 *
 * A purse is a port with one message in its queue, a coin, which is worth as many units as its body has words. Whoever
 * holds the purse's receive right has the money. A payment is one message that carries that right to an account, which
 * is a port too. It is one call, so the purse is in the payer's space, in the account's queue or in the payee's space,
 * and in only one of these. No process keeps money in its memory: an account has what its space holds.
 */

#ifndef PURSE_H
#define PURSE_H

#include <machipc.h>
#include <stdbool.h>
#include <stddef.h>

enum { COIN_LARGEST = 16, PAYMENT = 100 };

/* Makes a purse of so many units, at most COIN_LARGEST, in the caller's space. */
kern_return_t purse_make(unsigned units, mach_port_t *purse);

/* Returns the purse's units. The coin stays. */
kern_return_t purse_units(mach_port_t purse, unsigned *units);

/* Pays a purse into an account, which is a send right. Returns MACH_SEND_TIMED_OUT if the account's queue is full; then
   the payer keeps the purse. */
kern_return_t purse_pay(mach_port_t purse, mach_port_t account);

/* Takes one payment, or another right that was sent there, out of the account's queue and into the caller's space. It
   waits at most `timeout` milliseconds. */
kern_return_t purse_collect(mach_port_t account, mach_msg_timeout_t timeout);

/* The names of a space, by their purpose. */
struct holdings {
    mach_port_t *purses; /* receive rights other than the account's own */
    size_t purses_count;
    mach_port_t *accounts; /* send rights: to the accounts of others */
    size_t accounts_count;
};

/* Reads the names of the caller's space, without that of its own account. holdings_free frees the memory. */
kern_return_t holdings_read(mach_port_t own_account, struct holdings *holdings);
void holdings_free(struct holdings *holdings);

#endif
