/*
 * teller
 *
 * Works for one account, in the space that the environment names and that machrun confines it to: it pays the account's
 * purses to others, one at a time, and collects what they pay. It may be killed at any moment and started again, since
 * it has no state of its own: it reads from its space what it has to know. Its calls aren't numbered: a call whose
 * connection was cut was made or not, and either is right, since a payment is one call. It ends with status 0 after a
 * SIGTERM.
 */

#include "../begin.h"
#include "purse.h"

#include <signal.h>
#include <stdlib.h>
#include <time.h>
#include <unistd.h>

static volatile sig_atomic_t is_over;

static void end(int number) {
    (void) number;
    is_over = 1;
}

static size_t any_of(size_t count) {
    return (size_t) rand() % count;
}

/* Pays one purse and collects what is there. A call that was cut was made or not; the next round finds out. */
static void work(mach_port_t own_account) {
    struct holdings holdings;
    if (holdings_read(own_account, &holdings) != KERN_SUCCESS) {
        nanosleep(&(struct timespec){.tv_nsec = 10000000}, NULL);
        return;
    }
    if (holdings.purses_count > 0 && holdings.accounts_count > 0) {
        purse_pay(holdings.purses[any_of(holdings.purses_count)], holdings.accounts[any_of(holdings.accounts_count)]);
    }
    holdings_free(&holdings);
    purse_collect(own_account, 5);
}

int main(void) {
    machipc_task_t task;
    struct sigaction action = {.sa_handler = end};
    sigaction(SIGTERM, &action, NULL);
    srand((unsigned) getpid());
    if (adopt_task(&task) != KERN_SUCCESS) {
        return 1;
    }
    while (!is_over) {
        work(task.bootstrap);
    }
    return 0;
}
