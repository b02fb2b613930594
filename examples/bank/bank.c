/*
 * bank SECONDS MACHRUN TELLER
 *
 * Opens accounts with money, each in a space of its own, and runs the program TELLER for each of them, confined to that
 * space by MACHRUN. For the given time tellers are killed at random and started again; the server may be killed too.
 * Then the bank counts the money: no purse may be lost or exist twice. The status is 1 if one is or does. The bank
 * itself visits the spaces of its accounts, so it isn't confined.
 */

#include "../begin.h"
#include "purse.h"

#include <signal.h>
#include <stdio.h>
#include <stdlib.h>
#include <sys/wait.h>
#include <time.h>
#include <unistd.h>

enum { ACCOUNTS = 4, PURSES = 6, FIRST_RIGHTS = PURSES + ACCOUNTS - 1 };

struct account {
    machipc_task_t task;
    pid_t teller;
};

/* The totals of all accounts. Each account starts with one purse of each worth, from one unit to PURSES. */
struct count {
    unsigned units;
    unsigned purses[PURSES + 1]; /* by their worth */
    unsigned payments;
};

static const char *machrun, *program;

/* Ends the program if a call failed. */
static void must(kern_return_t code, const char *what) {
    if (code != KERN_SUCCESS) {
        fprintf(stderr, "bank: %s: %s\n", what, mach_error_string(code));
        exit(1);
    }
}

/* Sends a right to an account. It enters the teller's space when it is collected. */
static void give_right(mach_port_t account, mach_port_t right, mach_msg_type_name_t disposition) {
    struct {
        mach_msg_header_t head;
        mach_msg_type_t type;
        mach_port_t right;
    } message = {.right = right};
    message.head.msgh_bits = MACH_MSGH_BITS(MACH_MSG_TYPE_COPY_SEND, 0) | MACH_MSGH_BITS_COMPLEX;
    message.head.msgh_remote_port = account;
    message.type = (mach_msg_type_t){.msgt_name = disposition, .msgt_size = 32, .msgt_number = 1, .msgt_inline = TRUE};
    must(mach_msg(&message.head, MACH_SEND_MSG, sizeof message, 0, MACH_PORT_NULL, 0, MACH_PORT_NULL), "a right is given");
}

/* Opens the accounts. Each is a port whose receive right goes into a space of its own; the other accounts get send
   rights to it. */
static void open_accounts(struct account *accounts) {
    mach_port_t ports[ACCOUNTS];
    for (int i = 0; i < ACCOUNTS; i++) {
        must(mach_port_allocate(mach_task_self(), MACH_PORT_RIGHT_RECEIVE, &ports[i]), "an account");
        must(mach_port_set_qlimit(mach_task_self(), ports[i], FIRST_RIGHTS), "its queue");
        must(mach_port_insert_right(mach_task_self(), ports[i], ports[i], MACH_MSG_TYPE_MAKE_SEND), "its right");
    }
    for (int i = 0; i < ACCOUNTS; i++) {
        for (int other = 0; other < ACCOUNTS; other++) {
            if (other != i) {
                give_right(ports[i], ports[other], MACH_MSG_TYPE_COPY_SEND);
            }
        }
        for (unsigned units = 1; units <= PURSES; units++) {
            mach_port_t purse;
            must(purse_make(units, &purse), "a purse");
            give_right(ports[i], purse, MACH_MSG_TYPE_MOVE_RECEIVE);
        }
        must(machipc_task_begin(ports[i], MACH_MSG_TYPE_MOVE_RECEIVE, &accounts[i].task), "a space");
    }
    for (int i = 0; i < ACCOUNTS; i++) {
        must(mach_port_deallocate(mach_task_self(), ports[i]), "the bank's own right");
    }
}

static void start_teller(struct account *account) {
    account->teller = fork();
    if (account->teller == 0) {
        setpgid(0, 0); /* so that machrun and its teller are killed together */
        if (machipc_task_export(&account->task) == KERN_SUCCESS) {
            execl(machrun, machrun, "--adopt", getenv("MACHIPC_SOCKET"), program, (char *) NULL);
        }
        _exit(127);
    }
    setpgid(account->teller, account->teller);
    account->task.start++;
}

/* Kills tellers at random and starts them again. Returns the number of kills. */
static unsigned run_tellers(struct account *accounts, unsigned seconds) {
    time_t end = time(NULL) + seconds;
    unsigned killed = 0;
    for (int i = 0; i < ACCOUNTS; i++) {
        start_teller(&accounts[i]);
    }
    while (time(NULL) < end) {
        nanosleep(&(struct timespec){.tv_nsec = 50000000 + rand() % 200000000}, NULL);
        struct account *account = &accounts[rand() % ACCOUNTS];
        kill(-account->teller, SIGKILL);
        waitpid(account->teller, NULL, 0);
        start_teller(account);
        killed++;
    }
    for (int i = 0; i < ACCOUNTS; i++) {
        kill(accounts[i].teller, SIGTERM);
        waitpid(accounts[i].teller, NULL, 0);
    }
    return killed;
}

/* Collects what is left in an account's queue, and adds the purses of its space and the payments that it got to the
   totals. */
static void count_account(const struct account *account, struct count *count) {
    mach_port_t port = account->task.bootstrap;
    struct holdings holdings;
    mach_port_status_t status;
    kern_return_t code;
    must(machipc_once(account->task.space), "an account's space");
    while ((code = purse_collect(port, 0)) == KERN_SUCCESS) {
    }
    must(code == MACH_RCV_TIMED_OUT ? KERN_SUCCESS : code, "the last payments");
    must(mach_port_get_receive_status(mach_task_self(), port, &status), "an account's status");
    must(holdings_read(port, &holdings), "what an account has");
    for (size_t i = 0; i < holdings.purses_count; i++) {
        unsigned units = 0;
        must(purse_units(holdings.purses[i], &units), "a purse");
        count->units += units;
        count->purses[units <= PURSES ? units : 0]++;
    }
    holdings_free(&holdings);
    count->payments += status.mps_seqno - FIRST_RIGHTS;
}

/* Prints the totals. Returns true if no purse was lost or exists twice. */
static bool tell(const struct count *count, unsigned killed) {
    unsigned lost = 0, doubled = count->purses[0];
    for (unsigned units = 1; units <= PURSES; units++) {
        unsigned there = count->purses[units];
        lost += there < ACCOUNTS ? ACCOUNTS - there : 0;
        doubled += there > ACCOUNTS ? there - ACCOUNTS : 0;
    }
    printf("bank: %u payments, %u kills of tellers; %u units before, %u after; %u purses lost, %u doubled\n", count->payments,
           killed, ACCOUNTS * PURSES * (PURSES + 1) / 2, count->units, lost, doubled);
    return lost == 0 && doubled == 0;
}

int main(int words_count, char **words) {
    struct account accounts[ACCOUNTS];
    struct count count = {0};
    machipc_task_t task;
    if (words_count != 4) {
        fprintf(stderr, "bank SECONDS MACHRUN TELLER\n");
        return 2;
    }
    machrun = words[2];
    program = words[3];
    srand(1);
    must(begin_task(&task), "the bank's task");
    open_accounts(accounts);
    unsigned killed = run_tellers(accounts, seconds_of(words[1]));
    for (int i = 0; i < ACCOUNTS; i++) {
        count_account(&accounts[i], &count);
    }
    for (int i = 0; i < ACCOUNTS; i++) {
        must(machipc_task_end(&accounts[i].task), "an account's end");
    }
    return !tell(&count, killed);
}
