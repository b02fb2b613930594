/*
 * machrun [--keep] [--open] [--adopt] [--user NAME] SOCKET COMMAND..
 *
 * Runs a command as a task: with a space of its own, which is destroyed when the command has ended, however it ended.
 *
 * Without --open the command is confined to the space: it gets no path, and each of its connections comes from machrun,
 * attached to the space and confined there by the server. One connection isn't enough: each thread of the command needs
 * one of its own, so does each child that it forks, and all of them need new ones when the server was killed and
 * started again. So machrun runs a broker, which they ask for connections (broker.h).
 *
 * The command may destroy its space, and another space may then get the same number. machrun must neither give
 * connections to that space nor destroy it. So before the command starts, machrun makes a connection of its own that is
 * confined to the space, and can't act on any other. If that connection is lost, machrun recognises the space by the
 * name of its first right, which machipc_task_begin chose at random.
 */

#include "broker.h"
#include "child.h"

#include <machipc.h>

#include <errno.h>
#include <signal.h>
#include <stdbool.h>
#include <stdio.h>
#include <stdlib.h>
#include <string.h>
#include <sys/prctl.h>
#include <sys/wait.h>
#include <time.h>
#include <unistd.h>

static const char usage[] =
    "machrun [--keep] [--open] [--adopt] [--user NAME] SOCKET COMMAND..\n"
    "Makes a space on the server at SOCKET, runs the command confined to it, and destroys it when the command has ended.\n"
    "SOCKET is a path, or PATH1:PATH2: the first that leads to the server.\n"
    "With --keep a command that fails is started again in the same space, with --open it isn't confined, and with --user it\n"
    "runs as that user. With --adopt it gets the space that the environment names, which stays.\n";

static volatile sig_atomic_t command;     /* its process id, or 0 */
static volatile sig_atomic_t was_stopped; /* the signal that asked machrun to end, or 0 */

/* Passes a signal on to the command. machrun itself stays until the command has ended. */
static void hand_on(int number) {
    was_stopped = number;
    if (command != 0) {
        kill((pid_t) command, number);
    }
}

static const int handed_on[] = {SIGHUP, SIGINT, SIGTERM};
enum { HANDED_ON = sizeof handed_on / sizeof handed_on[0] };

/* Installs the handlers. A signal that machrun inherited as ignored, as under nohup, stays ignored, for the command
   too. */
static void handle_signals(void) {
    struct sigaction action = {.sa_handler = hand_on}, before;
    sigemptyset(&action.sa_mask);
    for (int i = 0; i < HANDED_ON; i++) {
        if (sigaction(handed_on[i], NULL, &before) == 0 && before.sa_handler != SIG_IGN) {
            sigaction(handed_on[i], &action, NULL);
        }
    }
    action.sa_handler = SIG_DFL;
    sigaction(SIGCHLD, &action, NULL); /* with an ignored SIGCHLD the command's status would be lost */
}

static void unhandle_signals(void) {
    struct sigaction action = {.sa_handler = SIG_DFL}, before;
    for (int i = 0; i < HANDED_ON; i++) {
        if (sigaction(handed_on[i], NULL, &before) == 0 && before.sa_handler == hand_on) {
            sigaction(handed_on[i], &action, NULL);
        }
    }
}

static bool was_cut(kern_return_t code) {
    return code == MACH_SEND_INTERRUPTED || code == MACH_RCV_INTERRUPTED;
}

static int fail(const char *what, kern_return_t code) {
    fprintf(stderr, "machrun: %s: %s\n", what, mach_error_string(code));
    return FAILED;
}

/* Returns true if the environment names a task on this server. */
static bool has_task(const char *socket) {
    const char *known = getenv("MACHIPC_SOCKET");
    return known != NULL && strcmp(known, socket) == 0 && getenv("MACHIPC_SPACE") != NULL;
}

/* The number of attempts to reach a server that was just lost, and the milliseconds between two of them. */
enum { TRIES = 300, PAUSE = 100 };

static void sleep_for(long milliseconds) {
    struct timespec time = {.tv_sec = milliseconds / 1000, .tv_nsec = milliseconds % 1000 * 1000000};
    nanosleep(&time, NULL);
}

/* Makes the command's space. If machrun itself runs as a task, it adopts that task's space, and the command gets a send
   right to the same bootstrap port. */
static kern_return_t begin_once(const char *socket, machipc_task_t *task) {
    if (!has_task(socket)) {
        kern_return_t code = machipc_connect(socket);
        return code == KERN_SUCCESS ? machipc_task_begin(MACH_PORT_NULL, MACH_MSG_TYPE_MOVE_RECEIVE, task) : code;
    }
    machipc_task_t own;
    mach_port_type_t type = 0;
    kern_return_t code = machipc_adopt(&own);
    if (code == KERN_SUCCESS) {
        code = mach_port_type(mach_task_self(), own.bootstrap, &type);
    }
    if (code != KERN_SUCCESS) {
        return code;
    }
    bool has_send_right = (type & MACH_PORT_TYPE_SEND) != 0;
    return machipc_task_begin(own.bootstrap, has_send_right ? MACH_MSG_TYPE_COPY_SEND : MACH_MSG_TYPE_MAKE_SEND, task);
}

/* Makes or adopts the command's space. A server that is lost meanwhile is waited for, since it may be starting again. A
   server that isn't there at first isn't waited for, unless the environment names a task on it. */
static kern_return_t begin(const char *socket, bool is_adopted, machipc_task_t *task) {
    kern_return_t code = has_task(socket) ? KERN_SUCCESS : machipc_connect(socket);
    for (int i = 0; i < TRIES && code == KERN_SUCCESS; i++) {
        kern_return_t begun = is_adopted ? machipc_adopt(task) : begin_once(socket, task);
        if (!was_cut(begun) || was_stopped) {
            return begun;
        }
        sleep_for(PAUSE);
    }
    return code == KERN_SUCCESS ? MACH_RCV_INTERRUPTED : code;
}

/* Connects machrun to the command's space, confined to it. */
static kern_return_t hold(const machipc_task_t *task) {
    kern_return_t code = MACH_SEND_INTERRUPTED;
    for (int i = 0; i < TRIES && was_cut(code); i++) {
        if (i > 0) {
            sleep_for(PAUSE);
        }
        code = machipc_attach(task->space);
        code = code == KERN_SUCCESS ? machipc_confine() : code;
    }
    if (code != KERN_SUCCESS) {
        machipc_task_end(task);
    }
    return code;
}

static kern_return_t look(mach_port_t name) {
    mach_port_type_t type;
    return mach_port_type(mach_task_self(), name, &type);
}

/* Makes sure that the space has the name by which machrun recognises it. The connection must be one that can't act on
   any other space. */
static kern_return_t mark(mach_port_t name) {
    kern_return_t code = look(name);
    return code == KERN_INVALID_NAME ? mach_port_allocate_name(mach_task_self(), MACH_PORT_RIGHT_DEAD_NAME, name) : code;
}

/*
 * Destroys the space of a confined command. On the first connection, that is the space that it is confined to, whatever
 * the command did there. If the connection was cut, it is the space that has the name; if the command gave up the name
 * before, the space can't be recognised, and it stays.
 */
static kern_return_t end_confined(const machipc_task_t *task) {
    kern_return_t code = mark(task->bootstrap);
    bool was_marked = code == KERN_SUCCESS;
    bool is_there = !was_cut(code) && code != KERN_INVALID_TASK; /* true even if it couldn't be marked */
    for (int i = 0; i < TRIES; i++) {
        if (is_there) {
            code = machipc_space_destroy();
        }
        if (!was_cut(code)) {
            bool is_gone = code == KERN_INVALID_TASK || (code == KERN_INVALID_NAME && was_marked);
            return is_gone ? KERN_SUCCESS : code;
        }
        sleep_for(PAUSE);
        code = look(task->bootstrap);
        is_there = code == KERN_SUCCESS;
        was_marked = was_marked || is_there;
    }
    return code;
}

/* Starts the command, and returns its process id. A signal between the fork and the assignment of `command` is passed
   on after it. If a signal came before, for example while the space was made, nothing is started, and 0 is returned. */
static pid_t start(const struct child *child) {
    sigset_t signals, before;
    sigemptyset(&signals);
    for (int i = 0; i < HANDED_ON; i++) {
        sigaddset(&signals, handed_on[i]);
    }
    sigprocmask(SIG_BLOCK, &signals, &before);
    pid_t process = was_stopped ? 0 : fork();
    if (process == 0 && !was_stopped) {
        unhandle_signals();
        sigprocmask(SIG_SETMASK, &before, NULL);
        child_run(child);
    }
    command = process > 0 ? process : 0;
    sigprocmask(SIG_SETMASK, &before, NULL);
    return process;
}

/* Waits for the command's end, and returns its status. */
static int wait_for(pid_t process) {
    int ended = 0;
    while (waitpid(process, &ended, 0) < 0 && errno == EINTR) {
    }
    command = 0;
    return WIFSIGNALED(ended) ? 128 + WTERMSIG(ended) : WEXITSTATUS(ended);
}

/* Starts the command, waits for its end and returns its status. Each start has a new pair of sockets, so that nothing
   that an earlier command did to its pair has an effect on this one. */
static int run_once(struct child *child, struct broker *broker, bool is_open) {
    if (!is_open && !broker_begin(broker)) {
        fprintf(stderr, "machrun: broker: %s\n", strerror(errno));
        return FAILED;
    }
    child->broker = broker->end_of_command;
    pid_t process = start(child);
    int error = errno;
    broker_was_given(broker);
    int status = FAILED;
    if (process > 0) {
        status = wait_for(process);
    } else if (process == 0) {
        status = 128 + was_stopped;
    } else {
        fprintf(stderr, "machrun: fork: %s\n", strerror(error));
    }
    broker_end(broker);
    return status;
}

/* Returns true if a command that ended with this status is started again. A command that couldn't be run at all
   isn't. */
static bool goes_on(bool is_kept, int status) {
    return is_kept && !was_stopped && status != 0 && status != FAILED && status != NOT_RUN && status != NOT_FOUND;
}

/* Waits for a second after a command that ended within one, so that it isn't started more often. */
static void pause_after(time_t began) {
    if (time(NULL) - began < 1) {
        sleep_for(1000);
    }
}

struct options {
    bool is_kept;
    bool is_open;
    bool is_adopted;    /* the space is the one that the environment names */
    const char *socket; /* the list of paths */
    struct child child;
};

static int run(struct options *options, machipc_task_t *task) {
    struct broker broker = {&options->child.paths, task->space, task->bootstrap, -1, 0};
    for (;;) {
        time_t began = time(NULL);
        if (machipc_task_export(task) != KERN_SUCCESS) {
            return fail("environment", KERN_RESOURCE_SHORTAGE);
        }
        int status = run_once(&options->child, &broker, options->is_open);
        if (!goes_on(options->is_kept, status)) {
            return status;
        }
        pause_after(began);
        if (was_stopped) {
            return status;
        }
        task->start++;
    }
}

/* Reads the command line. Returns false if it isn't a valid one. */
static bool read_options(char **words, struct options *options) {
    *options = (struct options){.child.broker = -1};
    while (*words != NULL && strncmp(*words, "--", 2) == 0) {
        const char *option = *words++;
        if (strcmp(option, "--keep") == 0) {
            options->is_kept = true;
        } else if (strcmp(option, "--open") == 0) {
            options->is_open = true;
        } else if (strcmp(option, "--adopt") == 0) {
            options->is_adopted = true;
        } else if (strcmp(option, "--user") == 0 && *words != NULL) {
            options->child.user = *words++;
        } else {
            return false;
        }
    }
    if (words[0] == NULL || words[1] == NULL || !paths_read(&options->child.paths, words[0])) {
        return false;
    }
    options->socket = words[0];
    options->child.words = words + 1;
    return true;
}

/* Returns true if machrun can do what the options ask for; otherwise a line on standard error says why not. */
static bool is_possible(struct options *options) {
    if (getenv("MACHIPC_FD") != NULL) {
        fprintf(stderr, "machrun: MACHIPC_FD is set: a confined task can't start tasks (machrun --open runs one that can)\n");
        return false;
    }
    if (options->is_adopted && !has_task(options->socket)) {
        fprintf(stderr, "machrun: --adopt: the environment has no task on %s\n", options->socket);
        return false;
    }
    return child_find_user(&options->child);
}

/* Makes the command's space, runs the command and destroys the space. Returns machrun's status. */
static int run_in_space(struct options *options) {
    machipc_task_t task;
    kern_return_t code = begin(options->socket, options->is_adopted, &task);
    if (code != KERN_SUCCESS) {
        return fail("no space", code);
    }
    for (int i = 0; i < TRIES && !child_find_sockets(&options->child) && !was_stopped; i++) {
        sleep_for(PAUSE);
    }
    if (options->is_adopted) {
        return run(options, &task);
    }
    code = options->is_open ? KERN_SUCCESS : hold(&task);
    if (code != KERN_SUCCESS) {
        return fail("the command can't be confined", code);
    }
    int status = run(options, &task);
    code = options->is_open ? machipc_task_end(&task) : end_confined(&task);
    return code == KERN_SUCCESS ? status : fail("the space was not destroyed", code);
}

int main(int count, char **words) {
    struct options options;
    if (count == 2 && strcmp(words[1], "--help") == 0) {
        return fputs(usage, stdout) < 0 || fflush(stdout) != 0;
    }
    if (!read_options(words + 1, &options)) {
        fprintf(stderr, "machrun: command line\n%s", usage);
        return FAILED;
    }
    if (!is_possible(&options)) {
        return FAILED;
    }
    /* No other process of the same user may read machrun's memory or take its connections. */
    prctl(PR_SET_DUMPABLE, 0, 0, 0, 0);
    handle_signals();
    return run_in_space(&options);
}
