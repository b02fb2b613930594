#include "settings.h"

#include <pthread.h>
#include <string.h>

/* The bounds of settings_answer_time in milliseconds. */
enum { SHORTEST_ANSWER = PATHS_TIME, LONGEST_ANSWER = 10000 };

static pthread_mutex_t lock = PTHREAD_MUTEX_INITIALIZER;
static pthread_once_t prepared = PTHREAD_ONCE_INIT;
static struct settings shared = {.broker = -1, .space = MACHIPC_FIRST_SPACE, .patience = 30000};

/* A fork takes the lock first, so that the child's settings are consistent. */

static void before_fork(void) {
    pthread_mutex_lock(&lock);
}

static void after_fork_in_parent(void) {
    pthread_mutex_unlock(&lock);
}

/* Only one process at a time numbers the calls of a space, and that is the parent. The child's calls are refused
   instead of made without numbers, which would promise less. */
static void after_fork_in_child(void) {
    shared.is_refused = shared.is_refused || shared.is_once;
    shared.is_once = false;
    shared.generation++;
    pthread_mutex_unlock(&lock);
}

static void prepare(void) {
    pthread_atfork(before_fork, after_fork_in_parent, after_fork_in_child);
}

static void take_lock(void) {
    pthread_once(&prepared, prepare);
    pthread_mutex_lock(&lock);
}

struct settings settings_now(void) {
    take_lock();
    struct settings now = shared;
    pthread_mutex_unlock(&lock);
    return now;
}

uint32_t settings_answer_time(const struct settings *settings) {
    uint32_t third = settings->patience / 3;
    if (!settings->has_other_paths) {
        return CLOCK_FOR_EVER;
    }
    if (third < SHORTEST_ANSWER) {
        return SHORTEST_ANSWER;
    }
    return third < LONGEST_ANSWER ? third : LONGEST_ANSWER;
}

uint32_t settings_path_time(const struct settings *settings) {
    bool is_longer = !settings->has_other_paths && settings->patience > PATHS_TIME;
    return is_longer ? settings->patience : PATHS_TIME;
}

/* Uses another server. The choices for the former one are dropped. */
static void use(const char *paths, bool has_other_paths, int broker, machipc_space_t space) {
    take_lock();
    memset(shared.paths, 0, sizeof shared.paths);
    memcpy(shared.paths, paths, strlen(paths));
    shared.has_other_paths = has_other_paths;
    shared.broker = broker;
    shared.space = space;
    shared.is_confined = broker >= 0;
    shared.is_once = false;
    shared.is_refused = false;
    shared.generation++;
    pthread_mutex_unlock(&lock);
}

bool settings_use_server(const char *paths) {
    struct paths read;
    bool is_list = paths != NULL && paths_read(&read, paths);
    if (is_list) {
        use(paths, read.count > 1, -1, MACHIPC_FIRST_SPACE);
    }
    return is_list;
}

void settings_use_broker(int broker, machipc_space_t space, bool has_other_paths) {
    use("", has_other_paths, broker, space);
}

unsigned long settings_use_space(machipc_space_t space, bool is_once) {
    take_lock();
    if (space != shared.space) {
        shared.generation++;
    }
    shared.space = space;
    shared.is_once = is_once;
    shared.is_refused = false;
    unsigned long generation = shared.generation;
    pthread_mutex_unlock(&lock);
    return generation;
}

unsigned long settings_confine(machipc_space_t space) {
    take_lock();
    shared.space = space;
    shared.is_confined = true;
    shared.is_once = false;
    unsigned long generation = ++shared.generation;
    pthread_mutex_unlock(&lock);
    return generation;
}

bool settings_may_use(const struct settings *settings, machipc_space_t space) {
    return !settings->is_confined || settings->space == space;
}

void settings_use_patience(uint32_t milliseconds) {
    take_lock();
    shared.patience = milliseconds;
    pthread_mutex_unlock(&lock);
}
