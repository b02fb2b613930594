#include "check.h"

#include <pthread.h>
#include <stdio.h>
#include <stdlib.h>

static pthread_mutex_t lock = PTHREAD_MUTEX_INITIALIZER;
static int checks, failures;

static void counted(bool is_as_wanted) {
    pthread_mutex_lock(&lock);
    checks++;
    if (!is_as_wanted) {
        failures++;
    }
    pthread_mutex_unlock(&lock);
}

void check(bool is_as_wanted, const char *file, int line, const char *what) {
    counted(is_as_wanted);
    if (!is_as_wanted) {
        fprintf(stderr, "%s:%d: %s\n", file, line, what);
    }
}

void check_code(kern_return_t code, kern_return_t wanted, const char *file, int line, const char *what) {
    counted(code == wanted);
    if (code != wanted) {
        fprintf(stderr, "%s:%d: %s is %s (%#x) and not %s\n", file, line, what, mach_error_string(code), (unsigned) code,
                mach_error_string(wanted));
    }
}

mach_port_t check_begin(int count, char **words) {
    machipc_task_t task = {0};
    if (count != 2 || machipc_connect(words[1]) != KERN_SUCCESS) {
        fprintf(stderr, "%s: no server\n", words[0]);
        exit(2);
    }
    CHECK_OK(machipc_task_begin(MACH_PORT_NULL, 0, &task));
    CHECK_OK(machipc_attach(task.space));
    return task.bootstrap;
}

int check_end(void) {
    CHECK_OK(machipc_space_destroy());
    return check_status();
}

int check_status(void) {
    printf("%d checks, %d failed\n", checks, failures);
    return failures != 0;
}

long check_number(const char *word) {
    char *end;
    long number = strtol(word, &end, 10);
    if (*word == '\0' || *end != '\0') {
        fprintf(stderr, "%s is no number\n", word);
        exit(2);
    }
    return number;
}

mach_port_t check_port(void) {
    mach_port_t name = MACH_PORT_NULL;
    CHECK_OK(mach_port_allocate(SELF, MACH_PORT_RIGHT_RECEIVE, &name));
    return name;
}

mach_port_type_t check_type(mach_port_t name) {
    mach_port_type_t type = 0;
    return mach_port_type(SELF, name, &type) == KERN_SUCCESS ? type : MACH_PORT_TYPE_NONE;
}

mach_port_status_t check_port_status(mach_port_t name) {
    mach_port_status_t status = {0};
    CHECK_OK(mach_port_get_receive_status(SELF, name, &status));
    return status;
}
