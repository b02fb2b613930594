/* Tasks that begin, end, are adopted and swept. */

#include "check.h"

#include <pthread.h>
#include <stdlib.h>

static mach_msg_id_t notice_at(mach_port_t port) {
    mach_dead_name_notification_t notice = {0};
    CHECK_OK(mach_msg(&notice.not_header, MACH_RCV_MSG | MACH_RCV_TIMEOUT, 0, sizeof notice, port, 0, MACH_PORT_NULL));
    return notice.not_header.msgh_id;
}

static void begun_and_ended(mach_port_t port) {
    machipc_task_t task = {0};
    machipc_space_t own = machipc_space();
    mach_port_t previous;
    CHECK_OK(
        mach_port_request_notification(SELF, port, MACH_NOTIFY_NO_SENDERS, 1, port, MACH_MSG_TYPE_MAKE_SEND_ONCE, &previous));
    CHECK_OK(machipc_task_begin(port, MACH_MSG_TYPE_MAKE_SEND, &task));
    CHECK(machipc_space() == own && task.space != own && task.start == 1 && task.bootstrap >= 0x80000000u);
    CHECK_OK(machipc_task_end(&task));
    CHECK(notice_at(port) == MACH_NOTIFY_NO_SENDERS);
    CHECK_OK(machipc_task_end(&task));
    CHECK(machipc_space() == own);
    CHECK_CODE(machipc_task_begin(port, 99, &task), KERN_INVALID_VALUE);
    CHECK_CODE(machipc_task_begin(0x7777, MACH_MSG_TYPE_COPY_SEND, &task), KERN_INVALID_NAME);
}

static void adopted_and_swept(mach_port_t port) {
    machipc_task_t task = {0}, found = {0};
    machipc_space_t own = machipc_space();
    mach_port_t once;
    mach_msg_type_name_t type;
    CHECK_OK(machipc_task_begin(port, MACH_MSG_TYPE_MAKE_SEND, &task));
    task.start = 2;
    CHECK_OK(machipc_task_export(&task));
    CHECK_OK(machipc_adopt(&found));
    CHECK(found.space == task.space && found.bootstrap == task.bootstrap && found.start == 2);
    CHECK(machipc_space() == task.space && check_type(task.bootstrap) == MACH_PORT_TYPE_SEND);

    mach_port_t made = check_port();
    CHECK_OK(mach_port_extract_right(SELF, made, MACH_MSG_TYPE_MAKE_SEND_ONCE, &once, &type));
    CHECK_OK(machipc_sweep(&task.bootstrap, 1));
    CHECK(check_type(made) == MACH_PORT_TYPE_NONE && check_type(once) == MACH_PORT_TYPE_NONE);
    CHECK(check_type(task.bootstrap) == MACH_PORT_TYPE_SEND);
    CHECK_OK(machipc_sweep(NULL, 0));
    CHECK(check_type(task.bootstrap) == MACH_PORT_TYPE_NONE);
    CHECK_OK(machipc_attach(own));
    CHECK_OK(machipc_task_end(&task));

    setenv("MACHIPC_FD", "0", 1); /* which isn't an end of a pair of sockets */
    CHECK_CODE(machipc_adopt(&found), KERN_INVALID_ARGUMENT);
    CHECK_OK(machipc_task_export(&task));
    CHECK(getenv("MACHIPC_FD") == NULL);
    setenv("MACHIPC_SPACE", "12x", 1);
    CHECK_CODE(machipc_adopt(&found), KERN_INVALID_ARGUMENT);
    setenv("MACHIPC_SPACE", "99999999999", 1);
    CHECK_CODE(machipc_adopt(&found), KERN_INVALID_ARGUMENT);
    setenv("MACHIPC_SPACE", "250", 1);
    CHECK_CODE(machipc_adopt(&found), KERN_INVALID_TASK);
    unsetenv("MACHIPC_SPACE");
    CHECK_CODE(machipc_adopt(&found), KERN_INVALID_ARGUMENT);
    CHECK_OK(machipc_attach(own));
}

static void *call_and_attach(void *unused) {
    mach_port_t name;
    (void) unused;
    CHECK_OK(mach_port_allocate(SELF, MACH_PORT_RIGHT_RECEIVE, &name));
    CHECK_CODE(machipc_attach(MACHIPC_FIRST_SPACE), KERN_NO_ACCESS);
    return NULL;
}

/* A process that confined itself is confined in all its threads, until it connects anew. */
static void confined_itself(mach_port_t port, const char *path) {
    machipc_task_t task = {0};
    machipc_space_t own = machipc_space();
    pthread_t thread;
    CHECK_OK(machipc_task_begin(port, MACH_MSG_TYPE_MAKE_SEND, &task));
    CHECK_OK(machipc_attach(task.space));
    CHECK_OK(machipc_confine());
    CHECK_OK(machipc_confine());
    CHECK_CODE(machipc_attach(own), KERN_NO_ACCESS);
    CHECK_CODE(machipc_once(own), KERN_NO_ACCESS);
    CHECK_CODE(machipc_task_end(&(machipc_task_t){.space = own}), KERN_NO_ACCESS);
    CHECK_OK(machipc_attach(task.space));
    CHECK(machipc_space() == task.space && check_type(task.bootstrap) == MACH_PORT_TYPE_SEND);
    CHECK(pthread_create(&thread, NULL, call_and_attach, NULL) == 0);
    pthread_join(thread, NULL);
    CHECK_OK(machipc_once(task.space));
    call_and_attach(NULL);
    CHECK_OK(machipc_space_destroy());
    CHECK_CODE(machipc_confine(), KERN_INVALID_TASK);
    CHECK_OK(machipc_connect(path));
    CHECK_CODE(machipc_attach(task.space), KERN_INVALID_TASK);
    CHECK_OK(machipc_attach(own));
}

int main(int count, char **words) {
    mach_port_t port = check_begin(count, words);
    begun_and_ended(port);
    adopted_and_swept(port);
    confined_itself(port, words[1]);
    return check_end();
}
