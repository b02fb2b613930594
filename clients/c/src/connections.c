/* The connections of a process: one for each thread, made at its first call. A child of fork closes all of them. */

#include "connection.h"

#include <pthread.h>
#include <stdlib.h>
#include <sys/socket.h>
#include <unistd.h>

static pthread_mutex_t lock = PTHREAD_MUTEX_INITIALIZER; /* guards the list, and which sockets are open */
static struct connection *first;
static pthread_once_t prepared = PTHREAD_ONCE_INIT;
static pthread_key_t own; /* the thread's connection */
static bool has_key;

static void before_fork(void) {
    pthread_mutex_lock(&lock);
}

static void after_fork_in_parent(void) {
    pthread_mutex_unlock(&lock);
}

static void close_descriptor(int *descriptor) {
    if (*descriptor >= 0) {
        close(*descriptor);
        *descriptor = -1;
    }
}

void connection_close_events(struct connection *connection) {
    close_descriptor(&connection->events);
    close_descriptor(&connection->timer);
}

/* If a child kept its parent's sockets open, calls of the parent that should end with it would keep waiting, and the
   server might give one of them a message. */
static void after_fork_in_child(void) {
    for (struct connection *it = first; it != NULL; it = it->next) {
        close_descriptor(&it->socket);
        connection_close_events(it);
    }
    pthread_mutex_unlock(&lock);
}

static void end_with_thread(void *value) {
    struct connection *connection = value;
    if (connection->reply_port != MACH_PORT_NULL && connection->socket >= 0) {
        pthread_setspecific(own, connection); /* the call that releases the port uses it once more */
        mig_dealloc_reply_port(connection->reply_port);
        pthread_setspecific(own, NULL);
    }
    connection_free(connection);
}

static void prepare(void) {
    has_key = pthread_key_create(&own, end_with_thread) == 0;
    pthread_atfork(before_fork, after_fork_in_parent, after_fork_in_child);
}

struct connection *connection_new(void) {
    pthread_once(&prepared, prepare);
    struct connection *made = calloc(1, sizeof *made);
    if (made != NULL) {
        made->socket = -1;
        made->events = -1;
        made->timer = -1;
        pthread_mutex_lock(&lock);
        made->next = first;
        first = made;
        pthread_mutex_unlock(&lock);
    }
    return made;
}

void connection_free(struct connection *connection) {
    if (connection->watch != NULL) {
        connection_free(connection->watch);
    }
    connection_close(connection);
    pthread_mutex_lock(&lock);
    connection_close_events(connection);
    struct connection **place = &first;
    while (*place != connection) {
        place = &(*place)->next;
    }
    *place = connection->next;
    pthread_mutex_unlock(&lock);
    free(connection);
}

struct connection *connection_of_thread(void) {
    pthread_once(&prepared, prepare);
    if (!has_key) {
        return NULL;
    }
    struct connection *connection = pthread_getspecific(own);
    if (connection == NULL) {
        connection = connection_new();
        if (connection != NULL && pthread_setspecific(own, connection) != 0) {
            connection_free(connection);
            connection = NULL;
        }
    }
    return connection;
}

void connection_hold_forks(void) {
    pthread_mutex_lock(&lock);
}

void connection_release_forks(void) {
    pthread_mutex_unlock(&lock);
}

bool connection_make_socket(struct connection *connection) {
    pthread_mutex_lock(&lock);
    connection->socket = socket(AF_UNIX, SOCK_STREAM | SOCK_CLOEXEC | SOCK_NONBLOCK, 0);
    bool is_made = connection->socket >= 0;
    pthread_mutex_unlock(&lock);
    return is_made;
}

void connection_close(struct connection *connection) {
    pthread_mutex_lock(&lock);
    close_descriptor(&connection->socket);
    pthread_mutex_unlock(&lock);
}
