#define _GNU_SOURCE /* for unshare and initgroups */

#include "child.h"

#include <dirent.h>
#include <errno.h>
#include <fcntl.h>
#include <grp.h>
#include <pwd.h>
#include <sched.h>
#include <stdio.h>
#include <stdlib.h>
#include <string.h>
#include <sys/mount.h>
#include <sys/prctl.h>
#include <unistd.h>

bool child_find_user(struct child *child) {
    if (child->user == NULL) {
        return true;
    }
    if (geteuid() != 0) {
        fprintf(stderr, "machrun: --user %s: only root runs a command as another user\n", child->user);
        return false;
    }
    const struct passwd *found = getpwnam(child->user);
    if (found == NULL) {
        fprintf(stderr, "machrun: --user %s: there is no such user\n", child->user);
        return false;
    }
    child->uid = found->pw_uid;
    child->gid = found->pw_gid;
    return true;
}

static void fail(const char *what) {
    fprintf(stderr, "machrun: %s: %s\n", what, strerror(errno));
    _exit(FAILED);
}

/* Finds a path without symbolic links. Without a socket there, it finds where the folder is. Returns true if there is a
   socket. */
static bool find(const char *path, char *found) {
    if (realpath(path, found) != NULL) {
        return true;
    }
    char folder[PATHS_SIZE + 2], real[PATH_MAX];
    snprintf(folder, sizeof folder, "%s%s", path[0] == '/' ? "" : "./", path);
    char *slash = strrchr(folder, '/');
    *slash = '\0';
    bool is_folder = realpath(slash == folder ? "/" : folder, real) != NULL;
    if (!is_folder || snprintf(found, PATH_MAX, "%s/%s", real, slash + 1) >= PATH_MAX) {
        found[0] = '\0';
    }
    return false;
}

bool child_find_sockets(struct child *child) {
    bool is_any = false;
    for (size_t i = 0; i < child->paths.count; i++) {
        is_any = find(child->paths.each[i], child->found[i]) || is_any;
    }
    return is_any;
}

/* Returns true if a folder's entry is one of the sockets, or the folder or its parent. */
static bool is_expected(const struct child *child, const char *folder, const char *name) {
    size_t length = strlen(folder);
    bool is_known = strcmp(name, ".") == 0 || strcmp(name, "..") == 0;
    for (size_t i = 0; i < child->paths.count; i++) {
        const char *found = child->found[i];
        bool is_here = strncmp(found, folder, length) == 0 && found[length] == '/';
        is_known = is_known || (is_here && strcmp(found + length + 1, name) == 0);
    }
    return is_known;
}

/* Returns true if the folder contains nothing but sockets of the server, so that hiding it hides nothing else. */
static bool has_only(const struct child *child, const char *folder) {
    DIR *opened = opendir(folder);
    bool is_only = opened != NULL;
    for (struct dirent *it; is_only && (it = readdir(opened)) != NULL;) {
        is_only = is_expected(child, folder, it->d_name);
    }
    if (opened != NULL) {
        closedir(opened);
    }
    return is_only;
}

/*
 * Mounts an empty folder over the socket's folder, for this process and those that it starts. A mount over the socket
 * itself wouldn't do: a server that is started again makes a new socket, and the mount would disappear with the old
 * one.
 */
static bool hide(const struct child *child, const char *found) {
    char folder[PATH_MAX], here[PATH_MAX];
    strcpy(folder, found);
    char *slash = strrchr(folder, '/');
    if (slash == NULL || slash == folder) {
        return false;
    }
    *slash = '\0';
    if (!has_only(child, folder)) {
        return false;
    }
    bool has_here = getcwd(here, sizeof here) != NULL;
    /* Mounts that are made outside later appear here too; those that are made here don't appear outside. */
    if (unshare(CLONE_NEWNS) != 0 || mount(NULL, "/", NULL, MS_REC | MS_SLAVE, NULL) != 0 ||
        mount("machrun", folder, "tmpfs", MS_RDONLY | MS_NOSUID | MS_NODEV | MS_NOEXEC, "mode=0555,size=4k") != 0) {
        return false;
    }
    /* The current folder may be the hidden one. Changing to its path again leads into the mount. */
    return (has_here && chdir(here) == 0) || chdir("/") == 0;
}

static void become_user(const struct child *child) {
    if (child->user != NULL &&
        (initgroups(child->user, child->gid) != 0 || setgid(child->gid) != 0 || setuid(child->uid) != 0)) {
        fail(child->user);
    }
}

/* Removes the ways by which the command could reach the sockets, and prints a warning if one can still be opened, or may
   appear where it isn't hidden. Programs that run with a user or a group of their own (setuid) would be such a way. */
static void confine(const struct child *child) {
    bool was_root = geteuid() == 0;
    bool is_hidden[PATHS_MOST];
    for (size_t i = 0; i < child->paths.count; i++) {
        is_hidden[i] = was_root && hide(child, child->found[i]);
    }
    become_user(child);
    if (prctl(PR_SET_NO_NEW_PRIVS, 1, 0, 0, 0) != 0) {
        fail("no new privileges");
    }
    for (size_t i = 0; was_root && i < child->paths.count; i++) {
        const char *path = child->paths.each[i];
        if (!is_hidden[i] && (access(path, W_OK) == 0 || errno == ENOENT)) {
            fprintf(stderr, "machrun: %s can't be hidden, and the command may open it\n", path);
        }
    }
}

static bool export_number(const char *variable, unsigned number) {
    char text[16];
    snprintf(text, sizeof text, "%u", number);
    return setenv(variable, text, 1) == 0;
}

static void give_broker(const struct child *child) {
    bool is_done = fcntl(child->broker, F_SETFD, 0) == 0 && export_number("MACHIPC_FD", (unsigned) child->broker) &&
                   export_number("MACHIPC_PATHS", (unsigned) child->paths.count) && unsetenv("MACHIPC_SOCKET") == 0;
    if (!is_done) {
        fail("environment");
    }
}

void child_run(const struct child *child) {
    if (child->broker >= 0) {
        confine(child);
        give_broker(child);
    } else {
        become_user(child);
    }
    execvp(child->words[0], child->words);
    int error = errno;
    fprintf(stderr, "machrun: %s: %s\n", child->words[0], strerror(error));
    _exit(error == ENOENT ? NOT_FOUND : NOT_RUN);
}
