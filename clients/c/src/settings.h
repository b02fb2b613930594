/* The settings that all threads of a process share: the server's socket, the space, and the mode of numbered
   requests. */

#ifndef MACHIPC_SETTINGS_H
#define MACHIPC_SETTINGS_H

#include "paths.h"

#include <machipc.h>
#include <stdbool.h>

/* A copy of the settings at one moment. */
struct settings {
    char paths[PATHS_LIST]; /* a list of paths, or empty: no server was named */
    int broker;             /* the descriptor over which connections are requested, instead of the paths, or -1 */
    machipc_space_t space;
    bool has_other_paths; /* there is another way to the server if one is cut */
    bool is_confined;     /* to the space, for as long as the server stays the same */
    bool is_once;
    bool is_refused;   /* this is a child of fork whose parent numbers its calls, and it hasn't chosen a space yet */
    uint32_t patience; /* milliseconds */
    /* Increases with each change of server or space, and in a child of fork: a connection or a reply port with a lower
       number can't be used. */
    unsigned long generation;
};

struct settings settings_now(void);

/* Returns the milliseconds within which the server has to answer a call that doesn't wait, and after which it has to answer
   one that waits. With several paths it is a third of the patience, from 3 to 10 seconds: a wait over a path that is cut
   leaves a third of the patience for the other paths. With one path it is CLOCK_FOR_EVER: no other path could do better,
   and a server whose disk hangs answers late. */
uint32_t settings_answer_time(const struct settings *settings);

/* Returns the milliseconds within which a path has to lead to a server: PATHS_TIME, or the patience if there is no other
   path. */
uint32_t settings_path_time(const struct settings *settings);

/* Uses the server of a list of paths. Returns false if it is no list. */
bool settings_use_server(const char *paths);
/* Uses the broker's connections, which are attached to this space and confined to it. */
void settings_use_broker(int broker, machipc_space_t space, bool has_other_paths);
/* Returns the generation that begins with it. */
unsigned long settings_use_space(machipc_space_t space, bool is_once);
unsigned long settings_confine(machipc_space_t space);
/* Returns true if a process with these settings may use a space. */
bool settings_may_use(const struct settings *settings, machipc_space_t space);
void settings_use_patience(uint32_t milliseconds);

#endif
