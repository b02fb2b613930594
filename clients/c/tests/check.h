/* Functions that the tests share. Each test is a program whose only argument is the path of a server's socket. */

#ifndef CHECK_H
#define CHECK_H

#include <machipc.h>
#include <stdbool.h>

/* Counts a check, and prints it if it fails. */
void check(bool is_as_wanted, const char *file, int line, const char *what);
void check_code(kern_return_t code, kern_return_t wanted, const char *file, int line, const char *what);

#define CHECK(condition) check((condition), __FILE__, __LINE__, #condition)
#define CHECK_CODE(call, wanted) check_code((call), (wanted), __FILE__, __LINE__, #call)
#define CHECK_OK(call) CHECK_CODE(call, KERN_SUCCESS)

/* Connects, goes to a new space that has one port, and returns that port's name. */
mach_port_t check_begin(int count, char **words);

/* Destroys the space and prints the number of checks. Returns the program's status. */
int check_end(void);

/* Does the same without a space. */
int check_status(void);

/* Returns the number that an argument of the command line says. The test ends if it says none. */
long check_number(const char *word);

/* Make a port in the space, and return the type and the status of a name. */
mach_port_t check_port(void);
mach_port_type_t check_type(mach_port_t name);
mach_port_status_t check_port_status(mach_port_t name);

#define SELF mach_task_self()

#endif
