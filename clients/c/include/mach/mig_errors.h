/* Codes of the stubs of the Mach Interface Generator, and the reply that contains one. */

#ifndef _MACH_MIG_ERRORS_H_
#define _MACH_MIG_ERRORS_H_

#include <mach/kern_return.h>
#include <mach/message.h>

#define MIG_TYPE_ERROR (-300)     /* the reply's types aren't those of the interface */
#define MIG_REPLY_MISMATCH (-301) /* not a reply to this request */
#define MIG_REMOTE_ERROR (-302)   /* the server found a fault */
#define MIG_BAD_ID (-303)         /* the server knows no such request */
#define MIG_BAD_ARGUMENTS (-304)  /* the request's types aren't those of the interface */
#define MIG_NO_REPLY (-305)       /* no reply is to be sent */
#define MIG_EXCEPTION (-306)
#define MIG_ARRAY_TOO_LARGE (-307) /* an array is longer than its room */
#define MIG_SERVER_DIED (-308)     /* the server's port died */
#define MIG_DESTROY_REQUEST (-309) /* the request's rights are to be released, and no reply sent */

typedef struct {
    mach_msg_header_t Head;
    mach_msg_type_t RetCodeType;
    kern_return_t RetCode;
} mig_reply_header_t;

typedef mig_reply_header_t mig_reply_error_t;

typedef struct mig_symtab {
    char *ms_routine_name;
    int ms_routine_number;
    void (*ms_routine)(void);
} mig_symtab_t;

typedef void (*mig_routine_t)(mach_msg_header_t *request, mach_msg_header_t *reply);

#endif
