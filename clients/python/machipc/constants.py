"""Mach's numbers: names, rights, dispositions, types of data and notices."""

__all__ = [
    "PORT_NULL",
    "PORT_DEAD",
    "FIRST_SPACE",
    "SEND",
    "RECEIVE",
    "SEND_ONCE",
    "PORT_SET",
    "DEAD_NAME",
    "MOVE_RECEIVE",
    "MOVE_SEND",
    "MOVE_SEND_ONCE",
    "COPY_SEND",
    "MAKE_SEND",
    "MAKE_SEND_ONCE",
    "INTEGER_32",
    "CHAR",
    "BYTE",
    "STRING",
    "PORT_NAME",
    "NOTIFY_PORT_DELETED",
    "NOTIFY_PORT_DESTROYED",
    "NOTIFY_NO_SENDERS",
    "NOTIFY_SEND_ONCE",
    "NOTIFY_DEAD_NAME",
    "DEAD_NAME_REQUEST",
    "LARGEST_MESSAGE",
    "type_of",
]

PORT_NULL, PORT_DEAD = 0, 0xFFFFFFFF
FIRST_SPACE = 1

# Kinds of rights.
SEND, RECEIVE, SEND_ONCE, PORT_SET, DEAD_NAME = range(5)

# Dispositions: how a right is taken. The first three are also the types that rights arrive as.
MOVE_RECEIVE, MOVE_SEND, MOVE_SEND_ONCE, COPY_SEND, MAKE_SEND, MAKE_SEND_ONCE = range(16, 22)

# Types of data.
INTEGER_32, CHAR, BYTE, STRING, PORT_NAME = 2, 8, 9, 12, 15

# Notices, by the ids of their messages.
NOTIFY_PORT_DELETED, NOTIFY_PORT_DESTROYED, NOTIFY_NO_SENDERS = 65, 69, 70
NOTIFY_SEND_ONCE, NOTIFY_DEAD_NAME = 71, 72

DEAD_NAME_REQUEST = 0x80000000

# The bytes of the largest message.
LARGEST_MESSAGE = 8192


def type_of(right: int) -> int:
    """Returns the bit of a right in the result of `Task.type`."""
    return 1 << (16 + right)
