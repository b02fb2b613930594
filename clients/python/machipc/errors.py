"""Refusals: an exception for each code of Mach's headers."""

from __future__ import annotations

from typing import Any, ClassVar, Dict, Type

from .constants import PORT_NULL

__all__ = [
    "MachError",
    "UnknownCode",
    "KERN_NO_SPACE",
    "KERN_INVALID_ARGUMENT",
    "KERN_FAILURE",
    "KERN_RESOURCE_SHORTAGE",
    "KERN_NO_ACCESS",
    "KERN_NOT_IN_SET",
    "KERN_NAME_EXISTS",
    "KERN_INVALID_NAME",
    "KERN_INVALID_TASK",
    "KERN_INVALID_RIGHT",
    "KERN_INVALID_VALUE",
    "KERN_UREFS_OVERFLOW",
    "KERN_INVALID_CAPABILITY",
    "KERN_RIGHT_EXISTS",
    "MACH_SEND_INVALID_DEST",
    "MACH_SEND_TIMED_OUT",
    "MACH_SEND_INTERRUPTED",
    "MACH_SEND_MSG_TOO_SMALL",
    "MACH_SEND_INVALID_REPLY",
    "MACH_SEND_INVALID_RIGHT",
    "MACH_SEND_INVALID_MEMORY",
    "MACH_SEND_NO_BUFFER",
    "MACH_SEND_INVALID_TYPE",
    "MACH_SEND_INVALID_HEADER",
    "MACH_RCV_INVALID_NAME",
    "MACH_RCV_TIMED_OUT",
    "MACH_RCV_TOO_LARGE",
    "MACH_RCV_INTERRUPTED",
    "MACH_RCV_PORT_CHANGED",
    "MACH_RCV_PORT_DIED",
    "MACH_RCV_IN_SET",
    "MACH_RCV_HEADER_ERROR",
    "MACH_RCV_HEADER_ERROR_IPC_SPACE",
    "MACH_RCV_HEADER_ERROR_IPC_KERNEL",
    "MIG_REPLY_MISMATCH",
    "MIG_TYPE_ERROR",
    "MIG_REMOTE_ERROR",
    "MIG_BAD_ID",
    "MIG_BAD_ARGUMENTS",
]


class MachError(Exception):
    """A call that was refused. `code` is Mach's number, and the class has its name."""

    code: ClassVar[int] = 0
    by_code: ClassVar[Dict[int, Type["MachError"]]] = {}

    def __init_subclass__(cls, code: int = 0, **more: Any) -> None:
        super().__init_subclass__(**more)
        cls.code = code
        MachError.by_code[code] = cls

    def __str__(self) -> str:
        return f"{type(self).__name__} ({self.code:#x}){''.join(f': {it}' for it in self.args)}"


class UnknownCode(MachError, code=-1):
    """A code that no header names; it is the exception's argument."""


class KERN_NO_SPACE(MachError, code=3):
    """The space has as many names as it may have."""


class KERN_INVALID_ARGUMENT(MachError, code=4):
    """No such call, or arguments that it can't have."""


class KERN_FAILURE(MachError, code=5):
    """The call can't be made, as the end of the first space."""


class KERN_RESOURCE_SHORTAGE(MachError, code=6):
    """Out of memory, ports, spaces, or room to store the call."""


class KERN_NO_ACCESS(MachError, code=8):
    """The connection is confined to its space."""


class KERN_NOT_IN_SET(MachError, code=12):
    """The port is in no set."""


class KERN_NAME_EXISTS(MachError, code=13):
    """The name is in use."""


class KERN_INVALID_NAME(MachError, code=15):
    """The name isn't in use."""


class KERN_INVALID_TASK(MachError, code=16):
    """The space is gone."""


class KERN_INVALID_RIGHT(MachError, code=17):
    """The name doesn't hold such a right."""


class KERN_INVALID_VALUE(MachError, code=18):
    """A value out of its range."""


class KERN_UREFS_OVERFLOW(MachError, code=19):
    """More user references than a name may have."""


class KERN_INVALID_CAPABILITY(MachError, code=20):
    """The right can't be given like this."""


class KERN_RIGHT_EXISTS(MachError, code=21):
    """The space has the right under another name."""


class MACH_SEND_INVALID_DEST(MachError, code=0x10000003):
    """The destination is no right to send by."""


class MACH_SEND_TIMED_OUT(MachError, TimeoutError, code=0x10000004):
    """The queue was full until the timeout."""


class MACH_SEND_INTERRUPTED(MachError, ConnectionError, code=0x10000007):
    """The connection was cut before the call went out, or in a send: that may have been made or not."""


class MACH_SEND_MSG_TOO_SMALL(MachError, code=0x10000008):
    """Below 24 bytes, no multiple of 4, or items that go past the end."""


class MACH_SEND_INVALID_REPLY(MachError, code=0x10000009):
    """The local port is no right to reply by."""


class MACH_SEND_INVALID_RIGHT(MachError, code=0x1000000A):
    """A right of the body can't be taken."""


class MACH_SEND_INVALID_MEMORY(MachError, code=0x1000000C):
    """Data out of line."""


class MACH_SEND_NO_BUFFER(MachError, code=0x1000000D):
    """Above 8,192 bytes or 256 rights, or out of memory."""


class MACH_SEND_INVALID_TYPE(MachError, code=0x1000000F):
    """An invalid descriptor."""


class MACH_SEND_INVALID_HEADER(MachError, code=0x10000010):
    """Invalid dispositions."""


class MACH_RCV_INVALID_NAME(MachError, code=0x10004002):
    """Neither a receive right nor a set."""


class MACH_RCV_TIMED_OUT(MachError, TimeoutError, code=0x10004003):
    """No message came in time."""


class MACH_RCV_TOO_LARGE(MachError, code=0x10004004):
    """The message is larger than the limit: `size` bytes, at the port `member`."""

    size = 0
    member = PORT_NULL


class MACH_RCV_INTERRUPTED(MachError, ConnectionError, code=0x10004005):
    """The connection was cut before the reply: the call was made or not."""


class MACH_RCV_PORT_CHANGED(MachError, code=0x10004006):
    """The port was moved into a set meanwhile."""


class MACH_RCV_PORT_DIED(MachError, code=0x10004009):
    """The receive right or the set was destroyed or moved away meanwhile."""


class MACH_RCV_IN_SET(MachError, code=0x1000400A):
    """The port is in a set: receive from that."""


class MACH_RCV_HEADER_ERROR(MachError, code=0x1000400B):
    """The message can't be taken; the two classes of this name say why."""


class MACH_RCV_HEADER_ERROR_IPC_SPACE(MACH_RCV_HEADER_ERROR, code=0x1000600B):
    """No names are left for its rights."""


class MACH_RCV_HEADER_ERROR_IPC_KERNEL(MACH_RCV_HEADER_ERROR, code=0x1000480B):
    """The server is out of memory."""


class MIG_REPLY_MISMATCH(MachError, code=-301):
    """The server's frame is no reply to the call."""


class MIG_TYPE_ERROR(MachError, code=-300):
    """The arguments of a request have the wrong types."""


class MIG_REMOTE_ERROR(MachError, code=-302):
    """The server failed while it handled a request."""


class MIG_BAD_ID(MachError, code=-303):
    """The server has no such request."""


class MIG_BAD_ARGUMENTS(MachError, code=-304):
    """The arguments of a request are invalid."""


def refusal(code: int, size: int = 0, member: int = PORT_NULL) -> MachError:
    """Returns the exception of a code; MACH_RCV_TOO_LARGE has a size and a port."""
    known = MachError.by_code.get(code)
    if known is None:
        return UnknownCode(hex(code))
    refused = known()
    if isinstance(refused, MACH_RCV_TOO_LARGE):
        refused.size, refused.member = size, member
    return refused
