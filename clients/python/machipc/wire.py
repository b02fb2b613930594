"""Frames: a length, the number of a call or of the call that is answered, and words or bytes. The lowest byte comes first."""

from __future__ import annotations

import struct
from typing import Optional, Tuple

from .errors import MIG_REPLY_MISMATCH, refusal
from .messages import Message
from .waiting import milliseconds

ATTACH, NAMES, TYPE, RENAME, ALLOCATE_NAME, ALLOCATE, DESTROY, DEALLOCATE, GET_REFS, MOD_REFS = range(10)
SET_QLIMIT, SET_MSCOUNT, SET_SEQNO, GET_RECEIVE_STATUS, GET_SET_STATUS, MOVE_MEMBER = range(10, 16)
REQUEST_NOTIFICATION, INSERT_RIGHT, EXTRACT_RIGHT, MACH_MSG = range(16, 20)
SPACE_CREATE, SPACE_DESTROY, NUMBERED, CONFINE, LAST_REQUEST = range(20, 25)
# Calls that change something, and can be made as numbered requests.
MAY_BE_NUMBERED = frozenset({3, 4, 5, 6, 7, 9, 10, 11, 12, 15, 16, 17, 18, 19, 20})

SEND_MSG, RCV_MSG, SEND_TIMEOUT, RCV_TIMEOUT, RCV_LARGE = 1, 2, 0x10, 0x100, 0x800

# Bytes of the shortest and of the longest frame, after its length.
SHORTEST, LONGEST = 4, 65_532


def words(*numbers: int) -> bytes:
    return struct.pack(f"<{len(numbers)}I", *(it & 0xFFFFFFFF for it in numbers))


def with_length(frame: bytes) -> bytes:
    return words(len(frame)) + frame


def length_of(prefix: bytes) -> int:
    """Reads the length before a frame. Raises ConnectionError if no frame has it."""
    length: int = struct.unpack("<I", prefix)[0]
    if not SHORTEST <= length <= LONGEST:
        raise ConnectionError(f"a frame of {length} bytes came, and one has {SHORTEST} to {LONGEST}")
    return length


def timeouts(timeout: Optional[float]) -> int:
    """Returns the options of a timeout of both halves."""
    return 0 if timeout is None else SEND_TIMEOUT | RCV_TIMEOUT


def mach_msg(option: int, limit: int, name: int, timeout: Optional[float], text: bytes = b"") -> bytes:
    """Returns the arguments of `mach_msg`."""
    return words(option, limit, name, milliseconds(timeout)) + text


def answer(number: int, reply: bytes) -> Tuple[int, bytes]:
    """Returns the code and the results of a reply to the call of this number."""
    if len(reply) < 8 or struct.unpack_from("<I", reply)[0] != number:
        raise MIG_REPLY_MISMATCH
    return struct.unpack_from("<I", reply, 4)[0], reply[8:]


def message(code: int, results: bytes, limit: int) -> Message:
    """Returns the message that a receive of at most `limit` bytes is answered with, or raises its refusal."""
    size, _, text = _parts(code, results)
    if not 24 <= len(text) <= limit or len(text) != size:
        raise MIG_REPLY_MISMATCH
    return Message.from_bytes(text)


def no_message(code: int, results: bytes) -> None:
    """Raises the refusal of a send, if it was refused."""
    size, _, text = _parts(code, results)
    if len(text) != size:
        raise MIG_REPLY_MISMATCH


def _parts(code: int, results: bytes) -> Tuple[int, int, bytes]:
    if len(results) < 8:
        raise refusal(code) if code else MIG_REPLY_MISMATCH()
    size, member = struct.unpack_from("<2I", results)
    if code:
        raise refusal(code, size, member)
    return size, member, results[8:]
