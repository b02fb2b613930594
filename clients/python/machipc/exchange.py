"""How a task makes its calls: on one connection that is made anew after a cut, with numbers or without."""

from __future__ import annotations

import os
import socket
import struct
import threading
import weakref
from typing import Optional, Tuple

from . import routes, wire
from .constants import PORT_NULL
from .errors import (
    KERN_FAILURE,
    KERN_INVALID_ARGUMENT,
    KERN_INVALID_NAME,
    KERN_INVALID_VALUE,
    KERN_RESOURCE_SHORTAGE,
    MACH_RCV_INTERRUPTED,
    MACH_RCV_TIMED_OUT,
    MACH_SEND_INTERRUPTED,
    MACH_SEND_TIMED_OUT,
    MIG_REPLY_MISMATCH,
    MachError,
    refusal,
)
from .waiting import Deadline, answer_time, total

_LAST_NUMBER = 0xFFFFFFFF


class Numbers:
    """The numbers of a space's requests, which all connections of a program to that space share."""

    def __init__(self, last: int) -> None:
        self.turn = threading.Lock()
        self.last = last


class Exchange:
    """A connection to a server in a space, and calls by their numbers."""

    _route: routes.Route
    space: int
    patience: Optional[float]
    repeats: int
    _is_confined: bool
    _is_refused: bool  # this is a child of fork, and its parent numbers its calls
    _numbers: Optional[Numbers]
    _socket: Optional[socket.socket]

    def close(self) -> None:
        """Ends the connection. The space and all its names stay."""
        if self._socket:
            self._socket.close()
            self._socket = None

    # Frames.

    def _open(self) -> None:
        if self._is_refused:
            raise KERN_FAILURE("a child of fork whose parent numbers its calls makes a Task of its own")
        if self._socket:
            return
        try:
            self._socket = routes.open_socket(self._route, self.space, self._is_confined, self.patience)
        except OSError as fault:
            if isinstance(fault, MachError):
                raise
            raise MACH_SEND_INTERRUPTED(str(fault)) from None

    def _write(self, frame: bytes) -> None:
        assert self._socket
        self._socket.sendall(wire.with_length(frame))

    def _read(self) -> bytes:
        assert self._socket
        return routes.read_frame(self._socket)

    def _answer_time(self) -> Optional[float]:
        return answer_time(self.patience, self._route.has_others)

    def _exchange(self, frame: bytes, wait: Optional[float] = 0.0) -> bytes:
        """Returns the reply to a frame, which is sent once. `wait` has the seconds for which the server may wait before it
        answers. If there are other paths, a later answer counts as a cut: over a path that is cut none comes."""
        self._open()
        assert self._socket
        self._socket.settimeout(total(wait, self._answer_time()))
        is_out = False
        try:
            self._write(frame)
            is_out = True
            return self._read()
        except OSError as fault:
            self.close()
            raise (MACH_RCV_INTERRUPTED if is_out else MACH_SEND_INTERRUPTED)(str(fault)) from None
        except BaseException:
            self.close()  # as by a KeyboardInterrupt: the reply would be read as the next call's
            raise

    def _exchange_repeated(self, frame: bytes) -> bytes:
        """Returns the reply to a frame that may be sent again. The patience begins with the first cut."""
        patience: Optional[Deadline] = None
        while True:
            try:
                reply = self._exchange(frame)
                self.repeats += patience is not None
                return reply
            except (MACH_SEND_INTERRUPTED, MACH_RCV_INTERRUPTED):
                patience = patience or Deadline(self.patience)
                if not patience.pause():
                    raise

    def _answer(self, number: int, reply: bytes) -> Tuple[int, bytes]:
        try:
            return wire.answer(number, reply)
        except MIG_REPLY_MISMATCH:
            self.close()  # what comes can't be in step any more
            raise

    def _results(self, number: int, reply: bytes) -> bytes:
        code, results = self._answer(number, reply)
        if code:
            raise refusal(code)
        return results

    def _mismatch(self) -> MachError:
        self.close()
        return MIG_REPLY_MISMATCH()

    # Numbered requests.

    def _ask(self, request: int, number: int, arguments: bytes) -> Tuple[int, bytes]:
        """Returns the code and the results of a call that is made under this number."""
        frame = wire.words(wire.NUMBERED, request, number) + arguments
        results = self._results(wire.NUMBERED, self._exchange_repeated(frame))
        if len(results) < 12 or struct.unpack_from("<2I", results) != (request, number):
            raise self._mismatch()
        return struct.unpack_from("<I", results, 8)[0], results[12:]

    def _is_new(self, request: int) -> bool:
        """Returns True if a request of this number would be a new one. It asks to destroy name 0: a new request is refused
        with KERN_INVALID_NAME and keeps no number, and no request that was done has that answer."""
        try:
            code, _ = self._ask(request, wire.DESTROY, wire.words(PORT_NULL))
        except (KERN_INVALID_VALUE, KERN_INVALID_ARGUMENT):
            return False
        return code == KERN_INVALID_NAME.code

    def _last_request(self) -> int:
        """Returns the greatest number that the space has used."""
        last: int
        try:
            results = self._results(wire.LAST_REQUEST, self._exchange_repeated(wire.words(wire.LAST_REQUEST)))
        except KERN_INVALID_ARGUMENT:
            last = self._search_last_request()
        else:
            if len(results) != 8:
                raise self._mismatch()
            last, _ = struct.unpack("<2I", results)
        if last >= _LAST_NUMBER - 1:
            raise KERN_INVALID_ARGUMENT("the space has used all numbers")
        return last

    def _search_last_request(self) -> int:
        """Returns the same number of a server that can't be asked for it."""
        if not self._is_new(_LAST_NUMBER):
            raise KERN_INVALID_ARGUMENT("the server has no numbered requests, or the space has used all numbers")
        used, unused = 0, _LAST_NUMBER
        while unused - used > 1:
            middle = (used + unused) // 2
            if self._is_new(middle):
                unused = middle
            else:
                used = middle
        return used

    def _numbers_of_space(self) -> Numbers:
        # One number is skipped, since a program before this one may have a request with it on its way to the server.
        return Numbers(self._last_request() + 1)

    def _make_numbered(self, numbers: Numbers, number: int, arguments: bytes) -> Tuple[int, bytes]:
        """Returns the code and the results of a call that is made as the next request."""
        with numbers.turn:
            if numbers.last == _LAST_NUMBER:
                raise KERN_RESOURCE_SHORTAGE("the space has used all numbers")
            numbers.last += 1
            try:
                code, results = self._ask(numbers.last, number, arguments)
            except (KERN_INVALID_VALUE, KERN_INVALID_ARGUMENT):
                numbers.last = self._last_request() + 1
                raise MACH_RCV_INTERRUPTED("another program numbers requests in this space") from None
            if code in (MACH_SEND_TIMED_OUT.code, MACH_RCV_TIMED_OUT.code):
                numbers.last -= 1  # such a refusal keeps none, and a wait is refused often
            return code, results

    # Calls.

    def _make(self, number: int, arguments: bytes) -> bytes:
        """Makes a call in the task's mode, and returns its results."""
        frame = wire.words(number) + arguments
        if not self._numbers:
            return self._results(number, self._exchange(frame))
        if number not in wire.MAY_BE_NUMBERED:
            return self._results(number, self._exchange_repeated(frame))
        code, results = self._make_numbered(self._numbers, number, arguments)
        if code:
            raise refusal(code)
        return results

    def _call(self, number: int, *arguments: int, wanted: Optional[int] = 0) -> Tuple[int, ...]:
        """Makes a call of words, and returns its results: `wanted` words, or any number where that is None."""
        results = self._make(number, wire.words(*arguments))
        if len(results) % 4 or (wanted is not None and len(results) != 4 * wanted):
            raise self._mismatch()
        return struct.unpack(f"<{len(results) // 4}I", results)

    def _rows(self, number: int, *arguments: int, width: int) -> Tuple[int, ...]:
        """Makes a call that is answered with a count and that many rows, and returns the words of all rows."""
        count, *rows = self._call(number, *arguments, wanted=None) or (0, 0)
        if len(rows) != width * count:
            raise self._mismatch()
        return tuple(rows)


_all: "weakref.WeakSet[Exchange]" = weakref.WeakSet()


def register(made: Exchange) -> None:
    """Registers a task, so that a child of fork doesn't share its connection."""
    _all.add(made)


def _after_fork_in_child() -> None:
    """Closes the parent's connections. A task that numbers its calls is the parent's, since one program counts them."""
    for task in list(_all):
        task.close()
        task._is_refused = task._is_refused or task._numbers is not None


os.register_at_fork(after_in_child=_after_fork_in_child)
