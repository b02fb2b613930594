"""`mach_msg`: how a task sends and receives."""

from __future__ import annotations

from typing import Optional, Tuple

from . import wire
from .constants import LARGEST_MESSAGE
from .errors import (
    KERN_RESOURCE_SHORTAGE,
    MACH_RCV_HEADER_ERROR_IPC_KERNEL,
    MACH_RCV_INTERRUPTED,
    MACH_RCV_TIMED_OUT,
    MACH_RCV_TOO_LARGE,
    MACH_SEND_INTERRUPTED,
    MACH_SEND_NO_BUFFER,
    MACH_SEND_TIMED_OUT,
    MIG_REPLY_MISMATCH,
)
from .exchange import Exchange
from .messages import Message
from .waiting import Deadline, earlier, total


def text_of(message: Message) -> bytes:
    """Returns the bytes of a message. Raises MACH_SEND_NO_BUFFER if there are too many."""
    text = message.to_bytes()
    if len(text) > LARGEST_MESSAGE:
        raise MACH_SEND_NO_BUFFER(f"{len(text)} bytes, and a message has at most {LARGEST_MESSAGE}")
    return text


class Messaging(Exchange):
    """Sends and receives. Timeouts are seconds: None waits forever, and 0 is one attempt."""

    def send(self, message: Message, timeout: Optional[float] = None) -> None:
        """Sends a message, and waits for room in the queue."""
        text = text_of(message)
        if self._numbers:
            self._send_once(text, timeout)
            return
        try:
            self._sent(*self._mach_msg(wire.SEND_MSG, 0, 0, timeout, text))
        except MACH_RCV_INTERRUPTED as fault:
            raise MACH_SEND_INTERRUPTED(*fault.args) from None

    def receive(
        self, name: int, timeout: Optional[float] = None, limit: int = LARGEST_MESSAGE, large: bool = False
    ) -> Message:
        """Receives a message of at most `limit` bytes from a port or a set, and waits for one. A larger one is destroyed, or
        stays with `large`; MACH_RCV_TOO_LARGE has its size and port."""
        if self._numbers:
            return self._receive_once(name, timeout, limit, large)
        option = wire.RCV_MSG | (wire.RCV_LARGE if large else 0)
        return self._received(*self._mach_msg(option, limit, name, timeout), limit)

    def send_receive(
        self, message: Message, name: int, timeout: Optional[float] = None, limit: int = LARGEST_MESSAGE
    ) -> Message:
        """Sends a message and then receives one from `name`, as a client does that asks a server. Each half has the
        timeout."""
        if self._numbers:
            self._send_once(text_of(message), timeout)
            return self._receive_once(name, timeout, limit, False)
        text = text_of(message)
        return self._received(*self._mach_msg(wire.SEND_MSG | wire.RCV_MSG, limit, name, timeout, text), limit)

    def _mach_msg(
        self, option: int, limit: int, name: int, timeout: Optional[float], text: bytes = b""
    ) -> Tuple[int, bytes]:
        """Makes a call of which each half has this timeout. If there are several paths, a long wait is made in parts, so that
        the server has to answer each: over a path that is cut no answer comes."""
        wait = Deadline(timeout)
        while True:
            part = self._part(wait)
            try:
                code, results = self._mach_msg_part(option, limit, name, part, text)
            except MACH_SEND_INTERRUPTED as fault:
                if option & wire.SEND_MSG:
                    raise
                raise MACH_RCV_INTERRUPTED(*fault.args) from None
            if code == MACH_RCV_TIMED_OUT.code and option & wire.SEND_MSG:
                option, text = option & ~wire.SEND_MSG, b""
                # The receive has begun with this part.
                wait = Deadline(None if timeout is None or part is None else timeout - part)
            if wait.left() == 0 or code not in (MACH_SEND_TIMED_OUT.code, MACH_RCV_TIMED_OUT.code):
                return code, results

    def _part(self, wait: Deadline) -> Optional[float]:
        """Returns the seconds of a wait after which the server has to answer, or None if it may wait forever."""
        return earlier(wait.left(), self._answer_time())

    def _mach_msg_part(
        self, option: int, limit: int, name: int, part: Optional[float], text: bytes = b""
    ) -> Tuple[int, bytes]:
        has_both = option & wire.SEND_MSG and option & wire.RCV_MSG
        frame = wire.words(wire.MACH_MSG) + wire.mach_msg(option | wire.timeouts(part), limit, name, part, text)
        return self._answer(wire.MACH_MSG, self._exchange(frame, total(part, part) if has_both else part))

    def _received(self, code: int, results: bytes, limit: int) -> Message:
        try:
            return wire.message(code, results, limit)
        except MIG_REPLY_MISMATCH:
            self.close()
            raise

    def _sent(self, code: int, results: bytes) -> None:
        try:
            wire.no_message(code, results)
        except MIG_REPLY_MISMATCH:
            self.close()
            raise

    # Numbered requests, each of which is one attempt.

    def _attempt(self, option: int, limit: int, name: int, text: bytes = b"") -> Tuple[int, bytes]:
        assert self._numbers
        return self._make_numbered(self._numbers, wire.MACH_MSG, wire.mach_msg(option, limit, name, None, text))

    def _send_once(self, text: bytes, timeout: Optional[float]) -> None:
        wait = Deadline(timeout)
        while True:
            try:
                self._sent(*self._attempt(wire.SEND_MSG | wire.SEND_TIMEOUT, 0, 0, text))
                return
            except MACH_SEND_TIMED_OUT:
                if not wait.pause():
                    raise
            except KERN_RESOURCE_SHORTAGE:
                raise MACH_SEND_NO_BUFFER() from None
            except MACH_RCV_INTERRUPTED as fault:
                raise MACH_SEND_INTERRUPTED(*fault.args) from None

    def _receive_once(self, name: int, timeout: Optional[float], limit: int, large: bool) -> Message:
        wait = Deadline(timeout)
        option = wire.RCV_MSG | wire.RCV_TIMEOUT | (wire.RCV_LARGE if large else 0)
        while True:
            try:
                return self._received(*self._attempt(option, limit, name), limit)
            except MACH_RCV_TIMED_OUT:
                if wait.left() == 0:
                    raise
            except KERN_RESOURCE_SHORTAGE:
                raise MACH_RCV_HEADER_ERROR_IPC_KERNEL() from None
            except MACH_SEND_INTERRUPTED as fault:
                raise MACH_RCV_INTERRUPTED(*fault.args) from None
            self._await(name, wait)

    def _await(self, name: int, wait: Deadline) -> None:
        """Waits until there is a message, and leaves it, since none fits into a limit of 0; or until the server has to answer
        all the same. The patience begins with the first cut."""
        patience: Optional[Deadline] = None
        while True:
            try:
                code, results = self._mach_msg_part(wire.RCV_MSG | wire.RCV_LARGE, 0, name, self._part(wait))
                self.repeats += patience is not None
                self._received(code, results, 0)
            except (MACH_RCV_TOO_LARGE, MACH_RCV_TIMED_OUT):
                return
            except (MACH_SEND_INTERRUPTED, MACH_RCV_INTERRUPTED) as fault:
                patience = patience or Deadline(self.patience)
                if not patience.pause():
                    raise MACH_RCV_INTERRUPTED(*fault.args) from None
