"""The ways to a server: the paths of its sockets, or `machrun`, which gives connections to a confined program."""

from __future__ import annotations

import array
import errno
import os
import re
import socket
from typing import List, Optional, Tuple, Union

from . import wire
from .errors import KERN_INVALID_ARGUMENT, MachError, refusal
from .waiting import Deadline, path_time

# machrun's answer if the server can't be reached now, and the longest wait for an answer in seconds.
_LATER, _BROKER_PATIENCE = 255, 20.0
_PASSING = (errno.EAGAIN, errno.ETOOMANYREFS, errno.ENOBUFS)

_MOST_PATHS, _LONGEST_PATH = 4, 107
_PATH = r"(?:[^:\\]|\\[:\\])+"


class Paths:
    """A list of paths, `PATH1:PATH2`. A `:` in a path is written `\\:`, and a backslash `\\\\`."""

    def __init__(self, text: str) -> None:
        self.each: List[str] = [re.sub(r"\\(.)", r"\1", it) for it in re.findall(_PATH, text)]
        is_list = re.fullmatch(f"{_PATH}(?::{_PATH})*", text) and len(self.each) <= _MOST_PATHS
        if not is_list or any(len(os.fsencode(it)) > _LONGEST_PATH for it in self.each):
            raise KERN_INVALID_ARGUMENT(f"no list of at most {_MOST_PATHS} paths of sockets: {text!r}")
        self._last = 0  # the place of the path that answered last, which is tried first

    @property
    def has_others(self) -> bool:
        """True if there is another path where one is cut."""
        return len(self.each) > 1

    def open(self, space: int, is_confined: bool, patience: Optional[float]) -> socket.socket:
        time = path_time(patience, self.has_others)
        fault: Optional[OSError] = None
        for place in (*range(self._last, len(self.each)), *range(self._last)):
            try:
                made = _open_path(self.each[place], space, is_confined, time)
            except MachError:
                raise  # the server's answer
            except OSError as it:
                fault = it
            else:
                self._last = place
                return made
        assert fault
        raise fault


class Broker:
    """The descriptor for requests to machrun, which knows the paths."""

    def __init__(self, descriptor: int, has_others: bool) -> None:
        self.descriptor, self.has_others = descriptor, has_others


Route = Union[Paths, Broker]


def open_socket(route: Route, space: int, is_confined: bool, patience: Optional[float]) -> socket.socket:
    """Returns a connection in a space, for good if it is confined there. Raises OSError if there is none now."""
    if isinstance(route, Broker):
        return _from_broker(route.descriptor)
    return route.open(space, is_confined, patience)


def _open_path(path: str, space: int, is_confined: bool, time: Optional[float]) -> socket.socket:
    """Connects to the server at a path. A server that accepts and doesn't answer isn't ready, or isn't reached: a proxy
    accepts for a server that is gone."""
    wait = Deadline(time)
    made = socket.socket(socket.AF_UNIX)
    try:
        _connect(made, path, wait)
        _enter(made, wait, wire.ATTACH, space)
        if is_confined:
            _enter(made, wait, wire.CONFINE)
    except BaseException:
        made.close()
        raise
    return made


def _connect(made: socket.socket, path: str, wait: Deadline) -> None:
    made.setblocking(False)
    while True:
        try:
            return made.connect(path)
        except BlockingIOError:  # the server has accepted none for a while
            if not wait.pause():
                raise


def _enter(connection: socket.socket, wait: Deadline, number: int, *arguments: int) -> None:
    connection.settimeout(wait.left())
    connection.sendall(wire.with_length(wire.words(number, *arguments)))
    code, _ = wire.answer(number, read_frame(connection))
    if code:
        raise refusal(code)


def read_frame(connection: socket.socket) -> bytes:
    return _read(connection, wire.length_of(_read(connection, 4)))


def _read(connection: socket.socket, count: int) -> bytes:
    text = bytearray()
    while len(text) < count:
        some = connection.recv(count - len(text))
        if not some:
            raise ConnectionError("the server ended the connection")
        text += some
    return bytes(text)


def is_broker(descriptor: int) -> bool:
    """Returns True if a descriptor leads to machrun. It may have been closed, and opened as something else."""
    try:
        with socket.socket(fileno=os.dup(descriptor)) as found:
            return found.family == socket.AF_UNIX and found.type == socket.SOCK_SEQPACKET
    except OSError:
        return False


def _from_broker(broker: int) -> socket.socket:
    """Sends machrun one end of a new pair of sockets, and receives the connection on the other end. So threads and
    processes that share the descriptor to machrun don't get one another's connections."""
    wait = Deadline(_BROKER_PATIENCE)
    own, sent = socket.socketpair(socket.AF_UNIX, socket.SOCK_SEQPACKET)
    with own:
        with sent:
            _ask(broker, sent, wait)
        own.settimeout(wait.left())
        given, byte = _receive(own)
    if given:
        return socket.socket(fileno=given[0])
    if byte in (0, _LATER):
        raise ConnectionError("machrun has no connection to the server now")
    raise refusal(byte)


def _ask(broker: int, sent: socket.socket, wait: Deadline) -> None:
    """Sends an end of the pair. If others have filled the queue, it tries again a moment later."""
    rights = [(socket.SOL_SOCKET, socket.SCM_RIGHTS, array.array("i", [sent.fileno()]))]
    with socket.socket(fileno=os.dup(broker)) as asked:
        while True:
            try:
                asked.sendmsg([b"\0"], rights, socket.MSG_DONTWAIT | socket.MSG_NOSIGNAL)
                return
            except OSError as fault:
                if fault.errno not in _PASSING or not wait.pause():
                    raise


def _receive(own: socket.socket) -> Tuple[array.array[int], int]:
    """Returns the descriptors that came, and the byte; an end without a byte counts as 0."""
    text, ancillary, _, _ = own.recvmsg(1, socket.CMSG_LEN(4), socket.MSG_CMSG_CLOEXEC)
    given = array.array("i")
    for _, _, data in ancillary:
        given.frombytes(data)
    return given, text[0] if text else 0
