"""Tasks: a space of a server, and the calls that are made there."""

from __future__ import annotations

import contextlib
import os
import random
import struct
from typing import Optional

from . import routes, wire
from .constants import (
    COPY_SEND,
    DEAD_NAME,
    FIRST_SPACE,
    MAKE_SEND,
    MAKE_SEND_ONCE,
    MOVE_RECEIVE,
    MOVE_SEND,
    MOVE_SEND_ONCE,
    PORT_DEAD,
    PORT_NULL,
    RECEIVE,
    SEND,
    SEND_ONCE,
)
from .errors import (
    KERN_INVALID_NAME,
    KERN_INVALID_RIGHT,
    KERN_INVALID_TASK,
    KERN_NAME_EXISTS,
    KERN_NO_ACCESS,
    KERN_NO_SPACE,
    MACH_RCV_INTERRUPTED,
    MACH_SEND_INTERRUPTED,
    MachError,
)
from .exchange import register
from .messages import Message, Ports
from .messaging import Messaging
from .ports import PortCalls
from .rights import Right


def _number_of_environment(variable: str, default: str = "") -> int:
    try:
        return int(os.environ.get(variable, default), 0)
    except ValueError:
        raise ValueError(f"{variable} of the environment is no number") from None


def _route_of_environment(path: str) -> routes.Route:
    if "MACHIPC_FD" not in os.environ and path:
        return routes.Paths(path)
    descriptor = _number_of_environment("MACHIPC_FD")
    if not routes.is_broker(descriptor):
        raise ValueError("the environment has no way to the task's server")
    return routes.Broker(descriptor, _number_of_environment("MACHIPC_PATHS", "1") > 1)


class Task(PortCalls, Messaging):
    """A connection to the server at `path`, in a space; `Task.adopt` gives one to the server and space that machrun chose.
    A list of paths, `PATH1:PATH2`, leads to the first server that answers.

    A Task is for one thread at a time; `another` gives one more in the same space. Timeouts are seconds, and None waits
    forever. A connection that is cut raises MACH_SEND_INTERRUPTED or MACH_RCV_INTERRUPTED, and the next call connects
    anew, as does the first one in a child of fork.

    With `once` each call that changes something has one effect and one answer however often the connection is cut: it
    is sent as a numbered request, and repeated until it is answered or `patience` seconds are over. `repeats` counts the
    calls of this Task that were repeated. Only one program at a time may do so in a space; in a child of fork the calls
    of such a Task raise KERN_FAILURE.
    """

    def __init__(
        self, path: str, space: int = FIRST_SPACE, *, once: bool = False, patience: Optional[float] = 30.0
    ) -> None:
        self.path = path
        self._begin(routes.Paths(path), space, once, patience)

    @classmethod
    def adopt(cls, *, once: bool = False, patience: Optional[float] = 30.0) -> Task:
        """Returns the task that the environment names, as machrun starts a program with it. `bootstrap` is the name of its
        first right, and `start` counts the starts of the task, from 1.

        If MACHIPC_FD is there, all connections come from machrun, by that descriptor, and are confined to the space.
        ValueError: the environment has no task."""
        path = os.environ.get("MACHIPC_SOCKET", "")
        space, bootstrap = _number_of_environment("MACHIPC_SPACE"), _number_of_environment("MACHIPC_BOOTSTRAP")
        start = _number_of_environment("MACHIPC_START", "1")
        made = cls.__new__(cls)
        made.path = path
        made._begin(_route_of_environment(path), space, once, patience)
        made.bootstrap, made.start = bootstrap, start
        return made

    def _begin(self, route: routes.Route, space: int, once: bool, patience: Optional[float]) -> None:
        self.space = space
        self.patience = patience
        self.repeats = 0
        self.bootstrap, self.start = PORT_NULL, 1
        self._route = route
        self._is_confined = isinstance(route, routes.Broker)
        self._is_refused = False
        self._numbers = None
        self._socket = None
        register(self)
        try:
            if once:
                self._numbers = self._numbers_of_space()
            else:
                self._open()
        except BaseException:
            self.close()
            raise

    def __enter__(self) -> Task:
        return self

    def __exit__(self, *_: object) -> None:
        self.close()

    def another(self) -> Task:
        """Returns a Task in the same space and mode, for another thread."""
        made = Task.__new__(Task)
        made.__dict__.update(self.__dict__, _socket=None, repeats=0)
        register(made)
        return made

    def attach(self, space: int) -> None:
        """Goes to another space. The names of this one stay there. KERN_INVALID_TASK: there is no such space;
        KERN_NO_ACCESS: the Task is confined to another one."""
        if self._is_confined and space != self.space:
            raise KERN_NO_ACCESS()
        before, numbers = self.space, self._numbers
        self.close()
        self.space = space
        try:
            self._numbers = self._numbers_of_space() if numbers else None
            self._open()
        except MachError:
            self.close()
            self.space, self._numbers = before, numbers
            raise

    def confine(self) -> None:
        """Confines the Task to its space, for good: the server then refuses its connection every other space. If that space
        is destroyed, all calls are refused with KERN_INVALID_TASK, also when another one has its number."""
        self._call(wire.CONFINE)
        self._is_confined = True

    # Rights.

    def allocate(self, right: int = RECEIVE, name: Optional[int] = None) -> Right:
        """Makes a port, a set or a dead name, under a new name or the one that is given."""
        return Right(self, self._allocate(right, name), right)

    def right(self, name: int, kind: int = SEND) -> Right:
        """Returns a name for a `with` block that gives its right of this kind back, as one that came in a message."""
        return Right(self, name, kind)

    def make_send(self, port: int) -> Right:
        """Makes a send right of a receive right, under the same name."""
        self.insert_right(port, port, MAKE_SEND)
        return Right(self, port, SEND)

    def make_send_once(self, port: int) -> Right:
        """Makes a send-once right of a receive right."""
        return Right(self, self.extract_right(port, MAKE_SEND_ONCE)[0], SEND_ONCE)

    def give_back(self, message: Message) -> None:
        """Gives back the rights of a message that was received, or that was to be sent and wasn't (`mach_msg_destroy`)."""
        self._give_back(message.remote, message.disposition)
        for item in message.items if message.has_items else ():
            if isinstance(item, Ports):
                for name in item.names:
                    self._give_back(name, item.disposition)

    def _give_back(self, name: int, disposition: int) -> None:
        """Gives back a right with this disposition. One that was to be made is made first, so that its port gets a notice."""
        if name in (PORT_NULL, PORT_DEAD) or disposition == COPY_SEND:
            return
        with contextlib.suppress(KERN_INVALID_NAME, KERN_INVALID_RIGHT):
            if disposition in (MOVE_SEND, MOVE_SEND_ONCE):
                self.deallocate(name)
            elif disposition == MOVE_RECEIVE:
                self.mod_refs(name, RECEIVE, -1)
            elif disposition == MAKE_SEND:
                self.make_send(name).release()
            elif disposition == MAKE_SEND_ONCE:
                self.make_send_once(name).release()

    # The end of a space.

    def space_destroy(self) -> None:
        """Gives all rights of the space back and removes it."""
        mark = None
        if self._numbers and self.space != FIRST_SPACE:
            mark = self._marked()
        while True:
            try:
                self._results(wire.SPACE_DESTROY, self._exchange(wire.words(wire.SPACE_DESTROY)))
                return
            except (MACH_SEND_INTERRUPTED, MACH_RCV_INTERRUPTED):
                if mark is None:
                    raise
            try:
                self.type(mark)
            except (KERN_INVALID_NAME, KERN_INVALID_TASK):
                return

    def _marked(self) -> Optional[int]:
        """Puts a dead name that is chosen at random into the space. Returns it, or None if no name is left. The end of a space
        can't be a numbered request, since the space keeps the numbers; and after a cut another space may have the space's
        number. Then the name tells whether this is still the same space."""
        mark = random.randrange(0x80000000, PORT_DEAD)
        frame = struct.pack("<3I", wire.ALLOCATE_NAME, DEAD_NAME, mark)
        try:
            self._results(wire.ALLOCATE_NAME, self._exchange_repeated(frame))
        except KERN_NAME_EXISTS:
            pass  # it was made before a cut
        except KERN_NO_SPACE:
            return None
        return mark
