"""The calls on names, rights, ports and sets (`mach_port_..` in Mach's headers)."""

from __future__ import annotations

from typing import Dict, List, NamedTuple, Optional, Tuple

from . import wire
from .constants import MAKE_SEND_ONCE, PORT_NULL, RECEIVE
from .exchange import Exchange


class PortStatus(NamedTuple):
    """The state of a receive right's port."""

    set: int  # the set that the port is in, or 0
    seqno: int  # the number that its next message gets
    mscount: int  # its make-send count
    qlimit: int  # the messages that its queue takes
    messages: int  # the messages in its queue
    send_once_rights: int
    has_senders: bool
    has_port_destroyed_request: bool
    has_no_senders_request: bool


class PortCalls(Exchange):
    """Mach's calls by names. Each is refused with an exception that has the name of the code."""

    def names(self) -> Dict[int, int]:
        """Returns all names of the space, ascending, with the type of each."""
        rows = self._rows(wire.NAMES, width=2)
        return dict(zip(rows[::2], rows[1::2]))

    def type(self, name: int) -> int:
        """Returns the type of a name: bits of `type_of`, and DEAD_NAME_REQUEST."""
        return self._call(wire.TYPE, name, wanted=1)[0]

    def rename(self, old: int, new: int) -> None:
        """Moves the rights of a name to another name."""
        self._call(wire.RENAME, old, new)

    def _allocate(self, right: int = RECEIVE, name: Optional[int] = None) -> int:
        if name is not None:
            self._call(wire.ALLOCATE_NAME, right, name)
            return name
        return self._call(wire.ALLOCATE, right, wanted=1)[0]

    def destroy(self, name: int) -> None:
        """Gives all rights of a name back."""
        self._call(wire.DESTROY, name)

    def deallocate(self, name: int) -> None:
        """Gives back one reference of a send right or a dead name, or a send-once right."""
        self._call(wire.DEALLOCATE, name)

    def get_refs(self, name: int, right: int) -> int:
        """Returns the references that a name has of a right."""
        return self._call(wire.GET_REFS, name, right, wanted=1)[0]

    def mod_refs(self, name: int, right: int, delta: int) -> None:
        """Adds to the references that a name has of a right."""
        self._call(wire.MOD_REFS, name, right, delta)

    def set_qlimit(self, name: int, limit: int) -> None:
        """Sets the limit of a port's queue."""
        self._call(wire.SET_QLIMIT, name, limit)

    def set_mscount(self, name: int, count: int) -> None:
        """Sets the make-send count of a port."""
        self._call(wire.SET_MSCOUNT, name, count)

    def set_seqno(self, name: int, seqno: int) -> None:
        """Sets the number of a port's next message."""
        self._call(wire.SET_SEQNO, name, seqno)

    def get_receive_status(self, name: int) -> PortStatus:
        """Returns the state of a receive right's port."""
        found = self._call(wire.GET_RECEIVE_STATUS, name, wanted=9)
        port_set, seqno, mscount, qlimit, messages, send_once_rights = found[:6]
        senders, port_destroyed, no_senders = map(bool, found[6:])
        return PortStatus(
            port_set, seqno, mscount, qlimit, messages, send_once_rights, senders, port_destroyed, no_senders
        )

    def get_set_status(self, name: int) -> List[int]:
        """Returns the members of a set, ascending."""
        return list(self._rows(wire.GET_SET_STATUS, name, width=1))

    def move_member(self, member: int, after: int = PORT_NULL) -> None:
        """Puts a port into a set, or out of the set that it is in."""
        self._call(wire.MOVE_MEMBER, member, after)

    def request_notification(
        self, name: int, variant: int, notify: int, disposition: int = MAKE_SEND_ONCE, sync: int = 0
    ) -> int:
        """Asks for a notice at `notify`, and returns the send-once right of the request before, or 0."""
        return self._call(wire.REQUEST_NOTIFICATION, name, variant, sync, notify, disposition, wanted=1)[0]

    def insert_right(self, name: int, right_name: int, disposition: int) -> None:
        """Takes a right from `right_name` and gives it the name `name`."""
        self._call(wire.INSERT_RIGHT, name, right_name, disposition)

    def extract_right(self, name: int, disposition: int) -> Tuple[int, int]:
        """Takes a right from a name, and returns its new name and the type that it arrived as."""
        right_name, type_ = self._call(wire.EXTRACT_RIGHT, name, disposition, wanted=2)
        return right_name, type_

    def space_create(self, name: int, disposition: int) -> Tuple[int, int]:
        """Makes a space that holds one right, and returns its number and the right's name there."""
        space, name_there = self._call(wire.SPACE_CREATE, name, disposition, wanted=2)
        return space, name_there
