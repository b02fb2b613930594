"""Rights that are given back at the end of a `with` block."""

from __future__ import annotations

import contextlib
from typing import TYPE_CHECKING, Optional

from .constants import PORT_SET, RECEIVE
from .errors import KERN_INVALID_NAME, KERN_INVALID_RIGHT

if TYPE_CHECKING:
    from .ports import PortCalls


class Right(int):
    """A name that holds a right: an int, which every call takes.

    At the end of a `with` block the right is given back: a receive right with its port, or one reference of a send right
    or a dead name. `detach` keeps it, as after it was moved into a message.
    """

    _task: Optional[PortCalls]
    kind: int

    def __new__(cls, task: PortCalls, name: int, kind: int) -> Right:
        made = super().__new__(cls, name)
        made._task, made.kind = task, kind
        return made

    def detach(self) -> int:
        """Returns the name. The right stays in the space at the end of the block."""
        self._task = None
        return int(self)

    def release(self) -> None:
        """Gives the right back now. A right that isn't there any more is no error."""
        task, self._task = self._task, None
        if task is None:
            return
        with contextlib.suppress(KERN_INVALID_NAME, KERN_INVALID_RIGHT):
            if self.kind in (RECEIVE, PORT_SET):
                task.mod_refs(self, self.kind, -1)
            else:
                task.deallocate(self)

    def __enter__(self) -> Right:
        return self

    def __exit__(self, *_: object) -> None:
        self.release()
