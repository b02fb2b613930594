"""Deadlines, and pauses until them."""

from __future__ import annotations

import time
from typing import Optional

_FIRST_PAUSE, _LONGEST_PAUSE = 0.001, 0.05
# The seconds within which a path has to lead to a server that answers, with all calls that a connection begins with.
PATH_TIME = 3.0
_LONGEST_ANSWER = 10.0


def answer_time(patience: Optional[float], has_other_paths: bool) -> Optional[float]:
    """Returns the seconds within which the server has to answer a call that doesn't wait, and after which it has to answer
    one that waits. With several paths it is a third of the patience, from 3 to 10 seconds: a wait over a path that is cut
    leaves a third of the patience for the other paths. With one path it is None: no other path could do better, and a
    server whose disk hangs answers late."""
    if not has_other_paths:
        return None
    return _LONGEST_ANSWER if patience is None else min(max(patience / 3, PATH_TIME), _LONGEST_ANSWER)


def path_time(patience: Optional[float], has_other_paths: bool) -> Optional[float]:
    """Returns the seconds within which a path has to lead to a server: PATH_TIME, or the patience if there is no other
    path."""
    if has_other_paths:
        return PATH_TIME
    return None if patience is None else max(patience, PATH_TIME)


def earlier(one: Optional[float], other: Optional[float]) -> Optional[float]:
    """Returns the lesser of two times, of which None is forever."""
    return min((it for it in (one, other) if it is not None), default=None)


def total(one: Optional[float], other: Optional[float]) -> Optional[float]:
    """Returns the sum of two times, of which None is forever."""
    return None if one is None or other is None else one + other


class Deadline:
    """A deadline this many seconds from now; None is no deadline."""

    def __init__(self, seconds: Optional[float]) -> None:
        self.end = None if seconds is None else time.monotonic() + seconds
        self._pause = _FIRST_PAUSE

    def left(self) -> Optional[float]:
        return None if self.end is None else max(0.0, self.end - time.monotonic())

    def next_pause(self) -> Optional[float]:
        """Returns the seconds of the next pause, each longer than the one before, or None if no time is left."""
        left = self.left()
        if left == 0:
            return None
        pause = self._pause if left is None else min(self._pause, left)
        self._pause = min(2 * self._pause, _LONGEST_PAUSE)
        return pause

    def pause(self) -> bool:
        """Sleeps, and returns False if no time was left."""
        pause = self.next_pause()
        if pause is None:
            return False
        time.sleep(pause)
        return True


def milliseconds(seconds: Optional[float]) -> int:
    """Returns a timeout as `mach_msg` has it: whole milliseconds, rounded up."""
    return 0 if seconds is None else min(max(0, int(seconds * 1000 + 0.999)), 0xFFFFFFFE)
