"""Tasks for asyncio: every call is awaited, and a receive may be cancelled at any moment and loses nothing.

Calls run one after the other on a thread of the task's own. A receive takes a message by a call that doesn't wait, which runs
to its end and leaves the message with the task. In between it waits by a call that takes nothing, on a connection of its
own. So whatever is cancelled, the message is what the task's next receive there returns.
"""

from __future__ import annotations

import asyncio
import collections
import concurrent.futures
import contextlib
import functools
import socket
from typing import Any, Callable, Deque, Dict, List, Optional, Tuple, TypeVar

from . import routes, wire
from .constants import FIRST_SPACE, LARGEST_MESSAGE, MAKE_SEND_ONCE, PORT_NULL, PORT_SET, RECEIVE, SEND
from .errors import (
    MACH_RCV_INTERRUPTED,
    MACH_RCV_TIMED_OUT,
    MACH_RCV_TOO_LARGE,
    MACH_SEND_INTERRUPTED,
    MACH_SEND_TIMED_OUT,
    MachError,
)
from .messages import Message
from .ports import PortStatus
from .task import Task
from .waiting import Deadline, total

T = TypeVar("T")


class AsyncRight(int):
    """A name that holds a right: an int, which every call takes. At the end of an `async with` block the right is given
    back; `detach` keeps it."""

    _task: Optional[AsyncTask]
    kind: int

    def __new__(cls, task: AsyncTask, name: int, kind: int) -> AsyncRight:
        made = super().__new__(cls, name)
        made._task, made.kind = task, kind
        return made

    def detach(self) -> int:
        """Returns the name. The right stays in the space at the end of the block."""
        self._task = None
        return int(self)

    async def release(self) -> None:
        """Gives the right back now. A right that isn't there any more is no error."""
        task, self._task = self._task, None
        if task is not None:
            await task._run(task.task.right(self, self.kind).release)
            if self.kind in (RECEIVE, PORT_SET):
                await task._forget(self)

    async def __aenter__(self) -> AsyncRight:
        return self

    async def __aexit__(self, *_: object) -> None:
        await self.release()


class AsyncTask:
    """A Task for asyncio, with the same calls, codes and modes; `connect` and `adopt` make one.

    Its calls may be awaited by any number of asyncio's tasks of one event loop, and may be cancelled. A cancelled receive
    took no message, or the next receive from that port or set returns it; with `once` also across a restart of the server.
    Another cancelled call was made or not.
    """

    def __init__(self, task: Task) -> None:
        """Takes over a Task, which nothing else may use from now on."""
        self.task = task
        self._thread = concurrent.futures.ThreadPoolExecutor(1, "machipc")
        self._taken: Dict[int, Deque[Message]] = {}
        self._left: List[Message] = []  # taken in spaces that the task has left
        self._idle: List[socket.socket] = []
        self._generation = 0  # grows when connections become useless: those in use aren't kept after their waits

    @classmethod
    async def connect(
        cls, path: str, space: int = FIRST_SPACE, *, once: bool = False, patience: Optional[float] = 30.0
    ) -> AsyncTask:
        """Connects to the server at `path`, in a space."""
        return cls(await asyncio.to_thread(functools.partial(Task, path, space, once=once, patience=patience)))

    @classmethod
    async def adopt(cls, *, once: bool = False, patience: Optional[float] = 30.0) -> AsyncTask:
        """Returns the task that the environment names, as `Task.adopt` does."""
        return cls(await asyncio.to_thread(functools.partial(Task.adopt, once=once, patience=patience)))

    async def __aenter__(self) -> AsyncTask:
        return self

    async def __aexit__(self, *_: object) -> None:
        await self.close()

    async def close(self) -> List[Message]:
        """Ends the connections. Returns the messages that cancelled receives took and no receive returned; their rights stay
        in the space."""
        await self._run(self.task.close)
        self._thread.shutdown(wait=False)
        self._close_idle()
        self._set_aside()
        left, self._left = self._left, []
        return left

    def _set_aside(self) -> None:
        """Takes the messages of cancelled receives away from later receives, which are in another space."""
        self._left += [message for messages in self._taken.values() for message in messages]
        self._taken.clear()

    async def _run(self, call: Callable[..., T], *arguments: Any) -> T:
        """Makes a call on the task's thread."""
        return await asyncio.get_running_loop().run_in_executor(self._thread, functools.partial(call, *arguments))

    # Messages.

    async def send(self, message: Message, timeout: Optional[float] = None) -> None:
        """Sends a message, and waits for room in the queue."""
        wait = Deadline(timeout)
        while True:
            try:
                return await self._run(self.task.send, message, 0)
            except MACH_SEND_TIMED_OUT:
                pause = wait.next_pause()
                if pause is None:
                    raise
            await asyncio.sleep(pause)

    async def receive(
        self, name: int, timeout: Optional[float] = None, limit: int = LARGEST_MESSAGE, large: bool = False
    ) -> Message:
        """Receives a message of at most `limit` bytes from a port or a set, and waits for one."""
        wait = Deadline(timeout)
        while True:
            message = await self._next_taken(name, limit, large)
            if message is not None:
                return message
            try:
                await self._run(self._take, name, limit, large)
            except MACH_RCV_TIMED_OUT:
                if wait.left() == 0:
                    raise
                await self._await(name, wait)

    async def send_receive(
        self, message: Message, name: int, timeout: Optional[float] = None, limit: int = LARGEST_MESSAGE
    ) -> Message:
        """Sends a message and then receives one from `name`. Each half has the timeout."""
        await self.send(message, timeout)
        return await self.receive(name, timeout, limit)

    def _take(self, name: int, limit: int, large: bool) -> None:
        """Takes a message out of the queue, unless there is one that a cancelled receive took. Runs on the task's thread."""
        if not self._taken.get(name):
            message = self.task.receive(name, 0, limit, large)
            self._taken.setdefault(name, collections.deque()).append(message)

    async def _next_taken(self, name: int, limit: int, large: bool) -> Optional[Message]:
        """Returns a message that was taken, or refuses it as the server does one above the limit."""
        messages = self._taken.get(name)
        if not messages:
            return None
        size = 24 + len(messages[0].body)
        if size <= limit:
            return messages.popleft()
        refused = MACH_RCV_TOO_LARGE()
        refused.size, refused.member = size, messages[0].local
        if not large:
            await self._run(self.task.give_back, messages.popleft())
        raise refused

    async def _forget(self, name: int) -> None:
        """Gives back the rights of messages that were taken of a port that is gone, as the server does with its queue."""
        for message in self._taken.pop(int(name), ()):
            await self._run(self.task.give_back, message)

    # Waiting.

    async def _await(self, name: int, wait: Deadline) -> None:
        """Waits until there is a message, and leaves it, or until the server has to answer all the same. A task that numbers
        its calls waits again after a cut."""
        patience: Optional[Deadline] = None
        while True:
            try:
                return await self._watch(name, self.task._part(wait))
            except (MACH_SEND_INTERRUPTED, MACH_RCV_INTERRUPTED) as fault:
                patience = patience or Deadline(self.task.patience)
                pause = patience.next_pause() if self.task._numbers else None
                if pause is None:
                    raise MACH_RCV_INTERRUPTED(*fault.args) from None
            await asyncio.sleep(pause)

    async def _watch(self, name: int, timeout: Optional[float]) -> None:
        """Waits by a call with limit 0, into which no message fits. A cancelled wait ends with its connection, and so does one
        whose answer is late if there are other paths."""
        while not self._idle:
            await asyncio.to_thread(self._open)
        connection, generation = self._idle.pop(), self._generation
        time = total(timeout, self.task._answer_time())
        late = None if time is None else asyncio.get_running_loop().call_later(time, _cut, connection)
        is_out = False
        try:
            option = wire.RCV_MSG | wire.RCV_LARGE | (wire.timeouts(timeout) & wire.RCV_TIMEOUT)
            frame = wire.words(wire.MACH_MSG) + wire.mach_msg(option, 0, name, timeout)
            await asyncio.get_running_loop().sock_sendall(connection, wire.with_length(frame))
            is_out = True
            code, results = wire.answer(wire.MACH_MSG, await _read_frame(connection))
        except OSError as fault:
            connection.close()
            self._close_idle()  # they are cut too
            await self._run(self.task.close)
            raise (MACH_RCV_INTERRUPTED if is_out else MACH_SEND_INTERRUPTED)(str(fault)) from None
        except BaseException:
            connection.close()
            raise
        finally:
            if late:
                late.cancel()
        if generation == self._generation:
            self._idle.append(connection)
        else:
            connection.close()
        with contextlib.suppress(MACH_RCV_TOO_LARGE, MACH_RCV_TIMED_OUT):
            wire.message(code, results, 0)

    def _open(self) -> None:
        """Opens a connection for a wait, on another thread: the connection exists even if the wait was cancelled."""
        generation = self._generation
        try:
            made = routes.open_socket(self.task._route, self.task.space, self.task._is_confined, self.task.patience)
        except OSError as fault:
            if isinstance(fault, MachError):
                raise
            raise MACH_SEND_INTERRUPTED(str(fault)) from None
        made.setblocking(False)
        if generation == self._generation:
            self._idle.append(made)
        else:
            made.close()

    def _close_idle(self) -> None:
        """Closes connections that were cut, or are in another space, or aren't confined."""
        self._generation += 1
        for it in self._idle:
            it.close()
        self._idle.clear()

    # Calls on names, as of Task.

    @property
    def space(self) -> int:
        return self.task.space

    @property
    def bootstrap(self) -> int:
        return self.task.bootstrap

    @property
    def start(self) -> int:
        return self.task.start

    @property
    def repeats(self) -> int:
        return self.task.repeats

    async def attach(self, space: int) -> None:
        """Goes to another space, as `Task.attach` does. Messages that cancelled receives took here are left to `close`."""
        await self._run(self.task.attach, space)
        self._close_idle()
        self._set_aside()

    async def confine(self) -> None:
        await self._run(self.task.confine)
        self._close_idle()

    async def names(self) -> Dict[int, int]:
        return await self._run(self.task.names)

    async def type(self, name: int) -> int:
        return await self._run(self.task.type, name)

    async def rename(self, old: int, new: int) -> None:
        await self._run(self.task.rename, old, new)

    async def allocate(self, right: int = RECEIVE, name: Optional[int] = None) -> AsyncRight:
        return AsyncRight(self, await self._run(self.task.allocate, right, name), right)

    def right(self, name: int, kind: int = SEND) -> AsyncRight:
        return AsyncRight(self, name, kind)

    async def make_send(self, port: int) -> AsyncRight:
        return AsyncRight(self, *await self._run(_name_and_kind, self.task.make_send, port))

    async def make_send_once(self, port: int) -> AsyncRight:
        return AsyncRight(self, *await self._run(_name_and_kind, self.task.make_send_once, port))

    async def give_back(self, message: Message) -> None:
        await self._run(self.task.give_back, message)

    async def destroy(self, name: int) -> None:
        await self._run(self.task.destroy, name)
        await self._forget(name)

    async def deallocate(self, name: int) -> None:
        await self._run(self.task.deallocate, name)

    async def get_refs(self, name: int, right: int) -> int:
        return await self._run(self.task.get_refs, name, right)

    async def mod_refs(self, name: int, right: int, delta: int) -> None:
        await self._run(self.task.mod_refs, name, right, delta)
        if right in (RECEIVE, PORT_SET) and delta:
            await self._forget(name)

    async def set_qlimit(self, name: int, limit: int) -> None:
        await self._run(self.task.set_qlimit, name, limit)

    async def set_mscount(self, name: int, count: int) -> None:
        await self._run(self.task.set_mscount, name, count)

    async def set_seqno(self, name: int, seqno: int) -> None:
        await self._run(self.task.set_seqno, name, seqno)

    async def get_receive_status(self, name: int) -> PortStatus:
        return await self._run(self.task.get_receive_status, name)

    async def get_set_status(self, name: int) -> List[int]:
        return await self._run(self.task.get_set_status, name)

    async def move_member(self, member: int, after: int = PORT_NULL) -> None:
        await self._run(self.task.move_member, member, after)

    async def request_notification(
        self, name: int, variant: int, notify: int, disposition: int = MAKE_SEND_ONCE, sync: int = 0
    ) -> int:
        return await self._run(self.task.request_notification, name, variant, notify, disposition, sync)

    async def insert_right(self, name: int, right_name: int, disposition: int) -> None:
        await self._run(self.task.insert_right, name, right_name, disposition)

    async def extract_right(self, name: int, disposition: int) -> Tuple[int, int]:
        return await self._run(self.task.extract_right, name, disposition)

    async def space_create(self, name: int, disposition: int) -> Tuple[int, int]:
        return await self._run(self.task.space_create, name, disposition)

    async def space_destroy(self) -> None:
        await self._run(self.task.space_destroy)


def _name_and_kind(make: Callable[[int], Any], port: int) -> Tuple[int, int]:
    made = make(port)
    return int(made), made.kind


def _cut(connection: socket.socket) -> None:
    """Ends a connection whose answer is late, so that reading from it fails."""
    with contextlib.suppress(OSError):
        connection.shutdown(socket.SHUT_RDWR)


async def _read_frame(connection: socket.socket) -> bytes:
    return await _read(connection, wire.length_of(await _read(connection, 4)))


async def _read(connection: socket.socket, count: int) -> bytes:
    loop = asyncio.get_running_loop()
    text = bytearray()
    while len(text) < count:
        some = await loop.sock_recv(connection, count - len(text))
        if not some:
            raise ConnectionError("the server ended the connection")
        text += some
    return bytes(text)
