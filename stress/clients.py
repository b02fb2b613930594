"""A server on a socket, and clients of it, some of whose calls wait."""

import contextlib
import math
import os
import select
import signal
import socket
import struct
import subprocess
import time

from frames import COMPLEX, IN_LINE, words
from machine import (
    COPY_SEND,
    MACH_MSG,
    MAKE_SEND,
    MOST_QUEUED,
    PORT_SET,
    RCV_MSG,
    RCV_TIMEOUT,
    RECEIVE,
    SEND_MSG,
    SEND_TIMEOUT,
)
from store import Difference, framed

# The calls of the parts, by their numbers.
ATTACH, NAMES, TYPE, RENAME, ALLOCATE_NAME, ALLOCATE, DESTROY, DEALLOCATE = range(8)
MOD_REFS, SET_QLIMIT, SET_SEQNO, RECEIVE_STATUS, SET_STATUS, MOVE_MEMBER = 9, 10, 12, 13, 14, 15
REQUEST, INSERT_RIGHT, EXTRACT_RIGHT, SPACE_CREATE, SPACE_DESTROY = 16, 17, 18, 20, 21

MACH_RCV_PORT_CHANGED, MACH_RCV_PORT_DIED = 0x10004006, 0x10004009

# Seconds between calls whose order matters, so that each waits before the next one arrives.
APART = 0.05

# Seconds during which it is checked that nothing is answered.
STILL = 0.2

TEN_MINUTES = 600_000

# Maximum seconds until a call is answered after the event that ends its wait.
PROMPT = 2

# Offsets in a reply: the code; and for a receive the size, the name of the port and the message's id.
CODE, SIZE, MEMBER, ID = 1, 2, 3, 9


def ports(disposition, *names):
    """Returns an item of a body."""
    return words(disposition | 32 << 8 | len(names) << 16 | IN_LINE, *names)


def message(name, number, disposition, *body):
    return words(disposition | (COMPLEX if body else 0), 0, name, 0, 0, number) + b"".join(body)


def sending(name, number, *body, timeout=None, disposition=COPY_SEND):
    """Returns a send of a message with this number, which waits without a timeout, or for these milliseconds."""
    option = SEND_MSG | (0 if timeout is None else SEND_TIMEOUT)
    return words(MACH_MSG, option, 0, 0, timeout or 0) + message(name, number, disposition, *body)


def receiving(name, timeout=None, limit=8192, option=0):
    option |= RCV_MSG | (0 if timeout is None else RCV_TIMEOUT)
    return words(MACH_MSG, option, limit, name, timeout or 0)


def exchanging(name, number, source, disposition=COPY_SEND):
    """Returns a send followed by a receive that waits."""
    return words(MACH_MSG, SEND_MSG | RCV_MSG, 8192, source, 0) + message(name, number, disposition)


class Client:
    """A connection."""

    def __init__(self, path, space=1):
        self.socket = socket.socket(socket.AF_UNIX)
        self.socket.connect(path)
        # The time at which the connection was ended, and true if no call was pending then.
        self.unread, self.gone_at, self.was_calm = b"", None, False
        if space != 1:
            self.call(ATTACH, space)

    def fileno(self):
        return self.socket.fileno()

    def write(self, *frames):
        self.socket.sendall(framed(*frames))

    def next(self):
        """Returns the next whole reply in the bytes that were read, as words."""
        if len(self.unread) < 4:
            return None
        (length,) = struct.unpack_from("<I", self.unread)
        content = self.unread[4 : 4 + length]
        if len(content) < length:
            return None
        self.unread = self.unread[4 + length :]
        return struct.unpack(f"<{length // 4}I", content[: length // 4 * 4])

    def reply(self, within=PROMPT):
        """Returns the next reply, or None if it doesn't come within these seconds (None: no timeout)."""
        until = within is not None and time.monotonic() + within
        while True:
            reply = self.next()
            if reply:
                return reply
            self.socket.settimeout(None if within is None else max(until - time.monotonic(), 0.0001))
            try:
                more = self.socket.recv(65_536)
            except TimeoutError:
                return None
            finally:
                self.socket.settimeout(None)
            if not more:
                raise EOFError
            self.unread += more

    def ask(self, frame):
        """Returns the reply to a frame that needn't wait."""
        self.write(frame)
        reply = self.reply(30)
        if reply is None:
            raise Difference(f"frame {frame.hex()} isn't answered")
        return reply

    def call(self, number, *arguments):
        """Returns the results of a call that must be done."""
        frame = words(number, *arguments)
        reply = self.ask(frame)
        if reply[CODE]:
            raise Difference(f"frame {frame.hex()} is answered with {reply[CODE]:#x}")
        return reply[2:]

    def name(self, right):
        return self.call(ALLOCATE, right)[0]

    def new_ports(self, count):
        """Returns the names of new ports."""
        names = []
        while len(names) < count:
            some = min(500, count - len(names))
            self.write(*[words(ALLOCATE, RECEIVE)] * some)
            names += [self.reply(30)[2] for _ in range(some)]
        return names

    def send(self, name, number, *body, **words_of):
        """Sends a message for which there is room."""
        reply = self.ask(sending(name, number, *body, **words_of))
        if reply[CODE]:
            raise Difference(f"message {number} to {name:#x} is answered with {reply[CODE]:#x}")

    def send_all(self, name, numbers):
        """Sends messages for which there is room, written at once."""
        self.write(*(sending(name, it) for it in numbers))
        for number in numbers:
            reply = self.reply(30)
            if reply is None or reply[CODE]:
                raise Difference(f"message {number} to {name:#x}, with room for it, is answered with {reply}")

    def take(self, name):
        """Returns the number of the next message, or None if there is none."""
        reply = self.ask(receiving(name, timeout=0))
        return None if reply[CODE] else reply[ID]

    def take_all(self, name, most):
        """Returns the numbers of the messages, of which there are at most this many."""
        self.write(*[receiving(name, timeout=0)] * most)
        replies = [self.reply(30) for _ in range(most)]
        return [it[ID] for it in replies if it and it[CODE] == 0]

    def port(self, limit=MOST_QUEUED):
        """Returns a new port with a send right."""
        name = self.name(RECEIVE)
        self.call(INSERT_RIGHT, name, name, MAKE_SEND)
        self.call(SET_QLIMIT, name, limit)
        return name

    def set_of(self, *members):
        name = self.name(PORT_SET)
        for member in members:
            self.call(MOVE_MEMBER, member, name)
        return name

    def queued(self, name):
        """Returns the number of messages of a port."""
        return self.call(RECEIVE_STATUS, name)[4]

    def end_writing(self):
        self.socket.shutdown(socket.SHUT_WR)

    def close(self):
        self.socket.close()

    def kill(self):
        """Gives the connection to another process, and kills that process."""
        holder = subprocess.Popen(["sleep", "600"], stdin=self.socket)
        self.socket.close()
        holder.kill()
        # When it can be waited for, its files are closed.
        holder.wait()

    def go(self):
        """Ends the connection as a close does, but earlier replies can still be read."""
        if self.gone_at is None:
            # Until the time is known, any moment is possible.
            self.gone_at = math.inf
            with contextlib.suppress(OSError):
                self.socket.shutdown(socket.SHUT_RDWR)
            self.gone_at = time.monotonic()


def answered(clients, within):
    """Returns the first of these clients with a reply, as an index, and the reply; or None if none comes within these
    seconds."""
    poll = select.poll()
    for client in clients:
        poll.register(client, select.POLLIN)
    ready = {number for number, _ in poll.poll(1_000 * within)}
    for place, client in enumerate(clients):
        if client.fileno() in ready:
            return place, client.reply()
    return None


def expect(who, client, code, number=None):
    """Returns the reply of a client whose wait ends now."""
    reply = client.reply()
    if reply is None:
        raise Difference(f"{who} waits on")
    if reply[CODE] != code:
        raise Difference(f"{who} is answered with {reply[CODE]:#x}, not {code:#x}")
    if number is not None and reply[ID] != number:
        raise Difference(f"{who} gets message {reply[ID]}, not {number}")
    return reply


def expect_message(who, client, number):
    return expect(who, client, 0, number)


def expect_still(who, clients, within=STILL):
    """Checks that no client gets a reply."""
    found = answered(clients, within)
    if found:
        raise Difference(f"{who} is answered: {found[1]}")


def expect_turn(who, clients, number=None):
    """Checks that the first of these clients gets a reply, with a message of this number if one is given, and that no
    other does."""
    found = answered(clients, PROMPT)
    if found is None:
        raise Difference(f"{who}: none of {len(clients)} is answered")
    place, reply = found
    if place or reply[CODE] or number is not None and reply[ID] != number:
        raise Difference(f"{who}: number {place + 1} of those that wait is answered: {reply}")
    expect_still(f"{who}: another", clients[1:], 0.02)
    return clients.pop(0)


def sleep_until(moment):
    time.sleep(max(0, moment - time.monotonic()))


def close_all(clients):
    for client in clients:
        client.close()


class Server:
    """The server of a store on a socket."""

    def __init__(self, store):
        self.store, self.path = store, store.folder + ".socket"
        self.start()

    def start(self):
        pipes = {"stdout": subprocess.PIPE, "stderr": subprocess.PIPE}
        words_of = [self.store.programs / "machipcd", "--socket", self.path, self.store.folder]
        self.program = subprocess.Popen(words_of, **pipes)
        if self.program.stdout.readline() != b"machipcd: ready\n":
            raise Difference(f"not ready: {self.program.stderr.read()}")

    def client(self, space=1):
        return Client(self.path, space)

    def clients_of(self, count, space=1):
        return [self.client(space) for _ in range(count)]

    def kill(self):
        """Kills the server, which must still be running."""
        self.program.kill()
        _, errors = self.program.communicate()
        if self.program.returncode != -signal.SIGKILL:
            raise Difference(f"the server ended by itself, with status {self.program.returncode}: {errors}")

    def end(self):
        self.kill()
        os.unlink(self.path)
