#!/usr/bin/env python3
"""A stand-in for the server, for tests of the clients: the model of stress/machine.py on a Unix socket.

    clients/standin.py [--old] SOCKET [FILE]

It does all that clients see of a server on a socket, with waiting calls and numbered requests; with --old it has no
call 24, as a server of an older version. Each change is written to FILE before it is answered, so a stand-in that is
killed and started again continues with the same state. It isn't made for power failures.
"""

import argparse
import contextlib
import os
import pathlib
import pickle
import selectors
import socket
import struct
import sys
import time

sys.path.insert(0, str(pathlib.Path(__file__).resolve().parent.parent / "stress"))

import machine  # noqa: E402
from machine import MACH_MSG  # noqa: E402
from machine import MACH_RCV_IN_SET, MACH_RCV_INVALID_NAME, MACH_RCV_TIMED_OUT  # noqa: E402
from machine import MACH_SEND_TIMED_OUT, RCV_MSG, RCV_TIMEOUT, SEND_MSG, SEND_TIMEOUT  # noqa: E402

LONGEST = 65_532
# The codes that replace a receive's refusals after a wait.
AFTER_A_WAIT = {MACH_RCV_INVALID_NAME: 0x10004009, MACH_RCV_IN_SET: 0x10004006}


def words(*values):
    return struct.pack(f"<{len(values)}I", *values)


def is_closed(its_socket):
    """Returns True if the other side has closed the socket. Then a write of no bytes fails, even if there are bytes
    left to read."""
    try:
        its_socket.send(b"")
    except OSError:
        return True
    return False


class Connection(machine.Connection):
    """A socket, the bytes read from it, and a call that waits: its halves still to be made, and the deadline."""

    def __init__(self, of_machine, its_socket):
        super().__init__(of_machine)
        self.socket = its_socket
        self.read = b""
        self.halves = []
        self.end = None
        self.has_waited = False


class Standin:
    def __init__(self, path, file):
        self.machine = machine.Machine()
        self.file, self.stored = file, 0
        if file and os.path.exists(file):
            with open(file, "rb") as old:
                self.machine = pickle.load(old)
            self.stored = self.machine.records
        with contextlib.suppress(FileNotFoundError):
            os.unlink(path)
        self.selector = selectors.DefaultSelector()
        self.connections = {}
        self.listener = socket.socket(socket.AF_UNIX)
        self.listener.bind(path)
        self.listener.listen(100)
        self.selector.register(self.listener, selectors.EVENT_READ)

    def run(self):
        print("standin: ready", flush=True)
        while True:
            waiting = [it.end for it in self.connections.values() if it.halves and it.end is not None]
            left = max(0, min(waiting) - time.monotonic()) if waiting else None
            for key, _ in self.selector.select(left):
                if key.fileobj is self.listener:
                    accepted, _ = self.listener.accept()
                    self.connections[accepted] = Connection(self.machine, accepted)
                    self.selector.register(accepted, selectors.EVENT_READ)
                elif key.fileobj in self.connections:
                    self.read(self.connections[key.fileobj])
            self.again()

    # Connections.

    def end(self, connection):
        if self.connections.pop(connection.socket, None):
            self.selector.unregister(connection.socket)
            connection.socket.close()

    def read(self, connection):
        try:
            some = connection.socket.recv(1 << 16)
        except OSError:
            some = b""
        connection.read += some
        if not some:
            self.end(connection)
        while connection.socket in self.connections and not connection.halves and len(connection.read) >= 4:
            (length,) = struct.unpack_from("<I", connection.read)
            if not 4 <= length <= LONGEST:
                return self.end(connection)
            if len(connection.read) < 4 + length:
                return None
            frame, connection.read = connection.read[4 : 4 + length], connection.read[4 + length :]
            self.serve(connection, frame)
        return None

    def serve(self, connection, frame):
        reply = self.begin(connection, frame)
        if reply is not None:
            self.write(connection, reply)
        self.again()

    def store(self):
        """Writes the state to the file if it changed."""
        if not self.file or self.stored == self.machine.records:
            return
        with open(f"{self.file}.new", "wb") as new:
            pickle.dump(self.machine, new)
        os.rename(f"{self.file}.new", self.file)
        self.stored = self.machine.records

    def write(self, connection, reply):
        self.store()
        try:
            connection.socket.sendall(words(len(reply)) + reply)
        except OSError:
            self.end(connection)

    # Calls.

    def begin(self, connection, frame):
        """Returns the reply, or None if the call waits."""
        (number,) = struct.unpack_from("<I", frame)
        arguments = frame[4:]
        if number != MACH_MSG or len(arguments) < 16:
            return connection.answer(frame)
        option, limit, name, timeout = struct.unpack_from("<4I", arguments)
        both = option & SEND_MSG and option & RCV_MSG
        if both and not option & ~machine.OPTIONS:
            connection.halves = [
                (words(option & ~RCV_MSG, limit, name, timeout) + arguments[16:], option & SEND_TIMEOUT, timeout),
                (words(option & ~SEND_MSG, limit, name, timeout), option & RCV_TIMEOUT, timeout),
            ]
        else:
            limited = option & (SEND_TIMEOUT if option & SEND_MSG else RCV_TIMEOUT)
            connection.halves = [(arguments, limited, timeout)]
        self.set_end(connection)
        return self.attempt(connection)

    def set_end(self, connection):
        _, is_limited, timeout = connection.halves[0]
        connection.end = time.monotonic() + timeout / 1000 if is_limited else None
        connection.has_waited = False

    def attempt(self, connection):
        """Makes the next half of a call, and the one after it if that one succeeds. Returns the reply, or None if the
        call waits. If the client has closed its connection, the call isn't made, so no message is lost to it."""
        if connection.has_waited and is_closed(connection.socket):
            self.end(connection)
            return None
        code, size, member, text = self.machine.mach_msg(connection.here(), connection.halves[0][0])
        is_over = connection.end is not None and time.monotonic() >= connection.end
        if code in (MACH_SEND_TIMED_OUT, MACH_RCV_TIMED_OUT) and not is_over:
            connection.has_waited = True
            return None
        if connection.has_waited:
            code = AFTER_A_WAIT.get(code, code)
        del connection.halves[0]
        if code == 0 and connection.halves:
            self.set_end(connection)
            return self.attempt(connection)
        connection.halves = []
        return words(MACH_MSG, code, size, member) + text

    def again(self):
        """Tries the calls that wait, until none of them makes progress."""
        is_done = False
        while not is_done:
            is_done = True
            for connection in list(self.connections.values()):
                if connection.halves:
                    before = len(connection.halves)
                    reply = self.attempt(connection)
                    is_done = is_done and reply is None and before == len(connection.halves)
                    if reply is not None:
                        self.write(connection, reply)


def main():
    words = argparse.ArgumentParser(description="A stand-in for the server, for tests of the clients.")
    words.add_argument("--old", action="store_true")
    words.add_argument("socket")
    words.add_argument("file", nargs="?")
    given = words.parse_args()
    if given.old:
        del machine.ARGUMENTS[machine.LAST_REQUEST]
    Standin(given.socket, given.file).run()


if __name__ == "__main__":
    main()
