"""Tasks that call a server on a logged device, and note the length of the log before and after each call.

Each task has a space of its own, and is a process, since the machine that draws the calls takes time. It ends with its server
or on request, and then sends its history to the main process.
"""

import bisect
import contextlib
import multiprocessing
import os
import random
import socket
import struct
import subprocess
import time

from clients import CODE, Client, receiving, sending
from frames import Frames, words
from machine import RECEIVE, Connection, Machine, may_be_numbered
from store import Difference, ask, framed, kill, replies_in, reply_of

ALLOCATE, SET_MSCOUNT, SPACE_CREATE, DESTROY, ATTACH, INSERT_RIGHT, NUMBERED = 5, 11, 20, 6, 0, 17, 22
MAKE_SEND, SET_QLIMIT = 20, 10


class History:
    """The frames of a task in order, with the length of the log before each was sent and after each was answered."""

    def __init__(self):
        self.frames, self.sent, self.answered = [], [], []

    def answered_at(self, moment):
        """Returns the number of calls that were acknowledged before this entry of the log."""
        return bisect.bisect_right(self.answered, moment)

    def sent_at(self, moment):
        """Returns the number of calls that the log may contain before this entry."""
        return bisect.bisect_left(self.sent, moment)


class Task(multiprocessing.Process):
    """A task on a socket. `made_at` is the length of the log after its space was acknowledged."""

    def __init__(self, chance, device, path, space):
        super().__init__(daemon=True)
        self.chance, self.device, self.path, self.space = random.Random(chance.random()), device, path, space
        self.made_at, self.history, self.difference = device.count(), History(), None
        self.ends, (self.ours, self.theirs) = multiprocessing.Event(), multiprocessing.Pipe()

    def run(self):
        difference = None
        try:
            self.talk()
        except (EOFError, OSError):
            pass
        except Difference as found:
            difference = str(found)
        self.theirs.send((self.history, difference))

    def over(self):
        """Waits for the task's end, and takes its history."""
        self.ends.set()
        if not self.ours.poll(60):
            raise Difference(f"a task in space {self.space} doesn't end")
        self.history, difference = self.ours.recv()
        self.join()
        self.difference = difference
        if difference:
            raise Difference(difference)

    def connected(self):
        """Connects and attaches to the task's space. Waits for a server that is being restarted."""
        while not self.ends.is_set():
            server = socket.socket(socket.AF_UNIX)
            try:
                server.connect(self.path)
                if ask(server, words(ATTACH, self.space)) != [words(ATTACH, 0)]:
                    raise Difference(f"space {self.space} isn't there")
                return server
            except (EOFError, OSError):
                server.close()
                time.sleep(0.005)
        raise EOFError

    def write(self, server, *frames):
        """Sends frames at once, and notes them."""
        count = self.device.count()
        self.history.frames += frames
        self.history.sent += [count] * len(frames)
        server.sendall(framed(*frames))

    def read(self, server, frame, wanted):
        """Reads the reply to a frame, compares it, and notes the acknowledgement."""
        reply = reply_of(server)
        count = self.device.count()
        if reply != wanted:
            raise Difference(f"space {self.space}, frame {frame.hex()}\nwanted {wanted.hex()}\ncame   {reply.hex()}")
        self.history.answered.append(count)


def machine_of(space):
    """Returns a connection to a new machine, attached to an empty space."""
    machine = Machine()
    machine.spaces[space] = {}
    connection = Connection(machine)
    connection.space = space
    return connection


class Caller(Task):
    """Makes random calls, up to twenty at once."""

    def talk(self):
        connection = machine_of(self.space)
        source, server = Frames(self.chance, connection, is_alone=False), self.connected()
        while not self.ends.is_set():
            frames, wanted = [], []
            for _ in range(self.chance.choice([1, 1, 2, 5, 20])):
                frames.append(source.next())
                wanted.append(connection.answer(frames[-1]))
            self.write(server, *frames)
            for frame, want in zip(frames, wanted):
                self.read(server, frame, want)


class Numbering(Task):
    """Makes random numbered calls. It repeats a call that was cut off, by the same number, after the server was restarted."""

    def talk(self):
        connection = machine_of(self.space)
        source, server = Frames(self.chance, connection, is_alone=False), None
        while not self.ends.is_set():
            frame = numbered_of(source, connection)
            wanted = connection.answer(frame)
            self.history.frames.append(frame)
            self.history.sent.append(self.device.count())
            while len(self.history.answered) < len(self.history.frames):
                try:
                    server = server or self.connected()
                    server.sendall(framed(frame))
                    self.read(server, frame, wanted)
                except (ConnectionError, EOFError):
                    if self.ends.is_set():
                        return
                    server = None


def numbered_of(source, connection):
    """Returns the frame of the next request, with a call that may be numbered."""
    last, _ = connection.machine.kept.get(connection.space, (0, b""))
    while True:
        frame = source.next()
        if len(frame) >= 4 and may_be_numbered(frame):
            return words(NUMBERED, last + 1) + frame


class Flood(Task):
    """Makes sixty-four calls at once, so that epochs end. Call N sets the make-send count of its port to N."""

    def talk(self):
        server = self.connected()
        if ask(server, words(ALLOCATE, RECEIVE)) != [words(ALLOCATE, 0, 0x100)]:
            raise Difference("a flood gets no port")
        number = 0
        while not self.ends.is_set():
            frames = [words(SET_MSCOUNT, 0x100, number + it) for it in range(1, 65)]
            self.write(server, *frames)
            for frame in frames:
                self.read(server, frame, words(SET_MSCOUNT, 0))
            number += 64


class Pair(Task):
    """Receives messages 1, 2 and so on from a port; each receive waits. `sender` is a second process that sends them."""

    def __init__(self, chance, device, path, space):
        super().__init__(chance, device, path, space)
        self.sender = Sender(chance, device, path, space)

    def start(self):
        super().start()
        self.sender.start()

    def over(self):
        super().over()
        self.sender.over()

    def talk(self):
        server, number = self.connected(), 0
        frame = receiving(0x100)
        while True:
            number += 1
            self.write(server, frame)
            reply = struct.unpack("<10I", reply_of(server)[:40])
            if reply[CODE] or reply[-1] != number:
                raise Difference(f"receive {number} of a pair is answered with {reply}")
            self.history.answered.append(self.device.count())
            if self.chance.random() < 0.2:
                time.sleep(self.chance.choice([0.002, 0.02, 0.1]))


class Sender(Task):
    def talk(self):
        server, number = self.connected(), 0
        while True:
            number += 1
            frame = sending(0x100, number)
            self.write(server, frame)
            self.read(server, frame, words(19, 0, 0, 0))
            if self.chance.random() < 0.2:
                time.sleep(self.chance.choice([0.002, 0.02, 0.1]))


class Lone(multiprocessing.Process):
    """Makes `count` random calls to a server on standard input, up to sixty-four at once."""

    def __init__(self, chance, device, words_of, environment, connection, count):
        super().__init__()
        self.chance, self.device, self.connection, self.count = random.Random(chance.random()), device, connection, count
        self.words_of, self.environment = words_of, environment
        self.history, self.spans = History(), []
        self.ours, self.theirs = multiprocessing.Pipe()

    def run(self):
        difference = None
        try:
            self.talk()
        except Difference as found:
            difference = str(found)
        self.theirs.send((self.history, self.spans, difference))

    def talk(self):
        started = self.device.count()
        pipes = {"stdin": subprocess.PIPE, "stdout": subprocess.PIPE}
        server = subprocess.Popen(self.words_of, env=self.environment, **pipes)
        source, history = Frames(self.chance, self.connection), self.history
        while len(history.frames) < self.count:
            frames, wanted = [], []
            for _ in range(self.chance.choice([1, 1, 2, 5, 20, 64])):
                frames.append(source.next())
                wanted.append(self.connection.answer(frames[-1]))
            history.frames += frames
            history.sent += [self.device.count()] * len(frames)
            server.stdin.write(framed(*frames))
            server.stdin.flush()
            for frame, want in zip(frames, wanted):
                reply = lone_reply(server)
                if reply != want:
                    raise Difference(f"frame {frame.hex()}\nwanted {want.hex()}\ncame   {(reply or b'').hex()}")
                history.answered.append(self.device.count())
            if not self.spans:
                self.spans.append((started, self.device.count()))
        kill(server)
        server.communicate()

    def over(self):
        """Waits for the end of the calls, and takes their history."""
        if not self.ours.poll(300):
            raise Difference("a server on standard input doesn't end")
        self.history, self.spans, difference = self.ours.recv()
        self.join()
        if difference:
            raise Difference(difference)


def lone_reply(server):
    length = server.stdout.read(4)
    return server.stdout.read(*struct.unpack("<I", length)) if len(length) == 4 else None
