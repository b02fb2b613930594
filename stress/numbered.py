"""Clients with numbered calls, and a server that is killed and restarted. Each call is made once."""

import random
import socket
import struct
import threading
import time

from frames import Frames, words
from machine import RECEIVE, Connection, Machine, may_be_numbered
from store import Difference, ask, compare, kill, on_socket

CLIENTS, KILLS = 6, 8


class Client(threading.Thread):
    """Numbered calls of one client in its own space. A call that was interrupted is repeated with the same number."""

    def __init__(self, chance, path, space, ends):
        super().__init__()
        self.path, self.space, self.ends = path, space, ends
        self.machine = Machine()
        self.machine.spaces[space] = {}
        self.connection = Connection(self.machine)
        self.connection.space = space
        self.source = Frames(chance, self.connection, is_alone=False)
        self.server, self.made, self.repeated, self.difference = None, 0, 0, None

    def run(self):
        try:
            while not self.ends.is_set():
                self.call()
        except Difference as difference:
            self.difference = difference
        finally:
            if self.server:
                self.server.close()

    def call(self):
        frame = self.numbered()
        wanted = self.connection.answer(frame)
        while True:
            try:
                compare([frame], [wanted], ask(self.connected(), frame))
                self.made += 1
                return
            except (EOFError, OSError):
                self.server.close()
                self.server = None
                self.repeated += 1

    def numbered(self):
        """Returns the frame of the next request, for a call that may be numbered."""
        last, _ = self.machine.kept.get(self.space, (0, b""))
        while True:
            frame = self.source.next()
            if len(frame) >= 4 and may_be_numbered(frame):
                return words(22, last + 1) + frame

    def connected(self):
        """Returns a connection that is attached to the client's space. Waits for a server that isn't there yet."""
        while self.server is None:
            server = socket.socket(socket.AF_UNIX)
            try:
                server.connect(self.path)
                compare([words(0, self.space)], [words(0, 0)], ask(server, words(0, self.space)))
                self.server = server
            except (EOFError, OSError):
                server.close()
                time.sleep(0.005)
        return self.server

    def questions(self):
        """Returns frames that read the whole contents of the client's space."""
        held = self.machine.spaces[self.space].items()
        return [words(0, self.space), words(1), *(words(13, name) for name, right in held if right.holds(RECEIVE))]


def spaces_for(path, count):
    """Creates spaces without names."""
    with socket.socket(socket.AF_UNIX) as server:
        server.connect(path)
        made = ask(server, words(5, 1), *[words(20, 0x100, 20)] * count)
        spaces = [struct.unpack_from("<I", it, 8)[0] for it in made[1:]]
        for space in spaces:
            ask(server, words(0, space), words(6, 0x100))
    return spaces


def numbered(chance, store):
    server, path = on_socket(store)
    ends = threading.Event()
    clients = [Client(random.Random(chance.random()), path, it, ends) for it in spaces_for(path, CLIENTS)]
    for client in clients:
        client.start()
    for _ in range(KILLS):
        time.sleep(chance.uniform(0.05, 0.5))
        kill(server)
        server.communicate()
        server, path = on_socket(store)
    time.sleep(0.2)
    ends.set()
    for client in clients:
        client.join()
    kill(server)
    server.communicate()
    for client in clients:
        if client.difference:
            raise client.difference
        questions = client.questions()
        compare(questions, [client.connection.answer(it) for it in questions], store.serve(questions))
    if not sum(it.repeated for it in clients):
        raise Difference("no call was cut off")
    return sum(it.made for it in clients)
