"""Relays in front of a server's socket, for tests of the clients: one that cuts connections at random, one that is cut off
from the server for a time, and one whose answers are late.

At random a connection may be cut before the server has the frame, or after the call was made, with the reply lost as a whole or
in part. The client may repeat the call on another connection while the first one is still being executed, and a
connection that waits may be cut.
"""

import contextlib
import os
import random
import select
import socket
import struct
import threading
import time

CUTS = ("before", "at once", "after", "within", "waiting")


def read_frame(from_socket):
    """Returns a frame with its length, or None at the end of the stream."""
    text = b""
    while len(text) < 4 or len(text) < 4 + struct.unpack_from("<I", text)[0]:
        wanted = 4 + struct.unpack_from("<I", text)[0] if len(text) >= 4 else 4
        some = from_socket.recv(wanted - len(text))
        if not some:
            return None
        text += some
    return text


class Relay:
    """A socket at `path` that passes connections on to the server at `server_path`."""

    def __init__(self, path, server_path):
        self.path, self.server_path = path, server_path
        self.lock = threading.Lock()

    def __enter__(self):
        self.listener = socket.socket(socket.AF_UNIX)
        self.listener.bind(self.path)
        self.listener.listen(100)
        self.thread = threading.Thread(target=self.accept)
        self.thread.start()
        return self

    def __exit__(self, *_):
        self.listener.shutdown(socket.SHUT_RDWR)  # which ends the thread's accept
        self.thread.join()
        self.listener.close()
        os.unlink(self.path)

    def accept(self):
        with contextlib.suppress(OSError):
            while True:
                client, _ = self.listener.accept()
                threading.Thread(target=self.serve, args=(client,), daemon=True).start()


class Way(Relay):
    """A relay that can be cut for a time, as a proxy is whose other side is gone: it goes on accepting, keeps its
    connections, and passes nothing on."""

    def __init__(self, path, server_path, is_cut):
        super().__init__(path, server_path)
        self.is_cut, self.servers = is_cut, set()

    def cut(self):
        with self.lock:
            self.is_cut = True
            for it in self.servers:
                it.shutdown(socket.SHUT_RDWR)

    def heal(self):
        """Passes new connections on."""
        with self.lock:
            self.is_cut = False

    def serve(self, client):
        with contextlib.suppress(OSError), client:
            with socket.socket(socket.AF_UNIX) as server:
                if self.begin(server):
                    self.pass_on(client, server)
            while self.is_cut and client.recv(1 << 16):
                pass

    def begin(self, server):
        with self.lock:
            if self.is_cut:
                return False
            server.connect(self.server_path)
            self.servers.add(server)
            return True

    def pass_on(self, client, server):
        """Passes bytes on in both directions until one side ends."""
        some = b"some"
        while some:
            for it in select.select([client, server], [], [])[0]:
                some = it.recv(1 << 16)
                if self.is_cut:
                    some = b""
                (server if it is client else client).sendall(some)
        with self.lock:
            self.servers.discard(server)


class Full:
    """A socket at `path` where as many connections wait as may, and none is accepted."""

    def __init__(self, path):
        self.path = path

    def __enter__(self):
        listener = socket.socket(socket.AF_UNIX)
        listener.bind(self.path)
        listener.listen(0)
        self.sockets = [listener]
        with contextlib.suppress(BlockingIOError):
            while True:
                self.sockets.append(socket.socket(socket.AF_UNIX))
                self.sockets[-1].setblocking(False)
                self.sockets[-1].connect(self.path)
        return self

    def __exit__(self, *_):
        for it in self.sockets:
            it.close()
        os.unlink(self.path)


class Late(Relay):
    """A relay that passes each answer on only after some seconds, except those to `spared` calls."""

    def __init__(self, path, server_path, spared):
        super().__init__(path, server_path)
        self.seconds, self.spared = 0, spared

    def serve(self, client):
        with contextlib.suppress(OSError), client, socket.socket(socket.AF_UNIX) as server:
            server.connect(self.server_path)
            while frame := read_frame(client):
                server.sendall(frame)
                readable, _, _ = select.select([client, server], [], [])
                reply = read_frame(server) if server in readable else None
                if not reply:
                    return
                if struct.unpack_from("<I", frame, 4)[0] not in self.spared:
                    time.sleep(self.seconds)
                client.sendall(reply)


class Cutting(Relay):
    """A relay that cuts `rate` of a thousand frames."""

    def __init__(self, server_path, rate, seed):
        super().__init__(f"{server_path}.cut", server_path)
        self.rate, self.random = rate / 1000, random.Random(seed)
        self.cuts, self.frames = 0, 0
        self.waiting = set()  # connections of clients whose frame isn't answered yet

    def serve(self, client):
        with contextlib.suppress(OSError), client, socket.socket(socket.AF_UNIX) as server:
            server.connect(self.server_path)
            while self.exchange(client, server):
                pass

    def choose(self):
        with self.lock:
            self.frames += 1
            if self.random.random() >= self.rate:
                return None
            how = self.random.choice(CUTS)
            if how == "waiting":
                if not self.waiting:
                    return None
                self.random.choice(sorted(self.waiting, key=id)).shutdown(socket.SHUT_RDWR)  # its own thread closes it
            self.cuts += 1
            return how

    def exchange(self, client, server):
        """Passes on one frame and its reply. Returns False if the connection has ended."""
        frame = read_frame(client)
        how = self.choose() if frame else "before"
        if how == "before":
            return False
        server.sendall(frame)
        reply = None if how == "at once" else self.reply(client, server)
        if reply is None or how == "after":
            return False
        client.sendall(reply[: len(reply) // 2] if how == "within" else reply)
        return how != "within"

    def reply(self, client, server):
        """Returns the reply, or None if the client or the server closes the connection first."""
        with self.lock:
            self.waiting.add(client)
        try:
            readable, _, _ = select.select([client, server], [], [])
        finally:
            with self.lock:
                self.waiting.discard(client)
        return read_frame(server) if server in readable else None
