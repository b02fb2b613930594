"""The proved programs, run on a store in its own folder."""

import pathlib
import shutil
import signal
import struct
import subprocess
import tempfile

from machine import listing


class Difference(Exception):
    pass


def framed(*contents):
    return b"".join(struct.pack("<I", len(it)) + it for it in contents)


def replies_in(output):
    """Returns the whole replies in an output."""
    replies, place = [], 0
    while place + 4 <= len(output):
        (length,) = struct.unpack_from("<I", output, place)
        if place + 4 + length > len(output):
            break
        replies.append(output[place + 4 : place + 4 + length])
        place += 4 + length
    return replies


def reply_of(server):
    def read(count):
        content = b""
        while len(content) < count:
            more = server.recv(count - len(content))
            if not more:
                raise EOFError
            content += more
        return content

    (length,) = struct.unpack("<I", read(4))
    return read(length)


def ask(server, *contents):
    server.sendall(framed(*contents))
    return [reply_of(server) for _ in contents]


def compare(frames, wanted, replies):
    for frame, want, reply in zip(frames, wanted, replies):
        if want != reply:
            raise Difference(f"frame {frame.hex()}\nwanted {want.hex()}\ncame   {reply.hex()}")


def kill(server):
    """Kills a server, which must still be running."""
    server.kill()
    status = server.wait()
    if status != -signal.SIGKILL:
        raise Difference(f"the server ended by itself, with status {status}")


def on_socket(store):
    """Returns a server on a socket that is ready, and the socket's path."""
    path = store.folder + ".socket"
    pathlib.Path(path).unlink(missing_ok=True)
    pipes = {"stdout": subprocess.PIPE, "stderr": subprocess.PIPE}
    server = subprocess.Popen([store.programs / "machipcd", "--socket", path, store.folder], **pipes)
    if server.stdout.readline() != b"machipcd: ready\n":
        raise Difference(f"not ready: {server.stderr.read()}")
    return server, path


class Store:
    """A store's folder, and the programs that are run on it."""

    def __init__(self, programs, folder=None):
        self.programs = programs
        self.folder = folder or tempfile.mkdtemp(prefix="wannikol-")

    def serve(self, contents):
        """Returns the replies of a server on standard input to these frames."""
        ran = subprocess.run([self.programs / "machipcd", self.folder], input=framed(*contents), capture_output=True)
        replies = replies_in(ran.stdout)
        if ran.returncode or len(replies) != len(contents):
            raise Difference(f"status {ran.returncode}, {len(replies)} of {len(contents)} replies: {ran.stderr}")
        return replies

    def listing(self):
        """Returns the listing of the store by `machls`, or None if it is busy. The store may be in use."""
        ran = subprocess.run([self.programs / "machls", self.folder], capture_output=True, text=True)
        if (ran.returncode, ran.stdout, ran.stderr) == (1, "", "machls: store busy\n"):
            return None
        if ran.returncode or ran.stderr:
            raise Difference(f"machls: status {ran.returncode}: {ran.stderr}")
        return ran.stdout

    def listed(self):
        """Returns the number of records in the store, and its lines."""
        first, lines = self.listing().split("\n", 1)
        return int(first.split()[3]), lines

    def copied(self):
        """Returns a copy of the store, or None if it is busy. The store may be in use."""
        folder = self.folder + ".copy"
        words_of = [self.programs / "machcp", self.folder, folder]
        ran = subprocess.run(words_of, capture_output=True, text=True)
        if (ran.returncode, ran.stderr) == (1, "machcp: store busy\n"):
            return None
        again = subprocess.run(words_of, capture_output=True, text=True)
        told = (ran.returncode, ran.stdout, ran.stderr, again.returncode, again.stdout, again.stderr)
        if told != (0, "", "", 1, "", "machcp: copy exists\n"):
            raise Difference(f"machcp: {told}")
        return Store(self.programs, folder)

    def copied_listing(self):
        """Returns the listing of a copy of the store by `machls`, or None if the store is busy."""
        copied = self.copied()
        listing = copied and copied.listing()
        if copied:
            copied.remove()
        return listing

    def expect(self, machine):
        records, lines = self.listed()
        if records != machine.records or lines != listing(machine):
            raise Difference(f"{records} records\n{lines}wanted {machine.records} records\n{listing(machine)}")

    def content(self):
        """Returns the bytes of its files."""
        return {it.name: it.read_bytes() for it in pathlib.Path(self.folder).iterdir()}

    def remove(self):
        shutil.rmtree(self.folder)
