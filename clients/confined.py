"""Tests of confined connections, and of machrun, which gives them to its command.

`clients/test` runs them. `refused` and `renewed` test the answers of calls. In `reach` a confined task tries everything
that could change another task's space. `Confined` tests machrun. A server without call 23 fails them.
"""

import contextlib
import os
import pathlib
import random
import re
import signal
import socket
import struct
import subprocess
import sys
import time

HERE = pathlib.Path(__file__).resolve().parent
sys.path[:0] = [str(HERE / "python"), str(HERE.parent / "stress")]

import machine  # noqa: E402
import machipc  # noqa: E402
from frames import Frames, words  # noqa: E402
from machine import ARGUMENTS, ATTACH, CONFINE, LAST_REQUEST, MACH_MSG, NUMBERED  # noqa: E402

FIRST, NO_ACCESS, NO_CALL, NO_TASK = 1, 8, 4, 16
ALLOCATE, TYPE, SPACE_CREATE, SPACE_DESTROY = 5, 2, 20, 21
AT_ONCE = 64  # frames that a server takes of a connection before it answers


class Wrong(Exception):
    """A failed check: the server, or machrun, did something else than it should."""


def wants(condition, what):
    if not condition:
        raise Wrong(what)


# Connections, frame by frame.


class Connection:
    """A connection on which frames are written and replies read one by one."""

    def __init__(self, path, *frames):
        self.socket = socket.socket(socket.AF_UNIX)
        self.socket.settimeout(60)
        self.socket.connect(path)
        for frame in frames:
            wants(self.code(frame) == 0, f"{frame.hex()} is refused")

    def __enter__(self):
        return self

    def __exit__(self, *_):
        self.socket.close()

    def ask(self, *frames):
        """Returns the replies to frames that are written at once."""
        self.socket.sendall(b"".join(words(len(it)) + it for it in frames))
        return [self.read(*struct.unpack("<I", self.read(4))) for _ in frames]

    def read(self, count):
        text = b""
        while len(text) < count:
            some = self.socket.recv(count - len(text))
            wants(some, "the server ended a connection")
            text += some
        return text

    def code(self, frame):
        return struct.unpack_from("<I", self.ask(frame)[0], 4)[0]

    def results(self, *numbers):
        """Makes a call that has to succeed. Returns the words after its code."""
        (reply,) = self.ask(words(*numbers))
        found = struct.unpack(f"<{len(reply) // 4}I", reply)
        wants(found[:2] == (numbers[0], 0), f"call {numbers} is answered with {found}")
        return found[2:]


def send(disposition, name, *rest, option=machine.SEND_MSG | machine.SEND_TIMEOUT, bits=0, id_=7):
    """Returns the frame of a send that doesn't wait."""
    return words(MACH_MSG, option, 0, 0, 0, disposition | bits, 0, name, 0, 0, id_, *rest)


def carrying(name, disposition, carried):
    """Returns the frame of a send with a right in its body."""
    return send(machine.COPY_SEND, name, 0x10012000 | disposition, carried, bits=1 << 31)


def receive(name, limit=8192):
    return words(MACH_MSG, machine.RCV_MSG | machine.RCV_TIMEOUT, limit, name, 0)


def space_with(path, disposition=machine.MAKE_SEND):
    """Makes a space with a right to a new port of the first space. Returns its number, the name of its right, and the
    port."""
    with Connection(path) as first:
        (port,) = first.results(ALLOCATE, machine.RECEIVE)
        space, name = first.results(SPACE_CREATE, port, disposition)
    return space, name, port


def remove(path, *spaces):
    for space in spaces:
        with Connection(path) as one, contextlib.suppress(Wrong):
            one.results(ATTACH, space)
            one.results(SPACE_DESTROY)


def others(path, but):
    """Returns the numbers of the spaces, other than the first one and these."""
    with Connection(path) as one:
        return [it for it in range(2, machine.MOST_SPACES + 1) if it not in but and not one.code(words(ATTACH, it))]


# What the calls answer.


def refused(server):
    """After confine an attach is refused, whatever the space, and before it isn't. Invalid forms of confine are
    refused."""
    space, name, _ = space_with(server.path)
    with Connection(server.path) as one:
        for wanted in (FIRST, space, space):
            wants(one.ask(words(ATTACH, wanted)) == [words(ATTACH, 0)], "an attach before confine")
        wants(one.ask(words(CONFINE, 1), words(CONFINE) + b"\0") == [words(CONFINE, NO_CALL)] * 2, "confine with arguments")
        wants(one.ask(words(NUMBERED, 1, CONFINE)) == [words(NUMBERED, NO_CALL)], "confine as a numbered call")
        wants(one.ask(words(ATTACH, FIRST), words(ATTACH, space)) == [words(ATTACH, 0)] * 2, "confine that is no call")
        wants(one.ask(words(CONFINE), words(CONFINE)) == [words(CONFINE, 0)] * 2, "confine")
        for wanted in (space, 0, 200, machine.LAST_WORD, FIRST):
            wants(one.ask(words(ATTACH, wanted)) == [words(ATTACH, NO_ACCESS)], f"an attach to {wanted} after confine")
        wants(one.ask(words(CONFINE)) == [words(CONFINE, 0)], "confine again, after an attach")
        wants(one.results(TYPE, name) == (1 << 16,), "its own space")
        below, _ = one.results(SPACE_CREATE, name, machine.COPY_SEND)
        wants(one.code(words(ATTACH, below)) == NO_ACCESS, "an attach to a space that it made")
    with Connection(server.path, words(ATTACH, space), words(ATTACH, FIRST)) as one:
        wants(one.code(words(ATTACH, space)) == 0, "an attach of another connection")
    remove(server.path, space, below)
    return "attach, confine"


def last_request(server):
    """Call 24 tells the request of the kept reply and the number of the call in it, and changes nothing."""
    space, _, port = space_with(server.path)
    with Connection(server.path, words(ATTACH, space), words(CONFINE)) as one, Connection(server.path) as first:
        (answer,) = one.ask(words(LAST_REQUEST))
        if answer == words(LAST_REQUEST, NO_CALL):
            remove(server.path, space)
            return "the server has no such call"
        wants(answer == words(LAST_REQUEST, 0, 0, 0), "no reply is kept")
        for request, call in ((7, words(4, machine.RECEIVE, 0x500)), (9, words(10, 0x500, 2))):
            wants(one.code(words(NUMBERED, request) + call) == 0, "a numbered call")
            wants(one.ask(words(LAST_REQUEST)) == [words(LAST_REQUEST, 0, request) + call[:4]], "a reply is kept")
        wants(one.code(words(NUMBERED, 11, 6, 0)) == 0, "a refused call")
        wants(one.results(LAST_REQUEST) == (9, 10), "a refused call is kept")
        wants(first.results(LAST_REQUEST) == (0, 0), "the first space has another's number")
        for arguments in (b"\0", words(0)):
            wants(one.ask(words(LAST_REQUEST) + arguments) == [words(LAST_REQUEST, NO_CALL)], "arguments")
        wants(one.ask(words(NUMBERED, 12, LAST_REQUEST)) == [words(NUMBERED, NO_CALL)], "a numbered one")
        remove(server.path, space)
        wants(one.ask(words(LAST_REQUEST)) == [words(LAST_REQUEST, NO_TASK)], "its space is gone")
        again, _ = first.results(SPACE_CREATE, port, machine.MOVE_RECEIVE)
        with Connection(server.path, words(ATTACH, again)) as follower:
            wants(follower.results(LAST_REQUEST) == (0, 0), "a new space has a former one's number")
    remove(server.path, again)
    return "asked in 4 states"


def sample(name):
    """Returns a frame of each call. A space with a receive right of this name would execute it, or refuse it for
    reasons of its own. The calls that take the right away are last."""
    arguments = {ATTACH: [FIRST], 3: [name, 0x500], 4: [1, 0x600], 8: [name, 1], 9: [name, 1, 0], 16: [name, 72, 0, 0, 0]}
    arguments |= {10: [name, 3], 11: [name, 1], 12: [name, 1], 15: [name, 0], 17: [name, name, 20], 18: [name, 20], 20: [name, 20]}
    arguments |= {ALLOCATE: [1], 1: [], SPACE_DESTROY: [], CONFINE: []}
    last = (6, 3, SPACE_DESTROY)
    plain = [words(it, *arguments.get(it, [name])) for it in ARGUMENTS if it not in (*last, LAST_REQUEST)]
    messages = [send(machine.MAKE_SEND, name), receive(name), words(MACH_MSG, 3, 100, name, 0) + bytes(24)]
    numbered = [words(NUMBERED, 1, ALLOCATE, 1), words(NUMBERED, 1, 99, 1), words(NUMBERED, 0, MACH_MSG)]
    return [*plain, *messages, *numbered, *(words(it, *arguments.get(it, [name])) for it in last)]


def gone(frame):
    """Returns the reply to a frame on a connection whose space is gone."""
    number = frame[:4]
    return number + words(NO_TASK) + (words(0, 0) if number == words(MACH_MSG) else b"")


def renewed(server):
    """A space is destroyed and a new one made with its number: a connection that was confined to the first one reaches
    no space any more, and a connection that isn't confined acts in the second one."""
    space, _, port = space_with(server.path)
    with Connection(server.path, words(ATTACH, space), words(CONFINE)) as confined, Connection(server.path) as first, Connection(
        server.path, words(ATTACH, space)
    ) as follower:
        remove(server.path, space)
        frames = sample(0x100)
        wants(confined.ask(*frames) == [gone(it) for it in frames], "a confined connection after its space's end")
        again, name = first.results(SPACE_CREATE, port, machine.MOVE_RECEIVE)
        wants(again == space, f"the new space has the number {again}, not {space}")
        wants(confined.ask(*frames) == [gone(it) for it in frames], "a confined connection whose space's number is another's")
        is_call = [words(25), words(CONFINE, 0), words(NUMBERED, 1), words(MACH_MSG, 0, 0, 0), words(MACH_MSG, 0x20, 0, 0, 0)]
        wants(all(struct.unpack_from("<I", it, 4)[0] == NO_CALL for it in confined.ask(*is_call)), "frames that are no call")
        wants(confined.ask(words(MACH_MSG, 0, 0, 0, 0)) == [words(MACH_MSG, 0, 0, 0)], "neither a send nor a receive")
        codes = [struct.unpack_from("<I", it, 4)[0] for it in follower.ask(*frames[1:])]
        wants(NO_TASK not in codes and codes.count(0) > len(codes) // 2, f"an unconfined connection is answered with {codes}")
    remove(server.path, space)
    return f"{len(frames)} calls each"


# What a confined task may reach.


class Seen(Frames):
    """Random frames of a confined task. It lists its own names to know them, and it is given the other space's number
    and names. It tries these wherever a call takes a number or a name."""

    def __init__(self, chance, own, other, names, may_destroy):
        of_machine = machine.Machine()
        of_machine.spaces = {FIRST: {}, own: {}, other: {}}
        super().__init__(chance, machine.Connection(of_machine), is_alone=False)
        self.connection.space, self.connection.confined = own, 0
        self.other, self.names, self.may_destroy = other, names, may_destroy

    def see(self, reply):
        """Records the names in a reply of call 1. The reply doesn't say which port a name belongs to, and that isn't
        needed."""
        numbers = struct.unpack(f"<{len(reply) // 4}I", reply)
        held, ports = {}, {}
        for name, bits in zip(numbers[3::2], numbers[4::2]):
            kind = "once" if bits >> 18 & 1 else "set" if bits >> 19 & 1 else "dead" if bits >> 20 & 1 else "port"
            held[name] = machine.Name(kind, name, bool(bits >> 17 & 1), bits >> 16 & 1)
            ports[name] = machine.Port(queue=[None] * self.random.randrange(2))
        self.machine.spaces[self.connection.space], self.machine.ports = held, ports

    def number(self):
        chance = self.random.random()
        if chance < 0.03:
            return self.random.choice([ATTACH, ATTACH, CONFINE, SPACE_CREATE])
        if chance < 0.0305 and self.may_destroy:
            return SPACE_DESTROY
        number = super().number()
        return number if number != SPACE_DESTROY else ATTACH

    def name(self, is_wanted=None):
        return self.random.choice(self.names) if self.random.random() < 0.05 else super().name(is_wanted)

    def arguments(self, number):
        if number == ATTACH:
            return [self.random.choice([self.other, self.other, FIRST, self.connection.space, 0, 256])]
        found = super().arguments(number)
        if found and self.random.random() < 0.05:
            found[self.random.randrange(len(found))] = self.other
        return found


def tempting(chance, own_names, other, names):
    """Generates frames of every call number, with the other space's number and names as arguments."""
    choice = chance.choice
    values = [other, FIRST, machine.NULL, machine.DEAD, *names, *own_names]
    numbers = [*range(CONFINE + 2), 99, machine.LAST_WORD]
    for number in numbers:
        if number in (MACH_MSG, SPACE_DESTROY):
            continue  # the first has frames of its own below, which don't wait; the second has no arguments
        for _ in range(40):
            count = choice([ARGUMENTS.get(number, 2)] * 9 + [0, 1, 4, 6])
            drawn = [choice(values) for _ in range(count)]
            small = [choice([it, choice([0, 1, 2, 3, 4, 16, 17, 18, 19, 20, 21, 69, 70, 72])]) for it in drawn]
            yield words(number, *small)
            yield words(NUMBERED, choice([*range(9), machine.LAST_WORD]), number, *small)
    for name in values:
        for disposition in range(15, 23):
            yield send(disposition, name)
            yield carrying(own_names[0], disposition, name)
            yield words(MACH_MSG, 0x11, 0, 0, 0, machine.COPY_SEND | disposition << 8, 0, own_names[0], name, 0, 1)
        yield receive(name)


def prepared(path):
    """Makes the space of another task, with all kinds of names and with messages, and the space of a confined task.
    Returns the other space's number, a connection to it, the confined task's space, and that space's name for a port
    whose queue has a message with a send right to a port of the other space."""
    with Connection(path) as first:
        (given,) = first.results(ALLOCATE, machine.RECEIVE)
        first.results(17, given, given, machine.MAKE_SEND)
        other, _ = first.results(SPACE_CREATE, given, machine.MOVE_RECEIVE)
        (port,) = first.results(ALLOCATE, machine.RECEIVE)
        first.results(17, port, port, machine.MAKE_SEND)
        own, own_name = first.results(SPACE_CREATE, port, machine.MOVE_RECEIVE)
        wants(first.code(carrying(port, machine.COPY_SEND, given)) == 0, "a right can't be sent")
    its = Connection(path, words(ATTACH, other))
    for frame in (
        words(4, machine.RECEIVE, 0x200), words(17, 0x200, 0x200, machine.MAKE_SEND), words(4, machine.PORT_SET, 0x300),
        words(4, machine.RECEIVE, 0x201), words(15, 0x201, 0x300), words(4, machine.DEAD_NAME, 0x400),
        words(16, 0x200, 72, 0, 0x201, machine.MAKE_SEND_ONCE), words(18, 0x200, machine.MAKE_SEND_ONCE),
        send(machine.COPY_SEND, 0x200, id_=9), send(machine.MAKE_SEND, 0x201, id_=10),
        words(NUMBERED, 5, 12, 0x200, 3),
    ):
        wants(its.code(frame) == 0, f"{frame.hex()} is refused")
    return other, its, own, own_name


def of_space(lines, space):
    """Returns what a listing says of a space: its names, and the ports that it holds. What others change by sending to
    its port 0x100 is left out."""
    begin = lines.index(f"space {space}")
    names = []
    for line in lines[begin + 1 :]:
        if not line.startswith("name "):
            break
        names.append(line)
    held = [it for it in lines if f" held {space} " in it]
    sent_to = re.compile(r"send \d+ once \d+ queue \d+ ")
    ports = [sent_to.sub("", it) if f" held {space} 00000100 " in it else it for it in held]
    return names + ports


def try_round(server, kept, seed, frames, is_confined=True):
    """Runs a confined task alongside another task, and then removes all spaces but those in `kept`. Returns the other
    space's listing before and after, the codes of the attaches, and the number of frames."""
    chance, attaches = random.Random(seed), set()
    other, its, own, own_name = prepared(server.path)
    with its, Connection(server.path, words(ATTACH, own)) as one:
        if is_confined:
            wants(one.code(words(CONFINE)) == 0, "confine")
        names = [it for it in its.results(1)[1::2]]
        received = one.ask(receive(own_name))[0]
        right = struct.unpack_from("<I", received, len(received) - 4)[0]
        wants(one.code(send(machine.COPY_SEND, right, 0x12345678, id_=60)) == 0, "the right that it was given")
        wants(its.ask(receive(0x100))[0].endswith(words(60, 0x12345678)), "the message by the right that it was given")
        before = of_space(server.listing(), other)
        wants(len(before) == 9, f"the listing has {before} of the other space")
        drawn = Seen(chance, own, other, names, may_destroy=seed % 2 == 1)
        systematic = list(tempting(chance, [own_name, right], other, names))
        chance.shuffle(systematic)
        left = systematic + [None] * frames
        while left:
            batch, left = left[: AT_ONCE - 1], left[AT_ONCE - 1 :]
            batch = [it if it is not None else drawn.next() for it in batch]
            batch = [it for it in batch if is_confined or it[:4] != words(CONFINE)]
            *replies, listed = one.ask(*batch, words(1))
            if len(listed) >= 12:
                drawn.see(listed)
            attaches |= {it[4:] for it in replies if it[:4] == words(ATTACH) and len(it) == 8}
        after = of_space(server.listing(), other) if not its.code(words(1)) else None
    remove(server.path, *others(server.path, kept))
    return before, after, attaches, len(systematic) + frames


def reach(server, rounds, frames):
    """A confined task changes nothing of another task's space, in this many rounds of this many frames. The same frames
    do change something without confine, so the test would notice it."""
    made, known = 0, {words(NO_ACCESS), words(NO_CALL), words(NO_TASK)}
    kept = set(others(server.path, ()))
    for seed in range(rounds):
        before, after, attaches, count = try_round(server, kept, seed, frames)
        wants(words(NO_ACCESS) in attaches and attaches <= known, f"round {seed}: attach is answered with {attaches}")
        wants(before == after, f"round {seed}: the other space had {before}, and has {after}")
        made += count
    before, after, attaches, _ = try_round(server, kept, rounds, frames, is_confined=False)
    wants(words(0) in attaches and before != after, "the same frames without confine changed nothing")
    return f"{made} frames of {rounds} confined tasks"


# machrun, which gives a confined command its connections.

# The beginning of each program below.
PRELUDE = """
import array, contextlib, os, socket, sys, threading, time
from machipc import *
FD = int(os.environ["MACHIPC_FD"])
def say(*words):
    print(*words, flush=True)
def refusal(call, *arguments):
    try:
        call(*arguments)
    except MachError as refused:
        return type(refused).__name__
def send(byte=b"x", *descriptors, flags=0):
    rights = [(socket.SOL_SOCKET, socket.SCM_RIGHTS, array.array("i", descriptors))] if descriptors else []
    with socket.socket(fileno=os.dup(FD)) as broker, contextlib.suppress(BlockingIOError):
        return broker.sendmsg([byte], rights, flags)
def lingering(port):
    # A connection whose close waits for bytes that nobody takes.
    made = socket.create_connection(("127.0.0.1", port))
    made.setsockopt(socket.SOL_SOCKET, socket.SO_LINGER, (1).to_bytes(4, "little") + (100).to_bytes(4, "little"))
    made.setblocking(False)
    with contextlib.suppress(BlockingIOError):
        while True:
            made.send(bytes(1 << 16))
    return made
kept = []
"""

GARBAGE = """
def again_and_again():
    while not is_over:
        with Task.adopt() as other:
            other.deallocate(other.allocate(DEAD_NAME))
        count[0] += 1
task, count, is_over = Task.adopt(), [0], False
thread = threading.Thread(target=again_and_again)
thread.start()
null = os.open("/dev/null", os.O_RDWR)
for _ in range(30):
    send()
    send(b"")
    send(b"x" * 1000)
    send(b"x", *[null] * 10)
    send(b"", null)
    for kind in (socket.SOCK_STREAM, socket.SOCK_DGRAM, socket.SOCK_SEQPACKET):
        ends = socket.socketpair(socket.AF_UNIX, kind)
        send(b"x", ends[0].fileno(), ends[1].fileno())
        [it.close() for it in ends]
    for made in (socket.socket(socket.AF_UNIX), socket.socket(socket.AF_UNIX, socket.SOCK_SEQPACKET), socket.socket()):
        send(b"x", made.fileno())
        made.close()
    send(b"x", *os.pipe())
    full, other_end = socket.socketpair(socket.AF_UNIX, socket.SOCK_SEQPACKET)
    full.setblocking(False)
    with contextlib.suppress(BlockingIOError):
        while full.send(b"full"):
            pass
    send(b"x", full.fileno())
    kept.append(other_end)
    full.close()
for _ in range(1000):
    one, other = socket.socketpair(socket.AF_UNIX, socket.SOCK_SEQPACKET)
    send(b"x", one.fileno(), flags=socket.MSG_DONTWAIT)
    one.close()
    other.close()
unread = [socket.socketpair(socket.AF_UNIX, socket.SOCK_SEQPACKET) for _ in range(200)]
for one, _ in unread:
    send(b"x", one.fileno())
before = count[0]
while count[0] < before + 20:
    time.sleep(0.01)
is_over = True
thread.join()
task.allocate()
say("went on", count[0] > 20)
sys.stdin.readline()
"""


def ended(*words_of, seconds=60, **more):
    """Runs a program to its end. Returns its status and its output."""
    try:
        return subprocess.run(words_of, capture_output=True, text=True, timeout=seconds, **more)
    except subprocess.TimeoutExpired:
        raise Wrong(f"{words_of} doesn't end") from None


def is_running(process):
    """Returns True if a process runs. One that has ended and whose status nobody has read yet doesn't."""
    try:
        return pathlib.Path(f"/proc/{process}/stat").read_text().rsplit(")", 1)[1].split()[0] != "Z"
    except OSError:
        return False


def wait_for_end(process):
    end = time.monotonic() + 10
    while is_running(process):
        wants(time.monotonic() < end, f"process {process} goes on")
        time.sleep(0.01)


def children_of(process):
    return [int(it) for it in pathlib.Path(f"/proc/{process}/task/{process}/children").read_text().split()]


class Confined:
    """Tests of machrun with confined commands. `program` is tests/confined.c, built."""

    def __init__(self, machrun, program, server):
        self.machrun, self.program, self.server = machrun, program, server
        self.said = []

    def command(self, text, *options):
        return [str(self.machrun), *options, self.server.path, sys.executable, "-c", PRELUDE + text]

    @contextlib.contextmanager
    def running(self, text, *options, status=0, **environment):
        """Runs a confined program, and waits for its first line. Its errors go to its standard output."""
        at = {**os.environ, "PYTHONPATH": str(HERE / "python"), **environment}
        pipes = {"stdin": subprocess.PIPE, "stdout": subprocess.PIPE, "stderr": subprocess.STDOUT}
        with subprocess.Popen(self.command(text, *options), text=True, env=at, **pipes) as ran:
            try:
                ran.first = ran.stdout.readline()
                yield ran
                ran.rest, _ = ran.communicate("\n", timeout=60)
            except BaseException as fault:
                ran.kill()
                if isinstance(fault, subprocess.TimeoutExpired):
                    raise Wrong(f"machrun doesn't end: {fault.output}") from None
                raise
        wants(ran.returncode == status, f"machrun ended with {ran.returncode}: {ran.first}{ran.rest}")

    def ended(self, text, *options, status=0, **environment):
        """Runs a confined program to its end, and returns its output."""
        with self.running(text, *options, status=status, **environment) as ran:
            pass
        return ran.first + ran.rest

    def broker(self, ran):
        """Returns the processes of the broker: the worker, which answers requests, and the one above it, which is
        machrun's child alongside the command."""
        end = time.monotonic() + 10
        while True:
            above = [it for it in children_of(ran.pid) if pathlib.Path(f"/proc/{it}/comm").read_text() == "machrun\n"]
            workers = [it for one in above for it in children_of(one)]
            if len(above) == len(workers) == 1:
                return workers[0], above[0]
            wants(time.monotonic() < end, f"the brokers {above} with {workers}")
            time.sleep(0.01)

    def is_there(self, space):
        with Connection(self.server.path) as one:
            return one.code(words(ATTACH, space)) == 0

    def restart(self):
        self.server.kill()
        self.server.start()

    def check_environment(self):
        said = self.ended("""
open_ones = [it for it in range(3, 1000) if os.path.exists(f"/proc/self/fd/{it}")]
task = Task.adopt()
say("MACHIPC_SOCKET" in os.environ, open_ones == [FD], task.start, task.bootstrap >= 0x80000000, len(task.names()))
say(refusal(task.attach, 1), refusal(task.attach, 99), refusal(task.attach, task.space), refusal(task._call, 0, 1), task.space)
""")
        lines = said.split("\n")
        wants(lines[0] == "False True 1 True 1", f"the command's environment: {said}")
        # The module refuses the first two attaches by itself; the last one goes to the server.
        wants(lines[1].startswith("KERN_NO_ACCESS KERN_NO_ACCESS None KERN_NO_ACCESS "), f"attaches of the command: {said}")
        wants(not self.is_there(int(lines[1].split()[-1])), "the command's space is there after it")

    def check_many_in_c(self):
        """Threads and forked children, each with connections of its own, while the server is killed."""
        with self.server.killed_often(8, 0.3, 0.8) as kills:
            ran = ended(self.machrun, self.server.path, self.program, "4", seconds=120)
        wants(ran.returncode == 0 and not ran.stderr, f"the program in C: {ran.returncode} {ran.stdout} {ran.stderr}")
        below, said = ran.stdout.split(" ", 1)
        remove(self.server.path, int(below))
        wants(int(re.search(r"(\d+) calls asked again", said)[1]) > 0, f"no call was asked again: {said}")
        self.said.append(f"in C {said.strip()}, {len(kills)} kills")

    def check_many_in_python(self):
        text = """
task = Task.adopt(once=True)
def work(number):
    with task.another() as own:
        for it in range(100):
            own.allocate(DEAD_NAME, 0x1000 * number + it)
        repeats.append(own.repeats)
repeats = []
threads = [threading.Thread(target=work, args=(it,)) for it in range(1, 4)]
[it.start() for it in threads]
[it.join() for it in threads]
pid = os.fork()
while pid == 0:
    # A child of one that numbers its calls makes a task of its own.
    with contextlib.suppress(ConnectionError):
        os._exit(refusal(task.names) != "KERN_FAILURE" or len(Task.adopt().names()) != 301)
say(os.waitpid(pid, 0)[1], len(task.names()), refusal(task.attach, 1))
"""
        with self.server.killed_often(9, 0.2, 0.5):
            said = self.ended(text)
        wants(said == "0 301 KERN_NO_ACCESS\n", f"the program in Python says {said}")

    def check_killed_server(self):
        """A call that the kill cut is reported, and the next one is made on a new connection, as without machrun."""
        with self.running("""
task = Task.adopt()
say("ready")
sys.stdin.readline()
say(refusal(task.names), len(task.names()))
sys.stdin.readline()
""") as ran:
            self.restart()
            ran.stdin.write("\n")
            ran.stdin.flush()
            said = ran.stdout.readline()
        wants(re.fullmatch(r"MACH_(RCV|SEND)_INTERRUPTED 1\n", said), f"after a kill: {said}")

    def check_number_of_another(self):
        """The command's space is destroyed, and another space gets its number. machrun gives no connections to that
        space and doesn't destroy it. If machrun lost its own connection meanwhile, it reports that the space wasn't
        destroyed, because it can't recognise it."""
        for is_restarted in (False, True):
            text = """
task = Task.adopt()
say(task.space)
sys.stdin.readline()
print(refusal(Task.adopt))
"""
            with self.running(text, status=125 if is_restarted else 0) as ran:
                space = int(ran.first)
                with Connection(self.server.path) as first:
                    remove(self.server.path, space)
                    (port,) = first.results(ALLOCATE, machine.RECEIVE)
                    made, _ = first.results(SPACE_CREATE, port, machine.MAKE_SEND)
                    wants(made == space, f"the new space is {made}, not {space}, and there are {others(self.server.path, ())}")
                if is_restarted:
                    self.restart()
            wants(ran.rest.startswith("KERN_INVALID_TASK\n"), f"a new connection: {ran.rest}")
            wants(("the space was not destroyed" in ran.rest) == is_restarted, f"the end: {ran.rest}")
            wants(self.is_there(space), "machrun destroyed another's space")
            remove(self.server.path, space)

    def check_first_name(self):
        """A command that gives up its first name gets no more connections, but its space is still destroyed when it
        ends. After a restart of the server machrun can't recognise the space any more, and it stays."""
        for is_restarted in (False, True):
            text = """
task = Task.adopt()
task.destroy(task.bootstrap)
say(task.space, refusal(task.allocate), refusal(Task.adopt))
sys.stdin.readline()
"""
            with self.running(text, status=125 if is_restarted else 0) as ran:
                space = int(ran.first.split()[0])
                wants(ran.first == f"{space} None KERN_INVALID_TASK\n", f"without its first name: {ran.first}")
                if is_restarted:
                    self.restart()
            wants(self.is_there(space) == is_restarted, "its space")
            remove(self.server.path, space)

    def check_own_end(self):
        """A command that destroys its space itself."""
        said = self.ended("task = Task.adopt()\ntask.space_destroy()\nsay(refusal(task.names), refusal(Task.adopt))\n")
        wants(said == "KERN_INVALID_TASK KERN_INVALID_TASK\n", f"after its space's end: {said}")

    def check_garbage(self):
        """Invalid requests over MACHIPC_FD stop nobody and leave no descriptor with the broker."""
        with self.running(GARBAGE) as ran:
            for it in self.broker(ran) if os.geteuid() == 0 else ():
                left = os.listdir(f"/proc/{it}/fd")
                wants(len(left) <= 5, f"the broker has {len(left)} descriptors left")
        wants(ran.first == "went on True\n", f"amid garbage: {ran.first}{ran.rest}")

    @contextlib.contextmanager
    def held_up(self, text, place, count):
        """Runs a confined program whose worker blocks in a close. It closes the last copy of a connection, which is the
        first descriptor of a message or a further one; `count` such messages are sent. The bytes that the close waits
        for are for this program to read, so the close doesn't return when the command ends."""
        listener = socket.create_server(("127.0.0.1", 0))
        hold_up = f"""
task = Task.adopt()
say(task.space)
sys.stdin.readline()
null = os.open("/dev/null", os.O_RDWR)
made = [lingering({listener.getsockname()[1]}) for _ in range({count})]
for it in made:
    send(b"x", *[null] * {place}, it.fileno())
    it.close()
say("sent")
began = time.monotonic()
"""
        with listener, self.running(hold_up + text) as ran:
            broker, _ = self.broker(ran)
            os.kill(broker, signal.SIGSTOP)
            ran.stdin.write("\n")
            ran.stdin.flush()
            ran.stdout.readline()
            os.kill(broker, signal.SIGCONT)
            yield ran

    def check_command_that_holds_its_broker_up(self):
        """machrun notices the command's end at once, whatever its broker waits for, and leaves no process behind."""
        for place in (0, 1):
            began = time.monotonic()
            with self.held_up("sys.stdin.readline()\nos._exit(0)\n", place, 3) as ran:
                time.sleep(0.5)
                brokers = self.broker(ran)
            wants(time.monotonic() - began < 10 and not self.is_there(int(ran.first)), "the end of a command that holds its broker up")
            wants(not any(map(is_running, brokers)), "a broker that is held up stays")

    def check_broker_that_ends(self):
        """A worker that is killed is started again. It isn't if the pair was shut down, or if the process above it is
        killed; the command then continues with the connections that it has."""
        text = """
task = Task.adopt()
say("ready")
sys.stdin.readline()
say(refusal(Task.adopt), refusal(Task.adopt))
with socket.socket(fileno=os.dup(FD)) as broker:
    broker.shutdown(socket.SHUT_WR)
say(refusal(Task.adopt), refusal(task.allocate))
sys.stdin.readline()
"""
        for place, wanted in (0, "(None|MACH_SEND_INTERRUPTED) None"), (1, "MACH_SEND_INTERRUPTED MACH_SEND_INTERRUPTED"):
            with self.running(text) as ran:
                brokers = self.broker(ran)
                os.kill(brokers[place], signal.SIGKILL)
                wait_for_end(brokers[0])
                ran.stdin.write("\n")
                ran.stdin.flush()
                said = ran.stdout.readline() + ran.stdout.readline()
                for it in brokers:
                    wait_for_end(it)
            wants(re.fullmatch(f"{wanted}\nMACH_SEND_INTERRUPTED None\n", said), f"a broker's end: {said}")

    def check_killed_machrun(self):
        """The broker ends with machrun; the command continues with the connections that it has."""
        with self.running("task = Task.adopt()\nsay(os.getpid(), task.space)\nsys.stdin.readline()\n"
                          "say(refusal(task.allocate), refusal(Task.adopt))\n", status=-signal.SIGKILL) as ran:
            space, brokers = int(ran.first.split()[1]), self.broker(ran)
            ran.kill()
            for it in brokers:
                wait_for_end(it)
        wants(ran.rest == "None MACH_SEND_INTERRUPTED\n", f"without machrun: {ran.rest}")
        remove(self.server.path, space)

    def check_kept(self):
        """Each start of the command has a new pair of sockets, in the same space."""
        text = """
task = Task.adopt()
say(task.start, task.space, len(task.names()))
task.allocate()
with socket.socket(fileno=os.dup(FD)) as broker:
    broker.shutdown(socket.SHUT_RDWR)
sys.exit(task.start < 2)
"""
        first, second = self.ended(text, "--keep").splitlines()
        _, space, _ = first.split()
        wants((first, second) == (f"1 {space} 1", f"2 {space} 2"), f"--keep: {first}, {second}")

    def check_adopted(self):
        """A command in a space that somebody else made. The space stays."""
        space, name, _ = space_with(self.server.path)
        given = {"MACHIPC_SOCKET": self.server.path, "MACHIPC_SPACE": str(space), "MACHIPC_BOOTSTRAP": hex(name)}
        text = "task = Task.adopt()\nsay(task.space, task.bootstrap, task.start, len(task.names()), refusal(task.attach, 1))\n"
        said = self.ended(text, "--adopt", **given, MACHIPC_START="3")
        wants(said == f"{space} {name} 3 1 KERN_NO_ACCESS\n" and self.is_there(space), f"--adopt: {said}")
        remove(self.server.path, space)
        for it, wanted in (given, "no space: KERN_INVALID_TASK"), ({}, f"--adopt: the environment has no task on {self.server.path}"):
            said = self.ended(text, "--adopt", status=125, **it)
            wants(said == f"machrun: {wanted}\n", f"--adopt without a space: {said}")

    def check_within(self):
        """A confined command can't start tasks. A command of machrun --open can, and these tasks are confined."""
        inner = f"{self.machrun} {self.server.path} sh -c 'echo $MACHIPC_SPACE ${{MACHIPC_FD:-open}} ${{MACHIPC_SOCKET:-confined}}'"
        for options, wanted in ((), 125), (("--open",), 0):
            ran = ended(self.machrun, *options, self.server.path, "sh", "-c", inner)
            wants(ran.returncode == wanted, f"machrun within machrun {options}: {ran.returncode} {ran.stdout} {ran.stderr}")
            said = "a confined task can't start tasks" in ran.stderr if wanted else re.fullmatch(r"\d+ \d+ confined\n", ran.stdout)
            wants(said, f"machrun within machrun {options} says {ran.stdout} {ran.stderr}")

    # Opening the socket.

    def can_open(self, *options, folder=None):
        """Returns True if the command of a machrun with these options can open the socket's path, and what machrun
        prints. The command is a second machrun, which doesn't know of the first one's descriptor. If a folder is given,
        both run in it, and it is the socket's folder."""
        path = self.server.path if folder is None else "./socket"
        inner = ["env", "-u", "MACHIPC_FD", self.machrun, "--open", path, "true"]
        ran = ended(self.machrun, *options, path, *inner, cwd=folder)
        wants(ran.returncode in (0, 125), f"machrun {options}: {ran.returncode} {ran.stderr}")
        return ran.returncode == 0, ran.stderr

    def check_users(self):
        if os.geteuid() != 0:
            self.said.append("who may open the socket is skipped, since this isn't root")
            return
        as_nobody = ("--user", "nobody")
        is_hidden = not self.can_open()[0]
        if not is_hidden:
            self.said.append("a hidden socket is skipped, since the system makes no mounts here")
        os.chmod(self.server.path, 0o777)
        for options in ((), as_nobody) if is_hidden else ():
            wants(not self.can_open(*options)[0], f"the command opens a hidden socket, {options}")
            folder = os.path.dirname(self.server.path)
            wants(not self.can_open(*options, folder=folder)[0], f"the command opens a hidden socket from its folder, {options}")
            wants(not self.restarts_and_opens(*options), f"the command opens a hidden socket that was made anew, {options}")
        # A folder that contains another file isn't hidden, so only the permissions protect the socket.
        other = pathlib.Path(self.server.path).with_name("other")
        other.touch()
        for mode, options, wanted in (0o777, (), True), (0o777, as_nobody, True), (0o700, as_nobody, False):
            os.chmod(self.server.path, mode)
            did, said = self.can_open(*options)
            wants(did == wanted, f"mode {mode:o}: {said}")
            wants(("may open it" in said) == wanted, f"mode {mode:o} and {options}: machrun says {said}")
        ran = ended(self.machrun, *as_nobody, self.server.path, self.program, "1")
        wants(ran.returncode == 0, f"a task of nobody: {ran.stdout} {ran.stderr}")
        remove(self.server.path, int(ran.stdout.split()[0]))
        self.check_ordinary_user()
        other.unlink()
        for options in (("--user", "no such user"), ("--user",)):
            wants(ended(self.machrun, *options, self.server.path, "true").returncode == 125, f"machrun {options}")

    def restarts_and_opens(self, *options):
        """Returns True if a command can open the socket after the server was started again."""
        path = self.server.path
        opens = f"read line; env -u MACHIPC_FD {self.machrun} --open {path} true; echo $?"
        with subprocess.Popen([self.machrun, *options, path, "sh", "-c", f"echo; {opens}"], stdin=subprocess.PIPE,
                              stdout=subprocess.PIPE, stderr=subprocess.DEVNULL, text=True) as ran:
            ran.stdout.readline()
            self.restart()
            os.chmod(path, 0o777)
            said, _ = ran.communicate("\n", timeout=60)
        return said.strip() != "125"

    def check_ordinary_user(self):
        """machrun of an ordinary user: no process of that user reads its memory or takes its descriptors, and --user is
        refused."""
        if os.geteuid() != 0:
            return
        os.chmod(self.server.path, 0o777)
        nobody = {"user": "nobody", "group": "nogroup", "extra_groups": []}
        with subprocess.Popen([self.machrun, self.server.path, "sh", "-c", "echo; read line; exit 6"], stdin=subprocess.PIPE,
                              stdout=subprocess.PIPE, text=True, **nobody) as ran:
            ran.stdout.readline()
            # The system makes root the owner of these files if a process can't be traced.
            owners = {os.stat(f"/proc/{it}/mem").st_uid for it in (ran.pid, *self.broker(ran))}
            ran.communicate("\n", timeout=60)
        wants(ran.returncode == 6 and owners == {0}, f"machrun of an ordinary user: {ran.returncode}, {owners}")
        ran = ended(self.machrun, "--user", "root", self.server.path, "true", **nobody)
        wants(ran.returncode == 125, "machrun --user of an ordinary user")


def machrun_checks(machrun, program, server):
    """Runs all checks of Confined. Returns a summary."""
    of = Confined(machrun, program, server)
    checks = [it for it in dir(of) if it.startswith("check_")]
    # A worker that is blocked ends after a while, and is started again. This command ends last, since the other checks
    # depend on the number of its space.
    text = """
while refusal(Task.adopt):
    time.sleep(0.1)
say("went on", time.monotonic() - began > 5)
sys.stdin.readline()
os._exit(0)
"""
    with of.held_up(text, 1, 1) as held:
        for it in checks:
            getattr(of, it)()
    wants(held.rest == "went on True\n", f"a broker that is held up: {held.rest}")
    wants(others(server.path, ()) == [], f"the spaces {others(server.path, ())} are left")
    return "; ".join([f"{len(checks)} checks", *of.said])
