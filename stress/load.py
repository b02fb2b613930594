"""A load of servers on the file system of a logged device, and the judges of its stores."""

import collections
import contextlib
import copy
import multiprocessing
import os
import pathlib
import random
import shutil
import struct
import subprocess
import time

from clients import Client
from frames import words
from judge import OfLone, OfNew, OfSocket, OfUpgrade
from machine import RECEIVE, Connection, Machine
from numbered import spaces_for
from old_stores import STORES
from store import Difference, Store, framed, kill
from tasks import ALLOCATE, SET_MSCOUNT, Caller, Flood, History, Lone, Numbering, Pair, lone_reply

# Kinds of moments, by what is under way.
KINDS = ("roll", "image", "machcp", "upgrade", "opening", "creation")

# Records in the store of the server on standard input when the load begins. A checkpoint begins at 32,768.
FIRST_RECORDS = 32_600

# Calls of that server, new stores, sessions of the server on a socket, and seconds of each; by whether the load is short.
SIZES = {True: (600, 6, 2, 1.5), False: (2_000, 20, 4, 3)}


class Load:
    """Stores in `folder`, where a file system is mounted. `control` is FAULT_SYNC of faults.c, or None."""

    prefilled = None

    def __init__(self, programs, chance, folder, control, is_short):
        self.programs, self.chance, self.folder = programs, chance, folder
        self.calls_of_lone, self.new_stores, self.sessions, self.seconds = SIZES[is_short]
        self.control, self.environment = control, dict(os.environ)
        if control:
            # A kill or a reader may find such a store damaged as well.
            self.sessions = 1
            self.environment |= {"LD_PRELOAD": str(faults(folder)), "FAULT_FOLDER": folder, "FAULT_SYNC": control}
        self.path, self.noted = folder + ".socket", folder + ".names"
        self.spans, self.epochs = collections.defaultdict(list), 0
        self.tasks, self.copies, self.others, self.listings = [], [], [], {}
        self.server, self.lone, self.openings, self.judges = None, None, None, {}

    # Before the log begins.

    def prepare(self):
        """Makes the stores of the load."""
        with contextlib.suppress(FileNotFoundError):
            os.unlink(self.noted)
        for name in ("store", *self.new_names()):
            os.mkdir(f"{self.folder}/{name}")
        if not Load.prefilled:
            Load.prefilled = prefill(self.programs, self.folder + ".prefilled")
        shutil.copytree(Load.prefilled[0], f"{self.folder}/single")
        for known in old_stores():
            for number in range(2):
                name = f"old-{number}-{known.name}"
                shutil.copytree(known, f"{self.folder}/{name}")
                self.listings[name] = known, Store(self.programs, f"{self.folder}/{name}").listing()
        os.sync()

    def new_names(self):
        return [f"new-{it}" for it in range(self.new_stores)]

    # During the log.

    def run(self, device):
        self.device = device
        connection = copy.deepcopy(Load.prefilled[1])
        words_of = [self.programs / "machipcd", f"{self.folder}/single"]
        self.lone = Lone(self.chance, device, words_of, self.environment, connection, self.calls_of_lone)
        self.lone.start()
        self.openings = Openings(self.chance, device, self)
        self.openings.start()
        self.watch = Watch(self, ("store", "single"))
        kept = []
        for number in range(self.sessions):
            kept = self.session(number, kept)
        self.watch.until_over(self.lone)
        self.lone.over()
        self.openings.over()
        self.watch.end()
        self.spans["opening"] += self.lone.spans
        self.others += self.openings.done
        for name, kind, span, _ in self.openings.done:
            self.spans[kind].append(span)

    def session(self, number, kept):
        """Runs a server on a socket until it is killed. Returns the tasks that continue in the next session."""
        begun = self.device.count()
        self.server = self.start()
        self.spans["opening"].append((begun, self.device.count()))
        is_last = number == self.sessions - 1
        tasks = self.new_tasks() + ([] if number else self.new_tasks_of(Numbering, 2))
        for task in tasks:
            task.start()
        self.tasks += tasks
        for part in range(2):
            self.watch.until(time.monotonic() + self.seconds / 2)
            if not self.control:
                self.copy(f"copy-{number}-{part}")
        going_on = [it for it in tasks + kept if isinstance(it, Numbering) and not is_last]
        for task in set(tasks + kept) - set(going_on):
            task.ends.set()
        kill(self.server)
        self.server.communicate()
        for task in set(tasks + kept) - set(going_on):
            task.over()
        return going_on

    def start(self):
        with contextlib.suppress(FileNotFoundError):
            os.unlink(self.path)
        words_of = [self.programs / "machipcd", "--socket", self.path, f"{self.folder}/store"]
        server = subprocess.Popen(words_of, env=self.environment, stdout=subprocess.PIPE, stderr=subprocess.PIPE)
        if server.stdout.readline() != b"machipcd: ready\n":
            raise Difference(f"not ready: {server.stderr.read()}")
        return server

    def new_tasks(self):
        tasks = self.new_tasks_of(Caller, 2) + self.new_tasks_of(Flood, 2)
        pair = spaces_for(self.path, 1)[0]
        client = Client(self.path, pair)
        client.port()
        client.close()
        return [*tasks, Pair(self.chance, self.device, self.path, pair)]

    def new_tasks_of(self, kind, count):
        return [kind(self.chance, self.device, self.path, it) for it in spaces_for(self.path, count)]

    def copy(self, name):
        """Copies the store of the running server."""
        begun = self.device.count()
        words_of = [self.programs / "machcp", f"{self.folder}/store", f"{self.folder}/{name}"]
        with subprocess.Popen(words_of, stderr=subprocess.PIPE) as program:
            self.watch.until(time.monotonic() + 60, program)
            status, errors = program.wait(), program.stderr.read()
        span = begun, self.device.count()
        self.spans["machcp"].append(span)
        if (status, errors) == (0, b""):
            self.copies.append((name, span))
        elif (status, errors) != (1, b"machcp: store busy\n"):
            raise Difference(f"machcp: status {status}: {errors}")

    def end(self):
        """Ends every process that a difference left behind."""
        for process in (self.server, self.lone, self.openings, *self.tasks):
            if process and process.pid and (process.poll() if process is self.server else process.exitcode) is None:
                process.kill()
        for process in (self.lone, self.openings, *self.tasks):
            if process and process.pid:
                process.join(10)

    # After the log.

    def judged(self, moment, chance):
        """Yields the name, the judge, `low` and `high` of each store to judge after a loss."""
        if not self.judges:
            socket = OfSocket(self.tasks)
            self.judges = {"store": socket} | {name: socket for name, _ in self.copies}
            self.judges["single"] = OfLone(copy.deepcopy(Load.prefilled[1]), self.lone.history, chance)
            for name, kind, _, history in self.others:
                self.judges[name] = OfNew(history) if kind == "creation" else OfUpgrade(*self.listings[name])
        yield "store", self.judges["store"], moment, moment
        spans = [("single", (0, self.lone.history.answered[-1])), *((name, span) for name, _, span, _ in self.others)]
        under_way = [name for name, (begun, end) in spans if begun < moment <= end]
        over = [name for name, (_, end) in spans if end < moment]
        for name in under_way + chance.sample(over, min(len(over), 1)):
            yield name, self.judges[name], moment, moment
        made = [it for it in self.copies if it[1][1] <= moment]
        for name, (begun, end) in chance.sample(made, min(len(made), 1)):
            yield name, self.judges[name], begun, end

    def unsynced(self, name, moment):
        """Returns the files of a new store that were made and weren't covered by a sync of their folder at a moment."""
        made = set()
        for what, count, path in (it.split() for it in open(self.noted)) if os.path.exists(self.noted) else ():
            if path.startswith(f"{self.folder}/{name}/"):
                made.add(path)
            elif path == f"{self.folder}/{name}" and what == "synced" and int(count) <= moment:
                made.clear()
        return made

    def kinds_at(self, moment):
        """Returns the kinds of a moment."""
        return {kind for kind, spans in self.spans.items() if any(begun < moment <= end for begun, end in spans)}

    def calls(self):
        histories = [it.history for it in self.tasks] + [it.sender.history for it in self.tasks if isinstance(it, Pair)]
        histories += [self.lone.history, *(it[3] for it in self.others)]
        return sum(len(it.answered) for it in histories)


class Openings(multiprocessing.Process):
    """Servers on new stores and on stores of version 1. `done` has the name, kind, span and history of each."""

    def __init__(self, chance, device, load):
        super().__init__(daemon=True)
        self.chance, self.device, self.load = random.Random(chance.random()), device, load
        self.done, (self.ours, self.theirs) = [], multiprocessing.Pipe()

    def run(self):
        names = self.load.new_names() + list(self.load.listings)
        self.chance.shuffle(names)
        done, difference = [], None
        try:
            for name in names:
                begun, is_new = self.device.count(), name.startswith("new")
                history = self.create(name) if is_new else self.upgrade(name)
                done.append((name, "creation" if is_new else "upgrade", (begun, self.device.count()), history))
                time.sleep(self.chance.uniform(0, 2) * self.load.sessions * self.load.seconds / len(names) / 2)
        except Difference as found:
            difference = str(found)
        self.theirs.send((done, difference))

    def started(self, name, environment):
        words_of = [self.load.programs / "machipcd", f"{self.load.folder}/{name}"]
        return subprocess.Popen(words_of, env=environment, stdin=subprocess.PIPE, stdout=subprocess.PIPE)

    def noting(self):
        """Returns the environment of a server whose new files and synced folders are noted, if there is a C compiler."""
        if not shutil.which("cc"):
            return self.load.environment
        noted = {"FAULT_NAMES": self.load.noted, "FAULT_COUNT": self.device.count_path, "FAULT_FOLDER": self.load.folder}
        return self.load.environment | noted | {"LD_PRELOAD": str(faults(self.load.folder))}

    def create(self, name):
        """Allocates names in a new store one after another, and kills the server."""
        server, history, frame = self.started(name, self.noting()), History(), words(ALLOCATE, RECEIVE)
        for number in range(self.chance.randrange(1, 30)):
            history.frames.append(frame)
            history.sent.append(self.device.count())
            server.stdin.write(framed(frame))
            server.stdin.flush()
            if lone_reply(server) != words(ALLOCATE, 0, 0x100 + number):
                raise Difference(f"allocation {number} of {name} gets another reply")
            history.answered.append(self.device.count())
        kill(server)
        server.communicate()
        return history

    def upgrade(self, name):
        """Opens a store of version 1, sometimes after servers that were killed while they opened it."""
        while self.chance.random() < 0.5 and not self.load.control:
            server = self.started(name, self.load.environment)
            time.sleep(self.chance.uniform(0, 0.05))
            kill(server)
            server.communicate()
        server = self.started(name, self.load.environment)
        server.communicate(b"")
        if server.returncode:
            raise Difference(f"{name} can't be opened")
        return History()

    def over(self):
        if not self.ours.poll(300):
            raise Difference("the servers on new stores don't end")
        self.done, difference = self.ours.recv()
        self.join()
        if difference:
            raise Difference(difference)


class Watch:
    """Samples the headers of stores, and notes the spans in which a segment or an image is made."""

    def __init__(self, load, names):
        self.load, self.names = load, names
        self.phases, self.since = {it: None for it in names}, {}
        self.looked_at = load.device.count()

    def until(self, moment, program=None):
        while time.monotonic() < moment and (program is None or program.poll() is None):
            self.look()
            time.sleep(0.0005)

    def until_over(self, task):
        while not task.ours.poll():
            self.look()
            time.sleep(0.0005)

    def look(self):
        for name in self.names:
            phase, epoch = phase_of(f"{self.load.folder}/{name}")
            self.enter(name, phase)
            if name == "store":
                self.load.epochs = max(self.load.epochs, epoch)
        self.looked_at = self.load.device.count()

    def enter(self, name, phase):
        former = self.phases[name]
        if phase == former:
            return
        if former:
            self.load.spans[former].append((self.since[name], self.load.device.count()))
        self.phases[name], self.since[name] = phase, self.looked_at

    def end(self):
        for name in self.names:
            self.enter(name, None)


def phase_of(folder):
    """Returns `roll` or `image` if a server makes one, else None, and the newest epoch."""
    segments, images = ([slot(f"{folder}/{kind}{it}") for it in range(2)] for kind in ("segment", "image"))
    newest = max(epoch for _, is_open, epoch in segments)
    # A segment that a server on a socket has cleared has sixteen bytes until it is made.
    if any(size not in (0, 16) and not is_open for size, is_open, _ in segments):
        return "roll", newest
    is_behind = max((epoch for _, is_open, epoch in images if is_open), default=0) < newest
    return "image" if is_behind else None, newest


def slot(path):
    """Returns the size of a slot, true if its gate is open, and its epoch in that case."""
    try:
        with open(path, "rb", buffering=0) as file:
            front, size = file.read(16), os.fstat(file.fileno()).st_size
    except FileNotFoundError:
        return 0, False, 0
    is_open = len(front) == 16 and front[0] == 0x5A
    return size, is_open, struct.unpack_from("<Q", front, 8)[0] if is_open else 0


def prefill(programs, folder):
    """Returns the folder of a new store that soon begins a checkpoint, and a connection to the machine in its state."""
    os.mkdir(folder)
    store, connection = Store(programs, folder), Connection(Machine())
    frames = [words(ALLOCATE, RECEIVE), *(words(SET_MSCOUNT, 0x100, it % 7) for it in range(1, FIRST_RECORDS))]
    if store.serve(frames) != [connection.answer(it) for it in frames]:
        raise Difference("a store can't be filled")
    return store.folder, connection


def old_stores():
    return sorted(it for it in STORES.iterdir() if it.is_dir())


def faults(folder):
    """Compiles faults.c once. Returns the path of the library."""
    made = pathlib.Path(folder + ".faults.so")
    if not made.exists():
        source = pathlib.Path(__file__).resolve().parent / "faults.c"
        subprocess.run(["cc", "-shared", "-fPIC", "-O2", "-o", made, source, "-ldl"], check=True)
    return made
