"""Parts of stress/failing with disks that hang, lack room or become read-only."""

import contextlib
import copy
import os
import pathlib
import shutil
import subprocess
import tempfile
import threading
import time

from clients import ALLOCATE, CODE, NAMES, Client, receiving, sending
from device import FILE_SYSTEMS, Device, mount, unmount
from frames import words
from machine import MACH_MSG, MAKE_SEND, RECEIVE, SEND_MSG, Connection, Machine, listing
from old_stores import STORES, go_on_upgraded, same_state, state_in
from store import Difference, Store, framed, replies_in

FAULT = b"machipcd: store fault 1: device\n"

# Records of an epoch before a checkpoint begins.
CHECKPOINT = 32_768

# Size of the file systems that are filled.
MEGABYTES = 24


class Room:
    """A small file system, and a file that takes nearly all of its room."""

    def __init__(self, asked, name):
        self.name, self.folder = name, f"{asked.room}/{name}"
        os.mkdir(self.folder)
        if name == "tmpfs":
            subprocess.run(["mount", "-t", "tmpfs", "-o", f"size={MEGABYTES}m", "none", self.folder], check=True)
            return
        image = self.folder + ".image"
        with open(image, "wb") as made:
            made.truncate(MEGABYTES << 20)
        subprocess.run(["mkfs.ext4", "-q", "-F", "-m", "0", image], check=True)
        subprocess.run(["mount", "-o", "loop", image, self.folder], check=True)

    def fill(self, left):
        """Takes all room except `left` bytes."""
        free = shutil.disk_usage(self.folder).free
        with open(f"{self.folder}/ballast", "wb") as ballast:
            # The file's own metadata may need some of the free blocks.
            with contextlib.suppress(OSError):
                os.posix_fallocate(ballast.fileno(), 0, max(1, free - left))

    def empty(self):
        os.unlink(f"{self.folder}/ballast")

    def store(self, programs, source=None):
        folder = f"{self.folder}/store"
        shutil.rmtree(folder, ignore_errors=True)
        shutil.rmtree(folder + ".copy", ignore_errors=True)
        shutil.rmtree(folder + ".copy.part", ignore_errors=True)
        if source:
            shutil.copytree(source, folder)
        else:
            os.mkdir(folder)
        os.sync()
        return Store(programs, folder)

    def end(self):
        unmount(self.folder)
        os.rmdir(self.folder)


@contextlib.contextmanager
def rooms(asked):
    made = []
    try:
        yield (made.append(Room(asked, it)) or made[-1] for it in ("tmpfs", "ext4"))
    finally:
        for room in made:
            room.end()


def with_less(asked, what, try_with, sizes):
    """Calls `try_with` with each size on each file system. Some sizes have to be too small, and some large enough."""
    said = []
    with rooms(asked) as all_rooms:
        for room in all_rooms:
            ends = [try_with(room, left) for left in sizes]
            if True not in ends or False not in ends:
                raise Difference(f"{what} on {room.name}: {ends.count(False)} of {len(ends)} sizes were too small")
            said.append(f"{room.name} {ends.count(False)} of {len(ends)}")
    return f"too little room on {', on '.join(said)} times; each was reported, and with room again each store continued"


def serve_filled(room, store, frames, wanted, left):
    """Serves frames with `left` bytes of room. Returns the number of replies, and true if the server met no fault."""
    room.fill(left)
    ran = subprocess.run([store.programs / "machipcd", store.folder], input=framed(*frames), capture_output=True, timeout=120)
    room.empty()
    replies = replies_in(ran.stdout)
    if (ran.returncode, ran.stderr) not in ((0, b""), (1, FAULT)):
        raise Difference(f"{left} bytes of room on {room.name}: status {ran.returncode}: {ran.stderr}")
    if replies != wanted[: len(replies)] or not ran.returncode and len(replies) < len(wanted):
        raise Difference(f"{left} bytes of room on {room.name}: {len(replies)} replies of {len(wanted)}, or other ones")
    return len(replies), ran.returncode == 0


class Served:
    """Frames for a store, and the machine's replies and states."""

    def __init__(self, connection, frames):
        self.frames, self.wanted, self.states = frames, [], [copy.deepcopy(connection)]
        for frame in frames:
            self.wanted.append(connection.answer(frame))
            self.states.append(copy.deepcopy(connection))
        self.listings = [listing(it.machine) for it in self.states]


def try_frames(room, asked, source, served, left):
    """Serves frames with `left` bytes of room, and compares the store with the machine after that."""
    store = room.store(asked.programs, source)
    answered, is_over = serve_filled(room, store, served.frames, served.wanted, left)
    found = state_in(store.listing())
    if found not in served.listings[answered:]:
        raise Difference(f"{left} bytes of room on {room.name}: {answered} calls were acknowledged, and the store has\n{found}")
    held = copy.deepcopy(served.states[served.listings.index(found, answered)])
    after = [words(ALLOCATE, RECEIVE), receiving(0x100, timeout=0), words(NAMES)]
    if store.serve(after) != [held.answer(it) for it in after]:
        raise Difference(f"{left} bytes of room on {room.name}: with room again the replies differ")
    return is_over


MESSAGE = words(MACH_MSG, SEND_MSG, 0, 0, 0, MAKE_SEND, 0, 0x100, 0, 0, 7) + bytes(8_000)


def calls(asked, chance):
    """Calls with messages of 8,024 bytes."""
    frames = [words(ALLOCATE, RECEIVE), words(10, 0x100, 64), *[MESSAGE] * 40]
    sizes = [*(chance.randrange(1_000_000) for _ in range(4 if asked.short else 20)), 0, 4_096, 8 << 20]
    served = Served(Connection(Machine()), frames)
    return with_less(asked, "calls", lambda room, left: try_frames(room, asked, None, served, left), sizes)


def checkpoint(asked, chance):
    """Calls through the beginning of a checkpoint, whose image has 64 messages."""
    connection = Connection(Machine())
    before = [words(ALLOCATE, RECEIVE), words(10, 0x100, 64), *(words(11, 0x100, it % 7) for it in range(CHECKPOINT - 74))]
    before += [MESSAGE] * 64
    first = Store(asked.programs, tempfile.mkdtemp(dir=asked.room))
    if first.serve(before) != [connection.answer(it) for it in before]:
        raise Difference("a store can't be filled")
    served = Served(connection, [words(11, 0x100, it % 5) for it in range(200)])
    sizes = [*(chance.randrange(700_000) for _ in range(4 if asked.short else 20)), 0, 4_096, 4 << 20]
    said = with_less(asked, "a checkpoint", lambda room, left: try_frames(room, asked, first.folder, served, left), sizes)
    first.remove()
    return said


def upgrade(asked, chance):
    """Openings of stores of version 1."""
    names = ("many_ports", "messages_with_rights", "rotated")

    def try_with(room, left):
        known = STORES / names[left % len(names)]
        store = room.store(asked.programs, known)
        before = store.listing()
        _, is_over = serve_filled(room, store, [], [], left)
        same_state(known, before, store.listing())
        store.serve([])
        go_on_upgraded(store, known, before)
        return is_over

    sizes = [*(chance.randrange(800_000) for _ in range(6 if asked.short else 30)), 0, 1, 2, 4_098, 8 << 20]
    return with_less(asked, "an upgrade", try_with, sizes)


def copies(asked, chance):
    """Copies of a store with messages."""
    frames = [words(ALLOCATE, RECEIVE), words(10, 0x100, 64), *[MESSAGE] * 64]
    first = Store(asked.programs, tempfile.mkdtemp(dir=asked.room))
    first.serve(frames)

    def try_with(room, left):
        store = room.store(asked.programs, first.folder)
        copied, part = f"{store.folder}.copy", f"{store.folder}.copy.part"
        room.fill(left)
        ran = subprocess.run([store.programs / "machcp", store.folder, copied], capture_output=True, timeout=120)
        room.empty()
        if (ran.returncode, ran.stderr) not in ((0, b""), (1, b"machcp: copy not written\n")):
            raise Difference(f"{left} bytes of room on {room.name}: machcp: status {ran.returncode}: {ran.stderr}")
        if ran.returncode and os.path.exists(copied):
            raise Difference(f"{left} bytes of room on {room.name}: a copy that wasn't written is there")
        shutil.rmtree(part, ignore_errors=True)
        again = Store(store.programs, copied) if ran.returncode == 0 else store.copied()
        if state_in(again.listing()) != state_in(store.listing()):
            raise Difference(f"{left} bytes of room on {room.name}: the copy holds something else")
        return ran.returncode == 0

    sizes = [*(chance.randrange(700_000) for _ in range(4 if asked.short else 20)), 0, 4_096, 4 << 20]
    said = with_less(asked, "machcp", try_with, sizes)
    first.remove()
    return said


def inodes(asked, chance):
    """A tmpfs with few inodes. A new store needs two for its files, and two more at its first checkpoint."""
    ends, folder = [], f"{asked.room}/inodes"
    os.mkdir(folder)
    for count in range(2, 7):
        subprocess.run(["mount", "-t", "tmpfs", "-o", f"nr_inodes={count}", "none", folder], check=True)
        os.mkdir(folder + "/store")
        store = Store(asked.programs, folder + "/store")
        frames = [words(ALLOCATE, RECEIVE), *(words(11, 0x100, it % 7) for it in range(CHECKPOINT + 200))]
        ran = subprocess.run([store.programs / "machipcd", store.folder], input=framed(*frames), capture_output=True, timeout=600)
        answered, ends = len(replies_in(ran.stdout)), [*ends, ran.returncode == 0]
        if (ran.returncode, ran.stderr) not in ((0, b""), (1, FAULT)):
            raise Difference(f"{count} inodes: status {ran.returncode}: {ran.stderr}")
        subprocess.run(["mount", "-o", "remount,nr_inodes=20", folder], check=True)
        if state_in(store.listing()) not in [state_after(frames, it) for it in range(answered, answered + 65)]:
            raise Difference(f"{count} inodes: {answered} calls were acknowledged, and the store has\n{store.listing()}")
        store.serve([])
        unmount(folder)
    os.rmdir(folder)
    if True not in ends or ends.count(False) < 2:
        raise Difference(f"servers without a fault, by the number of inodes: {ends}")
    return f"with 2 to 6 of them {ends.count(False)} servers ended; each reported it, and with more inodes the store continued"


def state_after(frames, count):
    """Returns the listing after `count` frames. The first allocates a port, and each other one sets its make-send count."""
    connection = Connection(Machine())
    for frame in {0: [], 1: frames[:1]}.get(count, [frames[0], frames[min(count, len(frames)) - 1]]):
        connection.answer(frame)
    return listing(connection.machine)


def unwritable(asked, chance):
    """A folder that can't get a new file at the first checkpoint, and a file system that is mounted read-only."""
    with rooms(asked) as all_rooms:
        _, room = all_rooms
        frames = [words(ALLOCATE, RECEIVE), *(words(11, 0x100, it % 7) for it in range(CHECKPOINT + 200))]
        store = room.store(asked.programs)
        store.serve(frames[:10])
        subprocess.run(["chattr", "+i", store.folder], check=True)
        expect_fault(store, frames[1:])
        subprocess.run(["chattr", "-i", store.folder], check=True)
        is_open = state_in(store.listing())
        store.serve([])
        if state_in(store.listing()) != is_open:
            raise Difference("a store in a folder that was immutable has another state")
        before = store.listing()
        subprocess.run(["mount", "-o", "remount,ro", room.folder], check=True)
        expect_fault(store, frames[1:3])
        if store.listing() != before:
            raise Difference("a store that is mounted read-only has another listing")
        subprocess.run(["mount", "-o", "remount,rw", room.folder], check=True)
        same_state(pathlib.Path(store.folder), before, store.listing())
        store.serve(frames[1:3])
    return "an immutable folder and a read-only file system were reported, and afterwards the store continued"


def expect_fault(store, frames):
    ran = subprocess.run([store.programs / "machipcd", store.folder], input=framed(*frames), capture_output=True, timeout=600)
    if (ran.returncode, ran.stderr) != (1, FAULT):
        raise Difference(f"status {ran.returncode}: {ran.stderr}")


class Waiting(threading.Thread):
    """A client that makes one call after another, and keeps the replies."""

    def __init__(self, path, frames_of):
        super().__init__(daemon=True)
        self.client, self.frames_of, self.replies, self.fault = Client(path), frames_of, [], None
        self.ends = threading.Event()

    def run(self):
        try:
            while not self.ends.is_set():
                self.client.write(self.frames_of(len(self.replies)))
                self.replies.append(self.client.reply(None))
        except (EOFError, OSError) as fault:
            self.fault = fault


def hang(asked, chance):
    """A server on a logged device (device.py) whose process is stopped for some time."""
    kind, seconds = FILE_SYSTEMS[0], 3 if asked.short else 60
    image, folder = f"{asked.room}/hang", f"{asked.room}/hang.mounted"
    kind.format(image)
    device = Device(image)
    device.attach()
    mount(kind, device.path, folder)
    try:
        return hang_below(asked, device, folder, seconds)
    finally:
        device.go_on()
        unmount(folder)
        device.detach()


def hang_below(asked, device, folder, seconds):
    store = Store(asked.programs, folder + "/store")
    os.mkdir(store.folder)
    path = f"{asked.room}/hang.socket"
    words_of = [store.programs / "machipcd", "--socket", path, store.folder]
    server = subprocess.Popen(words_of, stdout=subprocess.PIPE, stderr=subprocess.PIPE)
    try:
        server.stdout.readline()
        first = Client(path)
        port, other = first.port(), first.port()
        callers = [Waiting(path, lambda it: words(11, port, it)) for _ in range(4)]
        callers += [Waiting(path, lambda it: sending(other, it + 1)), Waiting(path, lambda it: receiving(other))]
        for caller in callers:
            caller.start()
        time.sleep(1)
        device.hang()
        time.sleep(0.3)
        before = [len(it.replies) for it in callers]
        newcomer = Client(path)
        newcomer.write(words(11, port, 1))
        time.sleep(seconds)
        during = [len(it.replies) for it in callers]
        device.go_on()
        if newcomer.reply(30) != (11, 0):
            raise Difference("a client that connected while the disk hung isn't answered")
        time.sleep(1)
        return told_of_hang(server, callers, before, during, seconds)
    finally:
        device.go_on()
        server.kill()
        server.communicate()


def told_of_hang(server, callers, before, during, seconds):
    """Checks that every call succeeded, none while the disk hung, and some after it."""
    for caller in callers:
        caller.ends.set()
    after = [len(it.replies) for it in callers]
    faults = [it.fault for it in callers if it.fault]
    if faults or server.poll() is not None:
        raise Difference(f"a disk that hung for {seconds} seconds: status {server.poll()}, {faults}")
    if during != before:
        raise Difference(f"calls were acknowledged while the disk hung: {before}, {during}")
    if not all(late > early for late, early in zip(after, during)):
        raise Difference(f"clients aren't answered after the disk hung: {during}, {after}")
    if any(reply[CODE] for it in callers for reply in it.replies):
        raise Difference("a call was refused while the disk hung")
    numbers = [reply[-1] for reply in callers[-1].replies]
    if numbers != list(range(1, len(numbers) + 1)):
        raise Difference("messages were lost while the disk hung, or came twice")
    return f"{len(callers)} clients waited for {seconds} seconds, and made {sum(after)} calls before and after"


def removed(asked, chance):
    """Removes the folder of a running server, and removes or replaces a slot. The server ends with a fault within two seconds.

    ROOM_PARTS doesn't have it yet: the server doesn't check whether its open files are still those of its folder."""
    for change in (remove_folder, remove_slot, replace_slot):
        store = Store(asked.programs)
        store.serve([words(ALLOCATE, RECEIVE)])
        path = store.folder + ".socket"
        words_of = [store.programs / "machipcd", "--socket", path, store.folder]
        with subprocess.Popen(words_of, stdout=subprocess.PIPE, stderr=subprocess.PIPE) as server:
            server.stdout.readline()
            change(pathlib.Path(store.folder))
            try:
                server.wait(2)
            except subprocess.TimeoutExpired:
                server.kill()
                raise Difference(f"{change.__name__}: the server still runs after two seconds") from None
            errors = server.stderr.read()
        if server.returncode != 1 or not errors.startswith(b"machipcd: store fault "):
            raise Difference(f"{change.__name__}: status {server.returncode}: {errors}")
        os.unlink(path)
    return "a removed folder, a removed slot and a replaced slot were reported within two seconds"


def remove_folder(folder):
    shutil.rmtree(folder)


def remove_slot(folder):
    (folder / "segment0").unlink()


def replace_slot(folder):
    shutil.copy(folder / "segment0", folder / "other")
    (folder / "other").rename(folder / "segment0")


ROOM_PARTS = (hang, calls, checkpoint, upgrade, copies, inodes, unwritable)
