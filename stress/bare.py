"""A load without a server, for stress/power: processes that write, overwrite, cut, sync, copy and remove files.

It tells how often a file system itself doesn't mount after a loss of power.
"""

import collections
import multiprocessing
import os
import random
import re
import shutil
import subprocess
import time

from device import Device, Log, mount, unmount
from store import Difference

WRITERS, SECONDS, MOST_BYTES = 4, 5, 1 << 20
NAMES = ("segment0", "segment1", "image0", "image1")
SIZES = (16, 60, 200, 1_000, 5_000, 70_000)

# Each SECOND_AFTER-th loss is followed by SECONDS_LOST losses during the mount and the writes after it.
SECOND_AFTER, SECONDS_LOST = 5, 2


def write(chance, folder, seconds):
    """Writes to files in a new folder for some seconds."""
    os.makedirs(folder, exist_ok=True)
    opened = [os.open(f"{folder}/{it}", os.O_CREAT | os.O_RDWR, 0o600) for it in NAMES]
    sync_folder(folder)
    until, number = time.monotonic() + seconds, 0
    while time.monotonic() < until:
        file, number = chance.choice(opened), number + 1
        size = os.fstat(file).st_size
        if chance.random() < 0.02 or size > MOST_BYTES:
            os.ftruncate(file, chance.choice([0, 16, 4_096]))
        os.lseek(file, chance.choice([size, size, chance.randrange(size + 1)]), os.SEEK_SET)
        os.write(file, chance.randbytes(chance.choice(SIZES)))
        if chance.random() < 0.7:
            os.fsync(file)
        if number % 200 == 0:
            copy(folder, f"{folder}/copy-{number % 3}")
    for file in opened:
        os.close(file)


def copy(folder, made):
    """Copies the files as machcp does, in place of an earlier copy."""
    for it in (made, made + ".part"):  # the second one is left by a loss
        shutil.rmtree(it, ignore_errors=True)
    os.mkdir(made + ".part")
    for name in NAMES:
        shutil.copyfile(f"{folder}/{name}", f"{made}.part/{name}")
        with open(f"{made}.part/{name}", "rb") as copied:
            os.fsync(copied.fileno())
    sync_folder(made + ".part")
    os.rename(made + ".part", made)
    sync_folder(folder)


def sync_folder(folder):
    opened = os.open(folder, os.O_RDONLY)
    os.fsync(opened)
    os.close(opened)


def write_logged(kind, image, mounted, chance, seconds, writers):
    """Mounts an image through a logged device, and runs writers there. Returns the log, or None if it doesn't mount."""
    subprocess.run(["cp", "--sparse=auto", image, image + ".base"], check=True)
    device = Device(image)
    device.attach()
    try:
        if mount(kind, device.path, mounted):
            return None
        chances = [random.Random(chance.random()) for _ in range(writers)]
        running = [multiprocessing.Process(target=write, args=(it, f"{mounted}/{number}", seconds)) for number, it in enumerate(chances)]
        for it in running:
            it.start()
        for it in running:
            it.join()
        unmount(mounted)
    finally:
        device.detach()
    if any(it.exitcode for it in running):
        raise Difference("a process can't write")
    return Log(device, image + ".base")


class Bare:
    """Counts the images that don't mount. `said` has the kernel's words on those without torn writes, and `reasons` counts its last
    lines."""

    def __init__(self, kind, folder, chance):
        self.kind, self.chance = kind, chance
        self.image, self.mounted = f"{folder}/loss", f"{folder}/mounted"
        self.counts, self.reasons, self.said = collections.Counter(), collections.Counter(), []

    def run(self, losses):
        disk = self.image + ".disk"
        self.kind.format(disk)
        log = write_logged(self.kind, disk, self.mounted, self.chance, SECONDS, WRITERS)
        for place, moment in enumerate(sorted(self.chance.randrange(len(log.entries) + 1) for _ in range(losses)), 1):
            for is_torn in (True, False):
                if self.lose(log, moment, is_torn, "loss") and place % SECOND_AFTER == 0:
                    self.lose_again(is_torn)
        log.close()

    def lose(self, log, moment, is_torn, what):
        """Makes an image at a moment. Returns true if it mounts."""
        tears = log.make(self.image, moment, self.chance, is_torn)
        # The mount changes the image, and a second loss begins with it as it was before.
        subprocess.run(["cp", "--sparse=auto", self.image, self.image + ".tried"], check=True)
        reason = mount(self.kind, self.image + ".tried", self.mounted)
        kind = f"{what}, {'torn' if tears else 'whole'}"
        self.counts[kind] += 1
        if reason:
            self.counts[f"{kind}, not mounted"] += 1
            self.reasons[re.sub(r"^\[.*?\] | \(\w+\)", "", reason.splitlines()[-1])] += 1
            self.said += [] if tears else [f"{kind}, at entry {moment}: {reason}"]
        else:
            unmount(self.mounted)
        return not reason

    def lose_again(self, is_torn):
        first = self.image + ".first"
        os.rename(self.image, first)
        log = write_logged(self.kind, first, self.mounted, self.chance, 0.1, 1)
        if log:
            for moment in sorted(self.chance.randrange(len(log.entries) + 1) for _ in range(SECONDS_LOST)):
                self.lose(log, moment, is_torn, "second")
            log.close()

    def told(self):
        parts = []
        for what in ("loss, torn", "loss, whole", "second, torn", "second, whole"):
            parts.append(f"{what}: {self.counts[f'{what}, not mounted']} of {self.counts[what]}")
        return "; ".join(parts + [f"{count} times: {reason}" for reason, count in self.reasons.items()])
