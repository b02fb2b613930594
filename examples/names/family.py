#!/usr/bin/env python3
"""The name service with its services and clients, for SECONDS, in the task that `machrun` made for this program.

    machrun --open SOCKET examples/names/family.py SECONDS FOLDER

FOLDER has the programs. This task starts others, so it isn't confined. The name service runs in this task's own space, since
it receives at the port that all tasks under it know as their bootstrap port; services and clients run under a machrun of
their own, which confines them. For SECONDS the name service and the services are killed at random and started again; then
they run on until each client has an answer. It prints what the clients made of it. The status is 1 where a request got a
wrong answer, or neither an answer nor a notice.
"""

import os
import pathlib
import random
import subprocess
import sys
import time

SERVICES, CLIENTS_OF_EACH = ("adder", "other"), 2


class Kept:
    """A process that is started again whenever it ends, until it is stopped."""

    def __init__(self, words):
        self.words = words
        self.start()

    def start(self):
        self.process = subprocess.Popen([str(it) for it in self.words], stdout=subprocess.DEVNULL)

    def see(self):
        if self.process.poll() is not None:
            self.start()

    def stop(self):
        self.process.terminate()
        self.process.wait()


def main(seconds, folder):
    chance, programs, kills = random.Random(7), pathlib.Path(folder), {"names": 0, "services": 0}
    below = [programs / "machrun", os.environ["MACHIPC_SOCKET"]]
    names = Kept([programs / "names"])
    services = [Kept([*below, programs / "service", it]) for it in SERVICES]
    words = [[*below, programs / "client", it, str(seconds)] for it in SERVICES for _ in range(CLIENTS_OF_EACH)]
    clients = [subprocess.Popen([str(it) for it in each], stdout=subprocess.PIPE, text=True) for each in words]
    next_kill, end = time.monotonic() + 2, time.monotonic() + seconds
    while any(it.poll() is None for it in clients):
        time.sleep(0.05)
        if next_kill <= time.monotonic() < end:
            next_kill += chance.uniform(0.5, 2)
            if chance.random() < 0.3:
                names.process.kill()
                kills["names"] += 1
            else:
                chance.choice(services).process.terminate()  # machrun hands it on, and ends the service's space
                kills["services"] += 1
        for it in (names, *services):
            it.see()
    for it in (*services, names):
        it.stop()
    failed = sum(it.returncode != 0 for it in clients)
    rows = [[int(word) for word in it.stdout.read().split()] for it in clients]
    answered, wrong, gone, unanswered, looks, repeats = (sum(column) for column in zip(*rows))
    print(f"names: {len(clients)} clients, {answered} requests answered, {gone} answered by a notice that the service is gone,"
          f" {looks} looks, {repeats} calls asked again; {kills['names']} kills of the name service, {kills['services']} of"
          f" services; {unanswered} requests lost, {wrong} answered wrongly, {failed} clients failed")
    return 1 if failed else 0


if __name__ == "__main__":
    sys.exit(main(int(sys.argv[1]), sys.argv[2]))
