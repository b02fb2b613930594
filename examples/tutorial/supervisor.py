#!/usr/bin/env python3
"""machrun --open SOCKET supervisor.py SECONDS [PROGRAMS]: runs the name service, the service of files, a writer and a
reader.

Each is confined by a machrun of its own. The services are killed now and then: machrun --keep starts them again, in the
spaces that they had. PROGRAMS is a folder with the same programs, built from Rust.
"""

import contextlib
import os
import pathlib
import random
import signal
import subprocess
import sys
import tempfile
import threading
import time

HERE = pathlib.Path(__file__).resolve().parent
SECONDS, PROGRAMS = int(sys.argv[1]), sys.argv[2:]
MACHRUN, SOCKET = os.environ.get("MACHRUN", "machrun"), os.environ["MACHIPC_SOCKET"]


def start(name, *words, options=()):
    """Starts a program, confined."""
    program = [f"{PROGRAMS[0]}/{name}"] if PROGRAMS else [sys.executable, f"{HERE}/{name}.py"]
    return subprocess.Popen([MACHRUN, *options, SOCKET, *program, *map(str, words)], stdout=subprocess.PIPE, text=True)


running, kills = {}, 0


def listen(service):
    """Records the process id that a service prints each time it starts."""
    for line in service.stdout:
        name, process = line.split()
        running[name] = int(process)


with tempfile.TemporaryDirectory() as room:
    folder = pathlib.Path(room, "files")
    folder.mkdir()
    # The name service receives on this program's bootstrap port, which all tasks below know. So it runs in this space.
    services = [start("names", options=["--keep", "--adopt"]), start("files", folder, options=["--keep"])]
    for it in services:
        threading.Thread(target=listen, args=(it,)).start()
    clients = [start("writer", SECONDS), start("reader", SECONDS)]
    chance = random.Random(3)
    end = time.monotonic() + SECONDS
    while time.monotonic() < end:
        time.sleep(chance.uniform(0.5, 3))
        victim = running.pop(chance.choice(["names", "files"]), None)
        if victim:
            with contextlib.suppress(ProcessLookupError):
                os.kill(victim, signal.SIGKILL)
                kills += 1
    said = [it.communicate()[0] for it in clients]
    for it in services:
        it.terminate()
        it.wait()
print("".join(said) + f"{kills} kills of services")
sys.exit(any(it.returncode for it in clients))
