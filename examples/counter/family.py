#!/usr/bin/env python3
"""The counter with its clients, for SECONDS, in the task that `machrun` made for this program.

    machrun --open SOCKET examples/counter/family.py SECONDS FOLDER

FOLDER contains the programs. This task starts others, so it isn't confined; the clients are. The status is 1 if the
counter isn't the sum of the clients' calls, because a call was lost or made twice.
"""

import os
import pathlib
import subprocess
import sys

CLIENTS = 3


def main(seconds, folder):
    programs = pathlib.Path(folder)
    below = [programs / "machrun", os.environ["MACHIPC_SOCKET"], programs / "counter-client"]
    with subprocess.Popen([programs / "counter"]) as counter:
        pipes = {"stdout": subprocess.PIPE, "text": True}
        clients = [subprocess.Popen([*below, str(seconds)], **pipes) for _ in range(CLIENTS)]
        said = [it.communicate()[0].split() for it in clients]
        last = subprocess.run([*below, "0"], **pipes).stdout.split()
        counter.terminate()
    calls, repeats, value = sum(int(it[0]) for it in said), sum(int(it[2]) for it in said), int(last[1])
    failed = sum(it[3] != "KERN_SUCCESS" for it in [*said, last])
    print(f"counter: {CLIENTS} clients, {calls} additions by stubs of MIG, {repeats} calls asked again, the counter is {value};"
          f" {max(0, calls - value)} lost, {max(0, value - calls)} doubled, {failed} clients failed")
    return 1 if failed or calls != value else 0


if __name__ == "__main__":
    sys.exit(main(int(sys.argv[1]), sys.argv[2]))
