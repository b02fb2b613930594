#!/usr/bin/env python3
"""Calls of a task whose server moves from one path to another, answers late, or is killed after a long wait:
tests_paths.py moved|late|idle [async].

clients/test cuts the paths, holds the answers back or kills the server, reads what this prints, and writes a line when it
continues.
"""

import asyncio
import pathlib
import sys

sys.path.insert(0, str(pathlib.Path(__file__).resolve().parent))

from machipc import *  # noqa: E402,F403

PATIENCE, SHORTER_PATIENCE, SHORTEST_PATIENCE = 12.0, 9.0, 5.0


def say(*words):
    print(*words, flush=True)


def moved():
    task = Task.adopt(once=True, patience=PATIENCE)
    say("port", task.space, task.bootstrap)
    say("got", task.receive(task.bootstrap).id)
    sys.stdin.readline()
    made = task.allocate().detach()
    say("made", made)
    task.close()
    task = Task.adopt(patience=PATIENCE)
    say("plain")
    say("replied", task.send_receive(Message(task.bootstrap, MAKE_SEND, id=8), made).id)
    try:
        task.receive(made)
    except MACH_RCV_INTERRUPTED:
        say("cut")


async def moved_async():
    task = await AsyncTask.adopt(once=True, patience=PATIENCE)
    say("port", task.space, task.bootstrap)
    say("got", (await task.receive(task.bootstrap)).id)
    sys.stdin.readline()
    made = (await task.allocate()).detach()
    say("made", made)
    await task.close()
    task = await AsyncTask.adopt(patience=PATIENCE)
    say("plain")
    say("replied", (await task.send_receive(Message(task.bootstrap, MAKE_SEND, id=8), made)).id)
    try:
        await task.receive(made)
    except MACH_RCV_INTERRUPTED:
        say("cut")


def until_answered(call, *arguments):
    """Makes a call again after each answer that is given up."""
    while True:
        try:
            return call(*arguments)
        except (MACH_SEND_INTERRUPTED, MACH_RCV_INTERRUPTED):
            say("late")


def late():
    task = Task.adopt(patience=SHORTER_PATIENCE)
    say("port", task.space, task.bootstrap)
    sys.stdin.readline()
    say("made", until_answered(task.allocate).detach())
    say("got", until_answered(task.receive, task.bootstrap).id)


async def until_answered_async(call, *arguments):
    while True:
        try:
            return await call(*arguments)
        except (MACH_SEND_INTERRUPTED, MACH_RCV_INTERRUPTED):
            say("late")


async def late_async():
    task = await AsyncTask.adopt(patience=SHORTER_PATIENCE)
    say("port", task.space, task.bootstrap)
    sys.stdin.readline()
    say("made", (await until_answered_async(task.allocate)).detach())
    say("got", (await until_answered_async(task.receive, task.bootstrap)).id)
    await task.close()


def idle():
    task = Task.adopt(once=True, patience=SHORTEST_PATIENCE)
    say("port", task.space, task.bootstrap)
    say("got", task.receive(task.bootstrap).id)


async def idle_async():
    task = await AsyncTask.adopt(once=True, patience=SHORTEST_PATIENCE)
    say("port", task.space, task.bootstrap)
    say("got", (await task.receive(task.bootstrap)).id)
    await task.close()


if __name__ == "__main__":
    what, is_async = sys.argv[1], sys.argv[2:] == ["async"]
    if is_async:
        asyncio.run({"moved": moved_async, "late": late_async, "idle": idle_async}[what]())
    else:
        {"moved": moved, "late": late, "idle": idle}[what]()
