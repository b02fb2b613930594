#!/usr/bin/env python3
"""reader.py SECONDS: reads the writer's file again and again. The number in it may never become smaller."""

import sys
import time

from common import *

end = time.monotonic() + float(sys.argv[1])
task = begin()
last = reads = wrong = 0
diary = None
while not reads or time.monotonic() < end:
    try:
        if diary is None:
            (found,) = ask(task, task.bootstrap, LOOK_UP, data("diary"))
            diary = found.names[0]
        (text,) = ask(task, diary, READ)
    except (Unanswered, KERN_INVALID_NAME):
        time.sleep(PAUSE)
        continue
    number = int(text_of(text) or 0)
    reads += 1
    wrong += number < last
    last = number
    time.sleep(PAUSE / 10)
try:
    ask(task, diary, OPEN, data("other"))
    wrong += 1  # a right to one file opened another one
except (Unanswered, KERN_NO_ACCESS):
    pass
say(f"reader: {reads} read, the last was {last}, {wrong} wrong")
sys.exit(wrong > 0)
