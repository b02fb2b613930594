#!/usr/bin/env python3
"""writer.py SECONDS: writes numbers to a file, reads each one back, and lets others find the file.

It checks the file's right in at the name service. So a reader gets a right to this file, and none to the service of
files.
"""

import sys
import time

from common import *

end = time.monotonic() + float(sys.argv[1])
task = begin()
written = again = wrong = 0


def ask_again(service, request, *items):
    """Repeats a request until it is answered. The requests here may be made twice: writing the same text again changes
    nothing."""
    global again
    while True:
        try:
            return ask(task, service, request, *items)
        except (Unanswered, KERN_INVALID_NAME):
            again += 1
            time.sleep(PAUSE)


(files,) = ask_again(task.bootstrap, LOOK_UP, data("files"))
(diary,) = ask_again(files.names[0], OPEN, data("diary"))
ask_again(task.bootstrap, CHECK_IN, data("diary"), Ports(COPY_SEND, diary.names[0]))
while not written or time.monotonic() < end:
    written += 1
    ask_again(diary.names[0], WRITE, data(str(written)))
    (text,) = ask_again(diary.names[0], READ)
    wrong += text_of(text) != str(written)
say(f"writer: {written} written, {again} asked again, {wrong} wrong")
sys.exit(wrong > 0)
