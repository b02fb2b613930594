"""What the programs of the tutorial have in common: the ids of requests, names for ports, and requests to a service."""

import time

from machipc import *

# The ids of requests to the name service, and to files. A reply's id is its request's plus 100.
CHECK_IN, LOOK_UP = 1001, 1002
OPEN, READ, WRITE = 2001, 2002, 2003

PAUSE = 0.02


class Unanswered(Exception):
    """The request was destroyed without an answer: the service that had it ended."""


def name_for(text):
    """Returns a name for a text, always the same for the same text (FNV-1a)."""
    hashed = 0x811C9DC5
    for byte in text.encode():
        hashed = (hashed ^ byte) * 0x01000193 % (1 << 32)
    return 0x40000000 | hashed & 0x3FFFFFFF


def begin(**options):
    """Returns the task that machrun made for this program. It waits for a server that is being started again."""
    while True:
        try:
            return Task.adopt(once=True, **options)
        except MACH_SEND_INTERRUPTED:
            time.sleep(PAUSE)


def sweep(task, keep):
    """Destroys all names but these, so that nobody waits for an answer from before this start."""
    for name in task.names():
        if name not in keep:
            task.destroy(name)


def ask(task, service, request, *items):
    """Makes a request, and returns the items of the answer. A refusal raises the exception that the service raised."""
    with task.allocate() as port:
        question = Message.of(service, COPY_SEND, *items, id=request, local=port, local_disposition=MAKE_SEND_ONCE)
        answer = task.send_receive(question, port)
        if answer.id == NOTIFY_SEND_ONCE:
            raise Unanswered
        if answer.id != request + 100:
            raise MIG_REPLY_MISMATCH
        code = refusal_of(answer.items)
        if code:
            raise MachError.by_code.get(code, UnknownCode)(f"request {request}")
        return answer.items


def refusal_of(items):
    """Returns the code of a refusal, which is its only item, or 0 if the items are no refusal."""
    is_code = len(items) == 1 and isinstance(items[0], Data) and items[0].type == INTEGER_32
    return int.from_bytes(items[0].bytes, "little", signed=True) if is_code else 0


def text_of(item):
    """Returns the text of an item. An item that isn't data is refused."""
    if not isinstance(item, Data):
        raise MIG_BAD_ARGUMENTS
    return item.bytes.decode(errors="replace")


def say(*words):
    print(*words, flush=True)
