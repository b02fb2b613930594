"""Judges stores after a loss: each has to hold the state after a prefix of its calls that has every acknowledged call.

A judge compares a history (tasks.py) with the machine. `low` and `high` are lengths of the device's log: calls that were
acknowledged at `low` must be in the store, and calls that weren't sent by `high` can't be. For a loss the two are the same; for
a copy they are its beginning and its end. A judge of a space first asks questions that change nothing, and then receives all
messages.
"""

import copy
import struct

from clients import receiving
from frames import Frames, words
from machine import MACH_MSG, MACH_RCV_TIMED_OUT, RCV_MSG, RECEIVE, SEND_MSG, Connection, Machine, Refused, listing
from old_stores import counts_of, go_on_upgraded, same_state, state_in
from store import Difference, compare
from tasks import ALLOCATE, ATTACH, Caller, Flood, Numbering, Pair, machine_of

NAMES, STATUS = 1, 13

# Calls between two states of a history that are kept.
APART = 10

# The greatest number of further questions for a space.
MOST_TAKEN = 80


class Past:
    """The states of a machine after each prefix of a history's frames."""

    def __init__(self, connection, frames):
        self.frames, self.kept = frames, [copy.deepcopy(connection)]
        for place, frame in enumerate(frames, 1):
            connection.answer(frame)
            if place % APART == 0:
                self.kept.append(copy.deepcopy(connection))

    def between(self, first, last):
        """Yields the states after `first` to `last` frames. A frame that sends and receives also has a state between the two."""
        place = first // APART * APART
        connection = copy.deepcopy(self.kept[first // APART])
        while True:
            if place >= first:
                yield connection.machine
            if place == last:
                return
            frame, is_wanted = self.frames[place], place >= first
            if is_wanted and is_exchange(frame):
                half = copy.deepcopy(connection)
                (option,) = struct.unpack_from("<I", frame, 4)
                half.answer(words(MACH_MSG, option & ~RCV_MSG) + frame[8:])
                yield half.machine
            if is_wanted:
                connection = copy.deepcopy(connection)
            connection.answer(frame)
            place += 1


def is_exchange(frame):
    if len(frame) < 8 or not frame.startswith(words(MACH_MSG)):
        return False
    return struct.unpack_from("<I", frame, 4)[0] & 3 == SEND_MSG | RCV_MSG


def status_of(machine, space, name):
    """Returns the reply to a question for the status of a name."""
    try:
        return words(STATUS, 0, *machine.get_receive_status(space, name))
    except Refused as refusal:
        return words(STATUS, refusal.code)


def answers(machine, space, frames):
    """Returns the replies to a new connection that is attached to a space."""
    connection = Connection(machine)
    connection.space = space
    return [connection.answer(it) for it in frames]


class OfCalls:
    """Judges the space of a task that makes random calls. If the calls are numbered, repeats the last one."""

    def __init__(self, task):
        self.space, self.made_at, self.history = task.space, task.made_at, task.history
        self.is_numbering = isinstance(task, Numbering)
        self.past, self.window = Past(machine_of(task.space), self.history.frames), None

    def questions(self, low, high):
        self.answered = self.history.answered_at(low)
        window = self.answered, max(self.answered, self.history.sent_at(high))
        if window != self.window:
            self.window, self.may_hold = window, list(self.past.between(*window))
            held = {name for it in self.may_hold for name, right in it.spaces[self.space].items() if right.holds(RECEIVE)}
            self.names = sorted(held)
            self.wanted = [self.replies_of(it) for it in self.may_hold]
        return [words(NAMES), *(words(STATUS, name) for name in self.names)]

    def replies_of(self, machine):
        """Returns the replies to the questions in a state."""
        return [words(NAMES, 0, *machine.names(self.space)), *(status_of(machine, self.space, it) for it in self.names)]

    def check(self, replies):
        self.held = [it for it, wanted in zip(self.may_hold, self.wanted) if wanted == replies]
        if not self.held:
            counts = f"{self.answered} answered and {len(self.may_hold) - 1} further calls"
            raise Difference(f"space {self.space} is in no state after {counts}: its names are {replies[0].hex()}")

    def more_questions(self):
        self.asked = self.history.frames[self.answered :][: self.is_numbering]
        machine = copy.deepcopy(self.held[0])
        answers(machine, self.space, self.asked)
        for name, right in sorted(machine.spaces[self.space].items()):
            if right.holds(RECEIVE):
                self.asked += [receiving(name, timeout=0)] * (len(machine.ports[right.port].queue) + 1)
        self.asked = self.asked[:MOST_TAKEN]
        return self.asked

    def check_more(self, replies):
        wanted = [answers(copy.deepcopy(it), self.space, self.asked) for it in self.held]
        if replies not in wanted:
            compare(self.asked, wanted[0], replies)


class OfFlood:
    """Judges the space of a flood, where the port's make-send count is the number of the last stored call."""

    def __init__(self, task):
        self.space, self.made_at, self.history = task.space, task.made_at, task.history

    def questions(self, low, high):
        self.least, self.most = self.history.answered_at(low), self.history.sent_at(high)
        return [words(STATUS, 0x100)]

    def check(self, replies):
        status = struct.unpack(f"<{len(replies[0]) // 4}I", replies[0])
        # The port was allocated before the first call of the history.
        if self.least and not (status[1] == 0 and self.least <= status[4] <= self.most):
            raise Difference(f"a flood had {self.least} calls answered and {self.most} written, and its port is as {status}")

    def more_questions(self):
        return []

    def check_more(self, replies):
        pass


class OfPair:
    """Judges the port of a pair: its queue has the messages from the last received number to the last sent one."""

    def __init__(self, task):
        self.space, self.made_at = task.space, task.made_at
        self.received, self.sent = task.history, task.sender.history

    def questions(self, low, high):
        self.bounds = [(it.answered_at(low), it.sent_at(high)) for it in (self.received, self.sent)]
        return [words(STATUS, 0x100)]

    def check(self, replies):
        status = struct.unpack(f"<{len(replies[0]) // 4}I", replies[0])
        if status[1]:
            raise Difference(f"the port of a pair is as {status}")
        self.first, self.last = status[3], status[3] + status[6]
        for (least, most), count, name in zip(self.bounds, (self.first, self.last), ("received", "sent")):
            if not least <= count <= most:
                raise Difference(f"{count} messages of a pair are {name}, {least} were answered and {most} asked for")

    def more_questions(self):
        return [receiving(0x100, timeout=0)] * (self.last - self.first + 1)

    def check_more(self, replies):
        numbers = [struct.unpack_from("<I", it, 36)[0] for it in replies[:-1] if len(it) >= 40]
        is_empty = replies[-1][4:8] == words(MACH_RCV_TIMED_OUT)
        if numbers != list(range(self.first + 1, self.last + 1)) or not is_empty:
            raise Difference(f"messages {self.first + 1} to {self.last} of a pair have to be there, and {numbers} are")


JUDGES = {Caller: OfCalls, Numbering: OfCalls, Flood: OfFlood, Pair: OfPair}


class OfSocket:
    """Judges the store of a server on a socket, space by space."""

    def __init__(self, tasks):
        self.judges = [JUDGES[type(it)](it) for it in tasks]

    def judge(self, store, low, high):
        judges = [it for it in self.judges if it.made_at <= low]
        before = store.listing()
        replies = self.ask(store, judges, [it.questions(low, high) for it in judges])
        if state_in(before) != state_in(store.listing()):
            raise Difference("the opening changed the state")
        for judge, its in zip(judges, replies):
            judge.check(its)
        for judge, its in zip(judges, self.ask(store, judges, [it.more_questions() for it in judges])):
            judge.check_more(its)

    def ask(self, store, judges, asked):
        """Asks the questions of each judge in its space. Returns the replies by judge."""
        frames, places = [], []
        for judge, its in zip(judges, asked):
            frames.append(words(ATTACH, judge.space))
            places.append((len(frames), len(frames) + len(its)))
            frames += its
        replies = store.serve(frames)
        for (first, _), judge in zip(places, judges):
            if replies[first - 1] != words(ATTACH, 0):
                raise Difference(f"space {judge.space} is lost")
        return [replies[first:last] for first, last in places]


class OfLone:
    """Judges the whole store of a server on standard input, whose calls have one order."""

    def __init__(self, connection, history, chance):
        self.past, self.history, self.chance = Past(connection, history.frames), history, chance

    def judge(self, store, low, high):
        answered = self.history.answered_at(low)
        before = store.listing()
        epoch, records = counts_of(before)
        may_hold = list(self.past.between(answered, max(answered, self.history.sent_at(high))))
        held = [it for it in may_hold if listing(it) == state_in(before) and (epoch or it.records == records)]
        if not held:
            raise Difference(f"no state after {answered} answered and {len(may_hold) - 1} further calls is\n{before}")
        store.serve([])
        if state_in(before) != state_in(store.listing()):
            raise Difference("the opening changed the state")
        source = Connection(copy.deepcopy(held[-1]))
        drawn, frames = Frames(self.chance, source), []
        for _ in range(30):
            frames.append(drawn.next())
            source.answer(frames[-1])
        replies = store.serve(frames)
        wanted = [answers(it, 1, frames) for it in held]
        if replies not in wanted:
            compare(frames, wanted[-1], replies)


class OfNew:
    """Judges a new store, in which a server allocated one name after another."""

    def __init__(self, history):
        self.history = history

    def judge(self, store, low, high):
        answered, sent = self.history.answered_at(low), self.history.sent_at(high)
        before = state_in(store.listing())
        may_hold = []
        connection = Connection(Machine())
        for count in range(sent + 1):
            may_hold += [listing(connection.machine)] if count >= answered else []
            connection.answer(words(ALLOCATE, RECEIVE))
        if before not in may_hold:
            raise Difference(f"{answered} allocations were answered and {sent} sent, and the store holds\n{before}")
        reply = store.serve([words(ALLOCATE, RECEIVE)])[0]
        if reply != words(ALLOCATE, 0, 0x100 + answered + may_hold.index(before)):
            raise Difference(f"the next allocation is answered with {reply.hex()}")


class OfUpgrade:
    """Judges a store of version 1 that a current server opened. `before` is its listing from before."""

    def __init__(self, known, before):
        self.known, self.before = known, before

    def judge(self, store, low, high):
        same_state(self.known, self.before, store.listing())
        store.serve([])
        go_on_upgraded(store, self.known, self.before)

