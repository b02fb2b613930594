"""Random clients, most of which wait, and the conditions that must hold once all is quiet.

There are households and senders. A household is a space with lasting ports, temporary ports, and sets. Its changer
renames them, moves them into sets and out of them, sends their receive rights around, changes their limits and destroys
the temporary ones, while its receivers wait for messages. The senders are in space 1 and have a send right to each
lasting port. Each message has a unique number.
"""

import math
import random
import threading
import time

from clients import (
    CODE,
    DESTROY,
    EXTRACT_RIGHT,
    ID,
    MACH_RCV_PORT_CHANGED,
    MACH_RCV_PORT_DIED,
    MOVE_MEMBER,
    NAMES,
    RECEIVE_STATUS,
    RENAME,
    SET_QLIMIT,
    SET_SEQNO,
    SET_STATUS,
    SPACE_CREATE,
    close_all,
    exchanging,
    ports,
    receiving,
    sending,
)
from machine import (
    MACH_RCV_IN_SET,
    MACH_RCV_INVALID_NAME,
    MACH_RCV_TIMED_OUT,
    MACH_RCV_TOO_LARGE,
    MACH_SEND_INVALID_DEST,
    MACH_SEND_TIMED_OUT,
    MAKE_SEND,
    MOST_QUEUED,
    MOVE_RECEIVE,
    PORT_SET,
    RCV_LARGE,
    RECEIVE,
)
from store import Difference

HOUSEHOLDS, LASTING, PASSING, SETS = 4, 4, 2, 2
RECEIVERS, SENDERS = 7, 16

# Number of clients that disconnect at once.
GOING = 8

# Seconds of calls before the clients are stopped, and seconds during which nothing must be answered then.
LIVELY, QUIET = 3, 0.7

# A disconnected client takes no message that was written this many seconds later.
MARGIN = 0.001

ENDED_RECEIPTS = (MACH_RCV_INVALID_NAME, MACH_RCV_IN_SET, MACH_RCV_PORT_CHANGED, MACH_RCV_PORT_DIED)
HOLDS_RECEIVE, HOLDS_SET = 1 << 17, 1 << 19


class Book:
    """The outcome of each message."""

    def __init__(self):
        self.lock = threading.Lock()
        self.count, self.answers, self.differences = 0, 0, []
        # The times at which the senders' messages were written; the messages that were sent, and received. Messages of
        # a household may be lost with a port.
        self.written, self.sent, self.received, self.refused = {}, set(), set(), set()
        # The connections of receives that ended when a message may have been on its way to them, and the time at which
        # the server was killed in this round.
        self.gone, self.killed_at = [], None
        self.may_go_on, self.is_over = threading.Event(), False

    def number(self, is_counted):
        with self.lock:
            self.count += 1
            if is_counted:
                self.written[self.count] = time.monotonic()
            return self.count

    def has_sent(self, number):
        with self.lock:
            self.sent.add(number)

    def has_refused(self, number):
        with self.lock:
            self.refused.add(number)

    def has_received(self, number):
        with self.lock:
            if number in self.received or number in self.refused or not 0 < number <= self.count:
                was = "twice" if number in self.received else "though it was refused"
                self.differences.append(f"message {number} came {was}")
            self.received.add(number)

    def lost(self):
        """Returns the messages that nobody received, except one for each receive whose connection ended no earlier than
        the message was written."""
        lost = sorted((self.written[it], it) for it in self.sent & set(self.written) - self.received)
        for moment in sorted(it.gone_at or self.killed_at for it in self.gone):
            if lost and lost[0][0] <= moment + MARGIN:
                lost.pop(0)
        self.gone, self.sent = [], set()
        return [it for _, it in lost]


class Task(threading.Thread):
    """A client that makes random calls, and reconnects after its connection was ended."""

    def __init__(self, chance, server, book, space):
        super().__init__(daemon=True)
        self.chance, self.server, self.book, self.space = chance, server, book, space
        self.client, self.asked = None, None

    def run(self):
        while not self.book.is_over:
            try:
                self.client = self.server.client(self.space)
                while self.wait_for_turn():
                    self.act()
            except (EOFError, OSError):
                self.has_gone()
                time.sleep(0.01)
            except Exception as fault:
                self.book.differences.append(f"{type(fault).__name__}: {fault}")
                return

    def wait_for_turn(self):
        self.book.may_go_on.wait()
        return not self.book.is_over

    def has_gone(self):
        asked, self.asked = self.asked, None
        if self.client and not self.client.gone_at and not self.book.killed_at:
            self.book.differences.append("a connection was closed before its client went")
        if asked and asked.source is not None and not self.client.was_calm:
            self.book.gone.append(self.client)

    def ask(self, asked):
        self.client.write(asked.frame)
        self.asked = asked
        reply = self.client.reply(None)
        self.asked = None
        self.book.answers += 1
        asked.note(self.book, reply)


class Asked:
    """A call that may wait: the message and its destination, the source of its receive, and true if it has a timeout.
    """

    def __init__(self, frame, number=None, to=None, source=None, is_timed=False, is_small=False):
        self.frame, self.number, self.to, self.source = frame, number, to, source
        self.is_timed, self.is_small = is_timed, is_small

    def note(self, book, reply):
        """Notes the messages in a reply. A reply that no such call can have is a difference."""
        code = reply[CODE]
        if self.number is not None:
            if code in (MACH_SEND_INVALID_DEST, MACH_SEND_TIMED_OUT):
                book.has_refused(self.number)
                if code == MACH_SEND_TIMED_OUT and not self.is_timed:
                    raise Difference(f"frame {self.frame.hex()}, which waits for ever, is over")
                return
            book.has_sent(self.number)
        if self.source is None:
            if code:
                raise Difference(f"frame {self.frame.hex()} is answered with {code:#x}")
            return
        if code == 0:
            book.has_received(reply[ID])
        elif code not in ENDED_RECEIPTS and not (code == MACH_RCV_TIMED_OUT and self.is_timed or code == MACH_RCV_TOO_LARGE and self.is_small):
            raise Difference(f"frame {self.frame.hex()} is answered with {code:#x}")


class Household:
    """A space, and its contents: the names of its lasting ports, of its temporary ports, and of its sets."""

    def __init__(self, server, first, door):
        self.space, self.door = first.call(SPACE_CREATE, door, MAKE_SEND)
        self.client = server.client(self.space)
        self.lasting = [self.client.name(RECEIVE) for _ in range(LASTING)]
        self.passing = [self.client.name(RECEIVE) for _ in range(PASSING)]
        self.sets = [self.client.name(PORT_SET) for _ in range(SETS)]
        self.bag = self.client.name(RECEIVE)
        for name in self.lasting:
            self.client.send(self.door, 0, ports(MAKE_SEND, name))
        self.targets = []
        for _ in self.lasting:
            self.targets.append(first.ask(receiving(door))[-1])

    def any_port(self, chance):
        return chance.choice(self.lasting + self.passing)

    def any_name(self, chance):
        return chance.choice([*self.lasting, *self.passing, *self.sets, *self.sets])


class Receiver(Task):
    def __init__(self, chance, server, book, household):
        super().__init__(chance, server, book, household.space)
        self.household = household

    def act(self):
        chance, source = self.chance, self.household.any_name(self.chance)
        timeout = chance.choice([None, None, None, 0, chance.randrange(1, 300), 60_000])
        draw = chance.random()
        if draw < 0.15:
            to, number = self.household.any_port(chance), self.book.number(False)
            self.ask(Asked(exchanging(to, number, source, MAKE_SEND), number, to, source))
        elif draw < 0.3:
            to, number = self.household.any_port(chance), self.book.number(False)
            self.ask(Asked(sending(to, number, timeout=timeout, disposition=MAKE_SEND), number, to, is_timed=timeout is not None))
        else:
            is_small = chance.random() < 0.2
            frame = receiving(source, timeout, 24 if is_small else 8192, RCV_LARGE if is_small else 0)
            self.ask(Asked(frame, source=source, is_timed=timeout is not None, is_small=is_small))


class Sender(Task):
    def __init__(self, chance, server, book, targets):
        super().__init__(chance, server, book, 1)
        self.targets = targets

    def act(self):
        chance, to = self.chance, self.chance.choice(self.targets)
        timeout = chance.choice([None, None, 0, chance.randrange(1, 300), 60_000])
        number = self.book.number(True)
        body = [ports(MAKE_SEND)] if chance.random() < 0.3 else []
        self.ask(Asked(sending(to, number, *body, timeout=timeout), number, to, is_timed=timeout is not None))
        time.sleep(chance.choice([0, 0, 0.001, 0.02]))


class Changer(Task):
    """Makes changes one after another, and continues from the actual state if the server was killed during one."""

    def __init__(self, chance, server, book, household):
        super().__init__(chance, server, book, household.space)
        # The names that are being changed.
        self.household, self.is_sure, self.amid = household, True, []
        self.fresh = 0x1000

    def has_gone(self):
        super().has_gone()
        self.is_sure = False

    def act(self):
        if not self.is_sure:
            self.find()
            self.is_sure = True
        self.chance.choice([self.rename, self.rename, self.move, self.move, self.move, self.limit, self.carry, self.extract, self.replace])()
        time.sleep(self.chance.choice([0, 0.002, 0.02]))

    def find(self):
        """Finds the current names. Unknown ones are results of the interrupted change."""
        household = self.household
        while self.client.ask(receiving(household.bag, timeout=0))[CODE] == 0:
            pass
        found = self.client.call(NAMES)[1:]
        types = dict(zip(found[::2], found[1::2]))
        for names, bit in ((household.lasting, HOLDS_RECEIVE), (household.passing, HOLDS_RECEIVE), (household.sets, HOLDS_SET)):
            names[:] = [it for it in names if types.get(it, 0) & bit]
        known = {household.bag, *household.lasting, *household.passing, *household.sets}
        self.amid += [it for it, bits in types.items() if bits & (HOLDS_RECEIVE | HOLDS_SET) and it not in known]
        for names, right, count in ((household.passing, RECEIVE, PASSING), (household.sets, PORT_SET, SETS)):
            while len(names) < count:
                names.append(self.client.name(right))

    def some(self, *kinds):
        """Picks a name of one of these kinds for a change. Returns the list of that kind and an index."""
        self.amid = self.chance.choice(kinds)
        return self.amid, self.chance.randrange(len(self.amid))

    def ports(self):
        return self.some(*[self.household.lasting] * 3, self.household.passing)

    def rename(self):
        names, place = self.some(self.household.lasting, self.household.passing, self.household.sets)
        self.fresh += 1
        self.client.call(RENAME, names[place], self.fresh)
        names[place] = self.fresh

    def move(self):
        names, place = self.ports()
        to = self.chance.choice([0, *self.household.sets])
        if to or self.client.call(RECEIVE_STATUS, names[place])[0]:
            self.client.call(MOVE_MEMBER, names[place], to)

    def limit(self):
        names, place = self.ports()
        self.client.call(SET_QLIMIT, names[place], self.chance.choice([0, 1, 1, 2, 3, 5]))

    def carry(self):
        """Sends a port's receive right away, and receives it again."""
        names, place = self.ports()
        self.client.send(self.household.bag, 0, ports(MOVE_RECEIVE, names[place]), disposition=MAKE_SEND)
        time.sleep(self.chance.choice([0, 0.005]))
        names[place] = self.client.ask(receiving(self.household.bag))[-1]

    def extract(self):
        """Extracts a port's receive right to the least unused name."""
        names, place = self.ports()
        names[place] = self.client.call(EXTRACT_RIGHT, names[place], MOVE_RECEIVE)[0]

    def replace(self):
        """Destroys a temporary port or a set, and makes another one."""
        names, place = self.some(self.household.passing, self.household.sets)
        self.client.call(DESTROY, names[place])
        names[place] = self.client.name(PORT_SET if names is self.household.sets else RECEIVE)


class Listed:
    """The listing of a store by `machls`: the entry of each name, and each port's number of messages and limit."""

    def __init__(self, store):
        self.names, self.queues, space = {}, {}, None
        for kind, *rest in (line.split() for line in store.listing().splitlines()):
            if kind == "space":
                space = int(rest[0])
            elif kind == "name":
                self.names[space, int(rest[0], 16)] = int(rest[1], 16), int(rest[3])
            elif kind == "port":
                place = rest.index("queue")
                self.queues[int(rest[0])] = int(rest[place + 1]), int(rest[place + 3])

    def messages(self, space, name):
        return self.queues[self.names[space, name][1]][0]

    def has_room(self, space, name):
        """Returns true if a send has room, or its right is gone."""
        bits, serial = self.names.get((space, name), (0, 0))
        queued, most = self.queues.get(serial, (0, 1))
        return queued < most

    def has_message(self, looker, space, name):
        """Returns true if a receive has a message, or its source is gone."""
        bits, _ = self.names.get((space, name), (0, 0))
        if bits & HOLDS_RECEIVE:
            return looker.call(RECEIVE_STATUS, name)[0] != 0 or self.messages(space, name) > 0
        if bits & HOLDS_SET:
            return any(self.messages(space, it) > 0 for it in looker.call(SET_STATUS, name)[1:])
        return True


def passed_over(server, tasks):
    """Returns the waiting calls that could proceed."""
    listed, found, lookers = Listed(server.store), set(), {}
    for task in tasks:
        asked = task.asked
        if asked is None:
            continue
        looker = lookers.setdefault(task.space, None) or server.client(task.space)
        lookers[task.space] = looker
        # For a send followed by a receive it is unknown which of the two waits.
        may_send = asked.to is None or listed.has_room(task.space, asked.to)
        may_receive = asked.source is None or listed.has_message(looker, task.space, asked.source)
        if may_send and may_receive:
            found.add(asked)
    close_all(lookers.values())
    return found


def become_quiet(book, seconds):
    until, seen = time.monotonic() + 60, None
    while seen != book.answers:
        if time.monotonic() > until:
            raise Difference("it doesn't become quiet")
        seen = book.answers
        time.sleep(seconds)


def empty(server, book, households, tasks):
    """Receives all messages, so that all sends have room."""
    lookers = [server.client(it.space) for it in households]
    for looker in lookers:
        for name, bits in names_of(looker):
            if bits & HOLDS_RECEIVE:
                looker.call(SET_QLIMIT, name, MOST_QUEUED)
    until = time.monotonic() + 20
    while sum(take_all(book, looker) for looker in lookers) or waiting_sends(tasks):
        if time.monotonic() > until:
            frames = "\n".join(it.frame.hex() for it in waiting_sends(tasks))
            raise Difference(f"sends wait, whose queues were emptied:\n{frames}")
    close_all(lookers)


def waiting_sends(tasks):
    return [it for it in [task.asked for task in tasks] if it and it.source is None]


def names_of(looker):
    found = looker.call(NAMES)[1:]
    return list(zip(found[::2], found[1::2]))


def take_all(book, looker):
    """Receives all messages of a space, and returns their number."""
    count = 0
    for name, bits in names_of(looker):
        if bits & (HOLDS_RECEIVE | HOLDS_SET):
            for number in looker.take_all(name, MOST_QUEUED):
                count += 1
                # A message that carried a receive right has the number 0.
                if number:
                    book.has_received(number)
    return count


def live_calmly(chance, server, book, tasks):
    """Makes random calls; sometimes waits until all possible replies have come, and then disconnects clients. Returns
    the number of these."""
    went, until = 0, time.monotonic() + LIVELY
    while time.monotonic() < until:
        book.may_go_on.set()
        time.sleep(chance.uniform(0.1, 0.6))
        hush(book, server)
        for task in chance.sample(tasks, GOING):
            if task.client and not isinstance(task, Changer):
                task.client.was_calm = True
                task.client.go()
                went += 1
        time.sleep(MARGIN)
    return went


def hush(book, server):
    """Stops new calls, and waits for pending replies."""
    book.may_go_on.clear()
    looker = server.client()
    port = looker.name(RECEIVE)
    seen = None
    while seen != book.answers:
        seen = book.answers
        time.sleep(0.05)
        # Earlier calls are stored with it.
        looker.call(SET_SEQNO, port, 1)
        time.sleep(0.1)
    looker.call(DESTROY, port)
    looker.close()


def live_wildly(chance, server, book, tasks):
    """Makes random calls, and disconnects clients at any moment. Returns the number of these."""
    went, until = 0, time.monotonic() + LIVELY
    book.may_go_on.set()
    while time.monotonic() < until:
        task = chance.choice(tasks)
        if task.client and not isinstance(task, Changer):
            task.client.go()
            went += 1
        time.sleep(chance.uniform(0, 0.1))
    return went


def live_through_a_kill(chance, server, book, tasks):
    """Makes random calls, and kills the server meanwhile."""
    book.may_go_on.set()
    time.sleep(chance.uniform(0.3, 0.9) * LIVELY)
    # Until the time is known, any moment is possible.
    book.killed_at = math.inf
    server.kill()
    book.killed_at = time.monotonic()
    server.start()
    return live_calmly(chance, server, book, tasks)


def expect_rest(server, book, tasks, households):
    """Checks that all is quiet: no waiting call can proceed, and no message was lost or delivered twice."""
    book.may_go_on.clear()
    become_quiet(book, QUIET)
    found = passed_over(server, tasks)
    if found:
        time.sleep(QUIET)
        again = passed_over(server, tasks) & found
        if again:
            frames = "\n".join(it.frame.hex() for it in again)
            raise Difference(f"{len(again)} calls wait and could go on:\n{frames}")
    waiting = sum(it.asked is not None for it in tasks)
    empty(server, book, households, tasks)
    become_quiet(book, QUIET / 2)
    sent, lost = len(book.sent), book.lost()
    if lost:
        raise Difference(f"{len(lost)} of {sent} messages were lost, the first of them {lost[0]}")
    if book.differences:
        raise Difference("\n".join(book.differences))
    return waiting


def histories(chance, server, asked):
    book, first = Book(), server.client()
    door = first.port()
    households = [Household(server, first, door) for _ in range(HOUSEHOLDS)]
    targets = [it for household in households for it in household.targets]
    tasks = [Sender(of(chance), server, book, targets) for _ in range(SENDERS)]
    for household in households:
        tasks += [Changer(of(chance), server, book, household)]
        tasks += [Receiver(of(chance), server, book, household) for _ in range(RECEIVERS)]
    for task in tasks:
        task.start()
    rounds, kills, went, waited, until = 0, 0, 0, 0, time.monotonic() + asked.seconds
    try:
        while time.monotonic() < until:
            live = (live_calmly, live_through_a_kill, live_wildly)[rounds % 3]
            book.killed_at = None
            went += live(chance, server, book, tasks)
            waited += expect_rest(server, book, tasks, households)
            rounds, kills = rounds + 1, kills + (live is live_through_a_kill)
    finally:
        end(book, tasks)
    return (
        f"{book.count} messages in {rounds} rounds with {kills} kills of the server and {went} of clients: none was lost or came twice, "
        f"and of {waited} calls that waited as all was quiet none could go on"
    )


def of(chance):
    return random.Random(chance.random())


def end(book, tasks):
    book.is_over, book.killed_at = True, time.monotonic()
    book.may_go_on.set()
    for task in tasks:
        if task.client:
            task.client.go()
