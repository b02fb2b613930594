"""Random frames: most are calls that can be done in the current state of the machine, and some are invalid."""

import struct

from machine import (
    ARGUMENTS,
    ATTACH,
    CONFINE,
    COPY_SEND,
    DEAD,
    DEAD_NAME_NOTICE,
    FOR_HEADERS,
    LAST_WORD,
    MACH_MSG,
    MAKE_SEND_ONCE,
    MOVE_RECEIVE,
    MOVE_SEND,
    MOVE_SEND_ONCE,
    NO_SENDERS,
    NULL,
    NUMBERED,
    ONE_ATTEMPT,
    PORT_DESTROYED,
    RCV_LARGE,
    RCV_MSG,
    RCV_TIMEOUT,
    RECEIVE,
    SEND,
    SEND_MSG,
    SEND_ONCE,
    SEND_TIMEOUT,
)

# Weights of the calls.
OFTEN = {0: 2, 1: 2, 2: 2, 3: 3, 4: 3, 5: 7, 6: 2, 7: 5, 8: 2, 9: 5, 10: 2, 11: 1, 12: 1, 13: 4, 14: 2, 15: 4}
OFTEN |= {16: 9, 17: 9, 18: 7, MACH_MSG: 60, 20: 1, 21: 0.3, NUMBERED: 12, CONFINE: 1, 99: 0.3}
OF_SPACES = {ATTACH, 20, 21}
# The fraction of connections with access to other spaces that are ever confined. A confined connection no longer sees
# other spaces.
CONFINED_PART = 0.15

# Numbers of names and of spaces from which on more are destroyed than made.
MANY_NAMES, MANY_SPACES = 40, 4

LONG_IN_LINE, IN_LINE, COMPLEX = 0x30000000, 0x10000000, 0x80000000


def words(*values):
    return b"".join(struct.pack("<I", it & LAST_WORD) for it in values)


class Frames:
    """Frames of one connection. `is_alone`: the connection may use other spaces, and no call waits for another
    connection. A connection that may not use them only tries to once it is confined, when that has no effect."""

    def __init__(self, random, connection, is_alone=True):
        self.random = random
        self.connection = connection
        self.machine = connection.machine
        self.is_alone = is_alone
        self.confines = not is_alone or random.random() < CONFINED_PART

    def next(self):
        is_gone = self.connection.space not in self.machine.spaces and self.connection.confined is None
        if is_gone and self.random.random() < 0.7:
            return words(ATTACH, self.random.choice(list(self.machine.spaces)))
        number = self.number()
        if number == MACH_MSG:
            return words(number) + self.mach_msg()
        if number == NUMBERED:
            return words(number) + self.numbered()
        if number not in ARGUMENTS:
            return words(self.random.choice([25, 99, LAST_WORD])) + bytes(self.random.choice([0, 1, 4, 8]))
        arguments = words(*self.arguments(number))
        return words(number) + arguments + bytes(4 * (self.random.random() < 0.003))

    def numbered(self):
        """Returns a request, usually the next one or the last one again, and a call, usually one that may be numbered.
        """
        chance = self.random.random()
        last, _ = self.machine.kept.get(self.connection.here(), (0, b""))
        others = [*[0, last - 1, last + 2] * 20, LAST_WORD]
        asked = last + 1 if chance < 0.7 else last if chance < 0.9 else self.random.choice(others)
        if chance > 0.98:
            return words(asked)[: self.random.choice([0, 4])] + bytes(self.random.choice([0, 1, 4, 8]))
        number = self.number()
        if number == MACH_MSG:
            option = self.random.choice([*ONE_ATTEMPT] * 8 + [SEND_MSG, RCV_MSG, 0])
            arguments = words(option) + self.mach_msg()[4:]
            is_once = self.random.random() < 0.95
            return words(asked, number) + arguments[:12] + (words(0) if is_once else arguments[12:16]) + arguments[16:]
        if number not in ARGUMENTS:
            return words(asked, number) + bytes(4)
        return words(asked, number, *self.arguments(number))

    def number(self):
        while True:
            (number,) = self.random.choices(list(OFTEN), list(OFTEN.values()))
            if number == CONFINE and not self.confines:
                continue
            is_refused = number == ATTACH and self.connection.confined is not None
            if number in OF_SPACES and not self.is_alone and not is_refused:
                continue
            if number == 5 and sum(map(len, self.machine.spaces.values())) > MANY_NAMES:
                return 6
            if number == 20 and len(self.machine.spaces) > MANY_SPACES:
                return 21
            return number

    # Names.

    def held(self):
        return self.machine.spaces.get(self.connection.here(), {})

    def name(self, is_wanted=None):
        """Returns a name, usually one with these properties."""
        chance = self.random.random()
        wanted = [it for it, held in self.held().items() if is_wanted and is_wanted(held)]
        if wanted and chance < 0.85:
            return self.random.choice(wanted)
        if self.held() and chance < 0.93:
            return self.random.choice(list(self.held()))
        return self.random.choice([NULL, DEAD, 1, 0x100, 0x1FF, 0xFFFFFFFE, self.new_name()])

    def new_name(self):
        return self.random.randrange(0x100, 0x140)

    def right(self, right):
        return self.name(lambda held: held.holds(right))

    def right_for(self, disposition):
        """Returns a name from which a right can be copied in by this disposition, or sometimes a dead name."""
        if self.random.random() < 0.05:
            return self.name(lambda held: held.kind == "dead")
        sends = {MOVE_SEND: SEND, COPY_SEND: SEND, MOVE_SEND_ONCE: SEND_ONCE}
        return self.right(sends.get(disposition, RECEIVE))

    # Calls.

    def arguments(self, number):
        choice = self.random.choice
        name, new_name = self.name(), self.new_name()
        disposition = choice([*range(MOVE_RECEIVE, MAKE_SEND_ONCE + 1)] * 5 + [0, 15, 22])
        right_name = self.right_for(disposition)
        receiver = self.right(RECEIVE)
        set_name = self.name(lambda held: held.kind == "set")
        plain = {
            0: [choice([*self.machine.spaces, 0, 9, 257])],
            1: [],
            2: [name],
            3: [name, choice([new_name, new_name, self.name()])],
            4: [choice([1, 1, 3, 4, 0, 2, 5]), choice([new_name, name])],
            5: [choice([1, 1, 1, 3, 4, 0, 2, 5])],
            6: [name],
            7: [choice([self.right(SEND), self.right(SEND_ONCE), name])],
            8: [name, choice([0, 1, 2, 3, 4, 5, LAST_WORD])],
            10: [receiver, choice([0, 1, 2, 5, 17, 64, 65, LAST_WORD])],
            11: [receiver, choice([0, 1, 7, LAST_WORD])],
            12: [receiver, choice([0, 1, 7, LAST_WORD])],
            13: [receiver],
            14: [set_name],
            15: [receiver, choice([NULL, set_name, set_name])],
            17: [choice([right_name, right_name, new_name, name]), right_name, disposition],
            18: [right_name, disposition],
            20: [right_name, disposition],
            21: [],
            CONFINE: [],
        }
        if number == 9:
            return self.changed_references()
        return self.request() if number == 16 else plain[number]

    def changed_references(self):
        right = self.random.choice([0, 0, 1, 1, 2, 3, 4, 5])
        deltas = [0, -1, -1, -1, 1, 2, -2, 65_533, 65_534, 65_535, -65_534, 70_000, 1 << 31]
        return [self.right(right) if right < 5 else self.name(), right, self.random.choice(deltas)]

    def request(self):
        variant = self.random.choice([PORT_DESTROYED, NO_SENDERS, DEAD_NAME_NOTICE, DEAD_NAME_NOTICE, 65, 71])
        name = self.name() if variant == DEAD_NAME_NOTICE else self.right(RECEIVE)
        disposition = self.random.choice([MAKE_SEND_ONCE] * 3 + [MOVE_SEND_ONCE, MOVE_SEND])
        notify = NULL if self.random.random() < 0.15 else self.right_for(disposition)
        return [name, variant, self.random.choice([0, 0, 1, 2]), notify, disposition]

    # Messages.

    def mach_msg(self):
        option = self.random.choice([SEND_MSG] * 4 + [RCV_MSG] * 3 + [0, SEND_MSG | RCV_MSG, 0x20])
        if self.random.random() < 0.3:
            option |= self.random.choice([RCV_LARGE, SEND_TIMEOUT, RCV_TIMEOUT, RCV_TIMEOUT | RCV_LARGE])
        if not self.is_alone:
            option |= SEND_TIMEOUT | RCV_TIMEOUT
        limit = self.random.choice([8192, 8192, 8192, 8192, 0, 24, 28, 36, LAST_WORD])
        asked = words(option, limit, self.source(), self.random.choice([0, 1, 5]) if self.is_alone else 0)
        if option & SEND_MSG or self.random.random() < 0.1:
            asked += self.message()
        is_cut = self.random.random() < 0.005
        return asked[: self.random.randrange(16)] if is_cut else asked

    def source(self):
        """Returns a name to receive from, usually that of a port with a message, or of a set."""

        def has_message(held):
            return held.kind == "set" or held.holds(RECEIVE) and self.machine.ports[held.port].queue

        return self.name(has_message)

    def message(self):
        to = self.random.choice([*FOR_HEADERS] * 6 + [0, MOVE_RECEIVE, 22])
        back, local = 0, NULL
        if self.random.random() < 0.4:
            back = self.random.choice([*FOR_HEADERS] * 6 + [0, MOVE_RECEIVE, 255])
            local = self.random.choice([self.right_for(back)] * 9 + [DEAD])
        bits = to | back << 8 | self.random.choice([0, 0, 0x10000, 0x7FFF0000])
        body = self.random.randbytes(4 * self.random.randrange(5))
        if self.random.random() < 0.55:
            bits |= COMPLEX
            body = b"".join(self.item() for _ in range(self.random.choice([0, 1, 1, 1, 2, 3])))
            if self.random.random() < 0.02:
                body = body[: self.random.randrange(len(body) + 1)]
        if self.random.random() < 0.01:
            body += bytes(self.random.choice([1, 2, 3, 8168, 8172]))
        ignored = self.random.getrandbits(32)
        return words(bits, ignored, self.right_for(to), local, ignored, self.random.randrange(1000)) + body

    def item(self):
        if self.random.random() < 0.75:
            type_, bits = self.random.randrange(MOVE_RECEIVE, MAKE_SEND_ONCE + 1), 32
            names = [self.right_for(type_) for _ in range(self.random.choice([0, 1, 1, 1, 2, 3]))]
            count, data = len(names), words(*(self.random.choice([it] * 20 + [NULL, DEAD]) for it in names))
        else:
            type_ = self.random.choice([0, 1, 2, 3, 8, 9, 10, 12, 15, 22, 100, 255])
            bits, count = self.random.choice([0, 1, 7, 8, 16, 32, 64]), self.random.choice([0, 1, 2, 3, 5, 9])
            data = self.random.randbytes(((count * bits + 7) // 8 + 3) // 4 * 4)
        descriptor = bytearray(words(type_ | bits << 8 | count << 16 | IN_LINE))
        if self.random.random() < 0.3:
            descriptor = bytearray(words(LONG_IN_LINE) + struct.pack("<HHI", type_, bits, count))
        if self.random.random() < 0.02:
            descriptor[self.random.randrange(len(descriptor))] ^= 1 << self.random.randrange(8)
        return bytes(descriptor) + data
