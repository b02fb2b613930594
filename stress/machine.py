"""A second implementation of the machine, with which the program is compared.

It shares no text with the definitions of the proofs, nor with the server's code. It counts rights and finds ports by
walking over everything, and undoes a refused call by a copy that was made before it. It follows the text of
docs/CALLS.md, docs/FORMATS.md and docs/DECISIONS.md.
"""

import copy
import struct
from collections import deque
from dataclasses import dataclass, field

NULL, DEAD = 0, 0xFFFFFFFF
LAST_WORD = 0xFFFFFFFF
FIRST_NAME = 0x100

# Rights, by their numbers in calls.
SEND, RECEIVE, SEND_ONCE, PORT_SET, DEAD_NAME = range(5)

# Dispositions. The first three are also the types of received rights.
MOVE_RECEIVE, MOVE_SEND, MOVE_SEND_ONCE, COPY_SEND, MAKE_SEND, MAKE_SEND_ONCE = range(16, 22)
RECEIVED_TYPE = {
    MOVE_RECEIVE: MOVE_RECEIVE,
    MOVE_SEND: MOVE_SEND,
    COPY_SEND: MOVE_SEND,
    MAKE_SEND: MOVE_SEND,
    MOVE_SEND_ONCE: MOVE_SEND_ONCE,
    MAKE_SEND_ONCE: MOVE_SEND_ONCE,
}
FOR_HEADERS = range(MOVE_SEND, MAKE_SEND_ONCE + 1)

PORT_DELETED, PORT_DESTROYED, NO_SENDERS, SEND_ONCE_NOTICE, DEAD_NAME_NOTICE = 65, 69, 70, 71, 72

KERN_NO_SPACE, KERN_INVALID_ARGUMENT, KERN_FAILURE, KERN_RESOURCE_SHORTAGE = 3, 4, 5, 6
KERN_NO_ACCESS, KERN_NOT_IN_SET, KERN_NAME_EXISTS, KERN_INVALID_NAME, KERN_INVALID_TASK = 8, 12, 13, 15, 16
KERN_INVALID_RIGHT, KERN_INVALID_VALUE, KERN_UREFS_OVERFLOW = 17, 18, 19
KERN_INVALID_CAPABILITY, KERN_RIGHT_EXISTS = 20, 21
MACH_SEND_INVALID_DEST, MACH_SEND_TIMED_OUT = 0x10000003, 0x10000004
MACH_SEND_MSG_TOO_SMALL, MACH_SEND_INVALID_REPLY = 0x10000008, 0x10000009
MACH_SEND_INVALID_RIGHT, MACH_SEND_INVALID_MEMORY = 0x1000000A, 0x1000000C
MACH_SEND_NO_BUFFER, MACH_SEND_INVALID_TYPE = 0x1000000D, 0x1000000F
MACH_SEND_INVALID_HEADER = 0x10000010
MACH_RCV_INVALID_NAME, MACH_RCV_TIMED_OUT = 0x10004002, 0x10004003
MACH_RCV_TOO_LARGE, MACH_RCV_IN_SET = 0x10004004, 0x1000400A
MACH_RCV_HEADER_ERROR, MACH_MSG_IPC_SPACE = 0x1000400B, 0x2000

SEND_MSG, RCV_MSG, SEND_TIMEOUT, RCV_TIMEOUT, RCV_LARGE = 1, 2, 0x10, 0x100, 0x800
OPTIONS = SEND_MSG | RCV_MSG | SEND_TIMEOUT | RCV_TIMEOUT | RCV_LARGE
ATTACH, MACH_MSG, NUMBERED, CONFINE, LAST_REQUEST = 0, 19, 22, 23, 24

MOST_NAMES, MOST_PORTS, MOST_SPACES, MOST_RIGHTS = 4096, 16384, 256, 256
MOST_SENDS, MOST_DEAD, MOST_QUEUED, LONGEST = 65_534, 65_535, 64, 8192

# Number of words in the arguments of each call except mach_msg.
ARGUMENTS = {0: 1, 1: 0, 2: 1, 3: 2, 4: 2, 5: 1, 6: 1, 7: 1, 8: 2, 9: 3, 10: 2, 11: 2, 12: 2}
ARGUMENTS |= {13: 1, 14: 1, 15: 2, 16: 5, 17: 3, 18: 2, 20: 2, 21: 0, CONFINE: 0, LAST_REQUEST: 0}
WITHOUT_RECORD = {0, 1, 2, 8, 13, 14, CONFINE, LAST_REQUEST}

# The calls that number 22 accepts: these, and a send or receive of mach_msg that is one attempt.
MAY_BE_NUMBERED = {3, 4, 5, 6, 7, 9, 10, 11, 12, 15, 16, 17, 18, 20}
ONE_ATTEMPT = {SEND_MSG | SEND_TIMEOUT, RCV_MSG | RCV_TIMEOUT, RCV_MSG | RCV_TIMEOUT | RCV_LARGE}


class Refused(Exception):
    """A refused call, with its code."""

    def __init__(self, code):
        super().__init__(code)
        self.code = code


def refuse_if(test, code):
    if test:
        raise Refused(code)


@dataclass
class Right:
    """A right in a message: its received type (0 for no reply right), and a port's serial, None for MACH_PORT_NULL, or
    "dead"."""

    type: int
    port: object = None


@dataclass
class Name:
    """The entry of a name. `target` is the port of its dead-name request."""

    kind: str  # "port", "once", "set" or "dead"
    port: int = 0
    receive: bool = False
    references: int = 0
    target: int | None = None

    def type_bits(self):
        bits = {
            "port": (self.references > 0) << 16 | self.receive << 17,
            "once": 1 << 18,
            "set": 1 << 19,
            "dead": 1 << 20,
        }[self.kind]
        return bits | (self.target is not None) << 31

    def holds(self, right):
        return {
            SEND: self.kind == "port" and self.references > 0,
            RECEIVE: self.kind == "port" and self.receive,
            SEND_ONCE: self.kind == "once",
            PORT_SET: self.kind == "set",
            DEAD_NAME: self.kind == "dead",
        }[right]


@dataclass
class Message:
    destination: int
    reply: Right
    id: int
    size: int
    has_ports: bool
    rights: list
    body: bytes

    def carried(self):
        return [self.reply, *self.rights]


@dataclass
class Port:
    limit: int = 5
    sequence: int = 0
    made: int = 0
    set_name: int = 0
    queue: list = field(default_factory=list)
    no_senders: int | None = None
    destroyed: int | None = None


def items_of(body):
    """Yields the items of a body: (offset, descriptor's length in bytes, type, elements, offset of the data)."""
    place = 0
    while place < len(body):
        refuse_if(len(body) - place < 4, MACH_SEND_MSG_TOO_SMALL)
        (word,) = struct.unpack_from("<I", body, place)
        type_, bits, count = word & 0xFF, word >> 8 & 0xFF, word >> 16 & 0xFFF
        is_inline, is_long, *ignored = (word >> bit & 1 for bit in range(28, 32))
        wrong = any(ignored)
        length = 12 if is_long else 4
        refuse_if(len(body) - place < length, MACH_SEND_MSG_TOO_SMALL)
        refuse_if(not is_inline, MACH_SEND_INVALID_MEMORY)
        if is_long:
            wrong = wrong or type_ or bits or count
            type_, bits, count = struct.unpack_from("<HHI", body, place + 4)
        refuse_if(wrong or type_ in RECEIVED_TYPE and bits != 32, MACH_SEND_INVALID_TYPE)
        data = place + length
        end = data + ((count * bits + 7) // 8 + 3) // 4 * 4
        refuse_if(end > len(body), MACH_SEND_MSG_TOO_SMALL)
        yield place, length, type_, count, data
        place = end


class Machine:
    def __init__(self):
        self.spaces = {1: {}}
        self.ports = {}
        self.next_serial = 1
        self.effects = deque()
        self.records = 0
        self.kept = {}
        # The number of destroyed spaces by number, so that a confined connection can tell its own space from a later
        # one.
        self.ended = {}

    # Counts and look-ups.

    def rights(self):
        """Yields all rights: (type, port)."""
        for names in self.spaces.values():
            for name in names.values():
                if name.kind == "port" and name.references:
                    yield MOVE_SEND, name.port
                if name.kind == "once":
                    yield MOVE_SEND_ONCE, name.port
                if name.target is not None:
                    yield MOVE_SEND_ONCE, name.target
        for serial, port in self.ports.items():
            yield from ((MOVE_SEND_ONCE, it) for it in (port.no_senders, port.destroyed) if it is not None)
            for message in port.queue:
                yield message.destination, serial
                yield from ((it.type, it.port) for it in message.carried())

    def count(self, type_, serial):
        return sum(it == (type_, serial) for it in self.rights())

    def name_of(self, space, serial):
        """Returns the name of a port's send or receive right in a space."""
        names = self.spaces[space]
        return next((it for it, name in names.items() if name.kind == "port" and name.port == serial), None)

    def carrier(self, serial):
        """Returns the port whose queue contains a receive right."""
        wanted = Right(MOVE_RECEIVE, serial)
        return next((it for it, port in self.ports.items() if any(wanted in m.rights for m in port.queue)), None)

    def would_circle(self, serial, queue):
        while queue is not None and queue != serial:
            queue = self.carrier(queue)
        return queue == serial

    def members(self, space, set_name):
        names = self.spaces[space]
        held = sorted(it for it, name in names.items() if name.holds(RECEIVE))
        return [it for it in held if self.ports[names[it].port].set_name == set_name]

    # Names.

    def look_up(self, space, name):
        refuse_if(name not in self.spaces[space], KERN_INVALID_NAME)
        return self.spaces[space][name]

    def receiver(self, space, name):
        found = self.look_up(space, name)
        refuse_if(not found.holds(RECEIVE), KERN_INVALID_RIGHT)
        return found, self.ports[found.port]

    def new_name(self, space):
        names = self.spaces[space]
        refuse_if(len(names) >= MOST_NAMES, KERN_NO_SPACE)
        name = FIRST_NAME
        while name in names:
            name += 1
        return name

    def end_name(self, space, name):
        """Removes a name without rights, with its port-deleted notice."""
        target = self.spaces[space].pop(name).target
        if target is not None:
            self.later(self.notify, target, PORT_DELETED, 0x1001200F, name)

    def take_references(self, space, name, taken):
        held = self.spaces[space][name]
        held.references -= taken
        if held.references == 0 and not held.receive:
            self.end_name(space, name)

    # Copy in and copy out.

    def copy_in(self, space, name, disposition):
        """Takes or copies a right from a name. Returns None if that is refused; then nothing changed."""
        held = self.spaces[space].get(name)
        if held is None:
            return None
        type_ = RECEIVED_TYPE[disposition]
        if held.kind == "dead" and disposition in (MOVE_SEND, MOVE_SEND_ONCE, COPY_SEND):
            if disposition != COPY_SEND:
                self.take_references(space, name, 1)
            return Right(type_, "dead")
        wanted = {MOVE_SEND: SEND, COPY_SEND: SEND, MOVE_SEND_ONCE: SEND_ONCE}.get(disposition, RECEIVE)
        if not held.holds(wanted):
            return None
        port = self.ports[held.port]
        if disposition == MAKE_SEND:
            port.made = port.made + 1 & LAST_WORD
        elif disposition == MOVE_RECEIVE:
            port.set_name = port.sequence = port.made = 0
            held.receive = False
            self.take_references(space, name, 0)
        elif disposition == MOVE_SEND:
            self.take_references(space, name, 1)
        elif disposition == MOVE_SEND_ONCE:
            self.end_name(space, name)
        return Right(type_, held.port)

    def copy_in_live(self, space, name, disposition, code):
        """Does the same, but raises this code if that is refused or the name is dead."""
        right = self.copy_in(space, name, disposition)
        refuse_if(right is None or right.port == "dead", code)
        return right

    def copy_out(self, space, right):
        if right.port is None:
            return NULL
        if right.port == "dead":
            return DEAD
        names = self.spaces[space]
        name = None if right.type == MOVE_SEND_ONCE else self.name_of(space, right.port)
        if name is None:
            name = self.new_name(space)
            names[name] = Name("once" if right.type == MOVE_SEND_ONCE else "port", right.port)
        if right.type == MOVE_SEND:
            names[name].references = min(names[name].references + 1, MOST_SENDS)
        if right.type == MOVE_RECEIVE:
            names[name].receive = True
        return name

    # Effects, first in, first out.

    def later(self, effect, *arguments):
        self.effects.append((effect, arguments))

    def settle(self):
        while self.effects:
            effect, arguments = self.effects.popleft()
            effect(*arguments)

    def queue_notice(self, target, id_, body, rights=()):
        if target in self.ports:
            notice = Message(MOVE_SEND_ONCE, Right(0), id_, 24 + len(body), bool(rights), list(rights), body)
            self.ports[target].queue.append(notice)

    def notify(self, target, id_, descriptor, word):
        self.queue_notice(target, id_, struct.pack("<II", descriptor, word))

    def release_later(self, right):
        if isinstance(right.port, int):
            self.later(self.release, right)

    def release(self, right):
        port = self.ports.get(right.port)
        if port is None:
            return
        if right.type == MOVE_SEND_ONCE:
            self.queue_notice(right.port, SEND_ONCE_NOTICE, b"")
        elif right.type == MOVE_RECEIVE:
            self.release_receive(right.port, port)
        elif port.no_senders is not None and not self.count(MOVE_SEND, right.port):
            target, port.no_senders = port.no_senders, None
            self.notify(target, NO_SENDERS, 0x10012002, port.made)

    def release_receive(self, serial, port):
        port.set_name = 0
        target, port.destroyed = port.destroyed, None
        if target in self.ports and not self.would_circle(serial, target):
            port.sequence = port.made = 0
            body = struct.pack("<II", 0x10012010, 0)
            self.queue_notice(target, PORT_DESTROYED, body, [Right(MOVE_RECEIVE, serial)])
        else:
            self.die(serial)

    def die(self, serial):
        port = self.ports.pop(serial)
        notices = []
        for _, names in sorted(self.spaces.items()):
            for name, held in sorted(names.items()):
                if held.kind in ("port", "once") and held.port == serial:
                    references = held.references if held.kind == "port" else 1
                    if held.target is not None:
                        references += 1
                        notices.append((held.target, name))
                    names[name] = Name("dead", references=references)
                elif held.target == serial:
                    held.target = None
        for other in self.ports.values():
            other.no_senders = None if other.no_senders == serial else other.no_senders
            other.destroyed = None if other.destroyed == serial else other.destroyed
            for right in (it for message in other.queue for it in message.carried()):
                right.port = "dead" if right.port == serial else right.port
        for right in (it for message in port.queue for it in message.carried()):
            self.release_later(right)
        for target, name in notices:
            self.later(self.notify, target, DEAD_NAME_NOTICE, 0x1001200F, name)
        self.release_later(Right(MOVE_SEND_ONCE, port.no_senders))

    # Calls.

    def done_or_undone(self, step):
        """Returns the result of a step and its code. A refused step changes nothing."""
        before = copy.deepcopy((self.spaces, self.ports, self.next_serial))
        try:
            result = step()
            self.settle()
            return 0, result
        except Refused as refusal:
            self.spaces, self.ports, self.next_serial = before
            self.effects.clear()
            return refusal.code, b""

    def call(self, space, number, arguments):
        """Returns the code and the results of a call other than mach_msg."""
        if space not in self.spaces:
            return KERN_INVALID_TASK, b""
        code, result = self.done_or_undone(lambda: getattr(self, CALLS[number])(space, *arguments))
        self.records += code == 0 and number not in WITHOUT_RECORD
        return code, b"".join(struct.pack("<I", it) for it in result or ())

    def attach(self, _, wanted):
        refuse_if(wanted not in self.spaces, KERN_INVALID_TASK)

    def confine(self, _):
        """Confines the connection. The state doesn't change."""

    def last_request(self, space):
        """Returns the request of the kept reply, and the number of the call in it."""
        request, reply = self.kept.get(space, (0, bytes(8)))
        return [request, *struct.unpack_from("<I", reply, 4)]

    def names(self, space):
        rows = sorted(self.spaces[space].items())
        return [len(rows), *(word for name, held in rows for word in (name, held.type_bits()))]

    def type(self, space, name):
        return [self.look_up(space, name).type_bits()]

    def rename(self, space, old, new):
        held = self.look_up(space, old)
        refuse_if(new in (NULL, DEAD), KERN_INVALID_VALUE)
        names = self.spaces[space]
        refuse_if(new in names, KERN_NAME_EXISTS)
        if held.kind == "set":
            for member in self.members(space, old):
                self.ports[names[member].port].set_name = new
        names[new] = names.pop(old)

    def make(self, space, right, name):
        if right == RECEIVE:
            refuse_if(len(self.ports) >= MOST_PORTS, KERN_RESOURCE_SHORTAGE)
            self.ports[self.next_serial] = Port()
            self.spaces[space][name] = Name("port", self.next_serial, True)
            self.next_serial += 1
        else:
            self.spaces[space][name] = Name("set") if right == PORT_SET else Name("dead", references=1)

    def allocate_name(self, space, right, name):
        refuse_if(name in (NULL, DEAD) or right not in (RECEIVE, PORT_SET, DEAD_NAME), KERN_INVALID_VALUE)
        refuse_if(name in self.spaces[space], KERN_NAME_EXISTS)
        refuse_if(len(self.spaces[space]) >= MOST_NAMES, KERN_NO_SPACE)
        self.make(space, right, name)

    def allocate(self, space, right):
        refuse_if(right not in (RECEIVE, PORT_SET, DEAD_NAME), KERN_INVALID_VALUE)
        name = self.new_name(space)
        self.make(space, right, name)
        return [name]

    def destroy(self, space, name):
        held = self.look_up(space, name)
        if held.kind == "set":
            for member in self.members(space, name):
                self.ports[self.spaces[space][member].port].set_name = 0
        if held.holds(SEND):
            self.release_later(Right(MOVE_SEND, held.port))
        if held.holds(RECEIVE):
            self.release_later(Right(MOVE_RECEIVE, held.port))
        if held.kind == "once":
            self.release_later(Right(MOVE_SEND_ONCE, held.port))
        self.end_name(space, name)

    def drop_sends(self, space, name, taken):
        held = self.spaces[space][name]
        if taken and held.references == taken:
            self.release_later(Right(MOVE_SEND, held.port))
        self.take_references(space, name, taken)

    def deallocate(self, space, name):
        held = self.look_up(space, name)
        refuse_if(held.kind == "set" or held.kind == "port" and not held.references, KERN_INVALID_RIGHT)
        if held.kind == "port":
            self.drop_sends(space, name, 1)
        elif held.kind == "dead":
            self.take_references(space, name, 1)
        else:
            self.destroy(space, name)

    def get_refs(self, space, name, right):
        refuse_if(right > DEAD_NAME, KERN_INVALID_VALUE)
        held = self.look_up(space, name)
        return [(held.references if right in (SEND, DEAD_NAME) else 1) if held.holds(right) else 0]

    def mod_refs(self, space, name, right, delta):
        delta -= (delta >> 31) << 32
        refuse_if(right > DEAD_NAME, KERN_INVALID_VALUE)
        held = self.look_up(space, name)
        refuse_if(not held.holds(right), KERN_INVALID_RIGHT)
        if right in (SEND, DEAD_NAME):
            most = MOST_SENDS if right == SEND else MOST_DEAD
            refuse_if(held.references + delta < 0, KERN_INVALID_VALUE)
            refuse_if(held.references + delta > most, KERN_UREFS_OVERFLOW)
        else:
            refuse_if(delta not in (0, -1), KERN_INVALID_VALUE)
        if delta and right == SEND:
            self.drop_sends(space, name, -delta)
        elif delta and right == DEAD_NAME:
            self.take_references(space, name, -delta)
        elif delta and right == RECEIVE:
            self.release_later(Right(MOVE_RECEIVE, held.port))
            held.receive = False
            self.take_references(space, name, 0)
        elif delta:
            self.destroy(space, name)

    def set_qlimit(self, space, name, limit):
        refuse_if(limit > MOST_QUEUED, KERN_INVALID_VALUE)
        self.receiver(space, name)[1].limit = limit

    def set_mscount(self, space, name, count):
        self.receiver(space, name)[1].made = count

    def set_seqno(self, space, name, number):
        self.receiver(space, name)[1].sequence = number

    def get_receive_status(self, space, name):
        held, port = self.receiver(space, name)
        once = min(self.count(MOVE_SEND_ONCE, held.port), LAST_WORD)
        has = [self.count(MOVE_SEND, held.port) > 0, port.destroyed is not None, port.no_senders is not None]
        return [port.set_name, port.sequence, port.made, port.limit, len(port.queue), once, *map(int, has)]

    def get_set_status(self, space, name):
        refuse_if(self.look_up(space, name).kind != "set", KERN_INVALID_RIGHT)
        members = self.members(space, name)
        return [len(members), *members]

    def move_member(self, space, member, after):
        port = self.receiver(space, member)[1]
        if after == NULL:
            refuse_if(port.set_name == 0, KERN_NOT_IN_SET)
        else:
            refuse_if(self.look_up(space, after).kind != "set", KERN_INVALID_RIGHT)
        port.set_name = after

    def request_notification(self, space, name, variant, sync, notify, disposition):
        refuse_if(variant not in (PORT_DESTROYED, NO_SENDERS, DEAD_NAME_NOTICE), KERN_INVALID_VALUE)
        target = None
        if notify != NULL:
            refuse_if(disposition not in (MOVE_SEND_ONCE, MAKE_SEND_ONCE), KERN_INVALID_VALUE)
            target = self.copy_in_live(space, notify, disposition, KERN_INVALID_CAPABILITY).port
        held = self.look_up(space, name)
        if variant == DEAD_NAME_NOTICE:
            refuse_if(held.kind == "set", KERN_INVALID_RIGHT)
            if held.kind == "dead":
                refuse_if(sync == 0 or target is None, KERN_INVALID_ARGUMENT)
                refuse_if(held.references >= MOST_DEAD, KERN_UREFS_OVERFLOW)
                held.references += 1
                self.later(self.notify, target, DEAD_NAME_NOTICE, 0x1001200F, name)
                return [0]
            former, held.target = held.target, target
        elif variant == PORT_DESTROYED:
            refuse_if(sync != 0, KERN_INVALID_VALUE)
            port = self.receiver(space, name)[1]
            former, port.destroyed = port.destroyed, target
        else:
            port = self.receiver(space, name)[1]
            former, port.no_senders = port.no_senders, target
            if target is not None and not self.count(MOVE_SEND, held.port) and port.made >= sync:
                port.no_senders = None
                self.later(self.notify, target, NO_SENDERS, 0x10012002, port.made)
        return [self.copy_out(space, Right(MOVE_SEND_ONCE, former))]

    def insert_right(self, space, name, right_name, disposition):
        refuse_if(name in (NULL, DEAD) or disposition not in RECEIVED_TYPE, KERN_INVALID_VALUE)
        right = self.copy_in_live(space, right_name, disposition, KERN_INVALID_CAPABILITY)
        names = self.spaces[space]
        is_once = right.type == MOVE_SEND_ONCE
        refuse_if(not is_once and self.name_of(space, right.port) not in (None, name), KERN_RIGHT_EXISTS)
        held = names.get(name)
        is_its_own = held is not None and held.kind == "port" and held.port == right.port and not is_once
        refuse_if(held is not None and not is_its_own, KERN_NAME_EXISTS)
        refuse_if(is_its_own and right.type == MOVE_SEND and held.references >= MOST_SENDS, KERN_UREFS_OVERFLOW)
        refuse_if(held is None and len(names) >= MOST_NAMES, KERN_NO_SPACE)
        held = names.setdefault(name, Name("once" if is_once else "port", right.port))
        held.references += right.type == MOVE_SEND
        held.receive = held.receive or right.type == MOVE_RECEIVE

    def extract_right(self, space, name, disposition):
        refuse_if(disposition not in RECEIVED_TYPE, KERN_INVALID_VALUE)
        self.look_up(space, name)
        right = self.copy_in_live(space, name, disposition, KERN_INVALID_RIGHT)
        return [self.copy_out(space, right), right.type]

    def space_create(self, space, name, disposition):
        refuse_if(disposition not in RECEIVED_TYPE, KERN_INVALID_VALUE)
        self.look_up(space, name)
        right = self.copy_in_live(space, name, disposition, KERN_INVALID_RIGHT)
        refuse_if(len(self.spaces) >= MOST_SPACES, KERN_RESOURCE_SHORTAGE)
        made = next(it for it in range(1, MOST_SPACES + 1) if it not in self.spaces)
        self.spaces[made] = {}
        return [made, self.copy_out(made, right)]

    def space_destroy(self, space):
        refuse_if(space == 1, KERN_FAILURE)
        for name in sorted(self.spaces[space]):
            self.destroy(space, name)
        del self.spaces[space]
        self.kept.pop(space, None)
        self.ended[space] = self.ended.get(space, 0) + 1

    # Messages.

    def header_rights(self, space, remote, to, local, back):
        """Copies in the destination and the reply right. A right that consumes nothing comes before one that does."""

        def destination():
            return self.copy_in_live(space, remote, to, MACH_SEND_INVALID_DEST)

        def reply():
            if back == 0 or local == NULL:
                return Right(RECEIVED_TYPE.get(back, 0))
            if local == DEAD:
                return Right(RECEIVED_TYPE[back], "dead")
            right = self.copy_in(space, local, back)
            refuse_if(right is None, MACH_SEND_INVALID_REPLY)
            return right

        refuse_if(remote in (NULL, DEAD), MACH_SEND_INVALID_DEST)
        if to in (MOVE_SEND, MOVE_SEND_ONCE) and back in (COPY_SEND, MAKE_SEND, MAKE_SEND_ONCE):
            answer = reply()
            return destination(), answer
        return destination(), reply()

    def body_rights(self, space, body, items):
        """Copies in the rights of a body's ports. Their items get received types and zeros."""
        rights = []
        for place, length, type_, count, data in items:
            for at in range(data, data + 4 * count, 4):
                (name,) = struct.unpack_from("<I", body, at)
                if name in (NULL, DEAD):
                    right = Right(RECEIVED_TYPE[type_], "dead" if name == DEAD else None)
                else:
                    right = self.copy_in(space, name, type_)
                    refuse_if(right is None, MACH_SEND_INVALID_RIGHT)
                rights.append(right)
                struct.pack_into("<I", body, at, 0)
            if length == 4:
                struct.pack_into("<B", body, place, RECEIVED_TYPE[type_])
            else:
                struct.pack_into("<H", body, place + 4, RECEIVED_TYPE[type_])
        return rights

    def send(self, space, message):
        refuse_if(len(message) < 24 or len(message) % 4, MACH_SEND_MSG_TOO_SMALL)
        refuse_if(len(message) > LONGEST, MACH_SEND_NO_BUFFER)
        bits, _, remote, local, _, id_ = struct.unpack_from("<6I", message)
        to, back = bits & 0xFF, bits >> 8 & 0xFF
        has_reply = back in FOR_HEADERS or back == 0 and local == NULL
        refuse_if(to not in FOR_HEADERS or not has_reply, MACH_SEND_INVALID_HEADER)
        body = bytearray(message[24:])
        items = [it for it in items_of(body) if it[2] in RECEIVED_TYPE] if bits >> 31 else []
        refuse_if(sum(it[3] for it in items) > MOST_RIGHTS, MACH_SEND_NO_BUFFER)
        destination, reply = self.header_rights(space, remote, to, local, back)
        rights = self.body_rights(space, body, items)
        queue = self.ports[destination.port].queue
        is_full = len(queue) >= self.ports[destination.port].limit
        refuse_if(is_full and destination.type != MOVE_SEND_ONCE, MACH_SEND_TIMED_OUT)
        receivers = [it.port for it in rights if it.type == MOVE_RECEIVE and isinstance(it.port, int)]
        if any(self.would_circle(it, destination.port) for it in receivers):
            for right in (destination, reply, *rights):
                self.release_later(right)
        else:
            queue.append(Message(destination.type, reply, id_, len(message), bool(items), rights, bytes(body)))

    def receive(self, space, limit, is_large_kept, name):
        """Returns the code, the size, the member, and the message."""
        held = self.spaces[space].get(name)
        if held is None or not (held.holds(RECEIVE) or held.kind == "set"):
            return MACH_RCV_INVALID_NAME, 0, 0, b""
        if held.kind == "port" and self.ports[held.port].set_name:
            return MACH_RCV_IN_SET, 0, 0, b""
        among = self.members(space, name) if held.kind == "set" else [name]
        serials = {it: self.spaces[space][it].port for it in among}
        member = next((it for it in among if self.ports[serials[it]].queue), None)
        if member is None:
            return MACH_RCV_TIMED_OUT, 0, 0, b""
        serial = serials[member]
        port = self.ports[serial]
        message = port.queue[0]
        is_too_large = message.size > limit
        if is_too_large and is_large_kept:
            return MACH_RCV_TOO_LARGE, message.size, member, b""
        if not is_too_large and self.names_needed(space, message) + len(self.spaces[space]) > MOST_NAMES:
            return MACH_RCV_HEADER_ERROR | MACH_MSG_IPC_SPACE, 0, 0, b""
        port.queue.pop(0)
        sequence, port.sequence = port.sequence, port.sequence + 1 & LAST_WORD
        self.records += 1
        if message.destination == MOVE_SEND:
            self.release_later(Right(MOVE_SEND, serial))
        if is_too_large:
            for right in message.carried():
                self.release_later(right)
            self.settle()
            return MACH_RCV_TOO_LARGE, message.size, member, b""
        text = self.text_of(space, message, member, sequence)
        self.settle()
        return 0, message.size, member, text

    def names_needed(self, space, message):
        live = [it for it in message.carried() if isinstance(it.port, int)]
        ports = {it.port for it in live if it.type != MOVE_SEND_ONCE and self.name_of(space, it.port) is None}
        return len(ports) + sum(it.type == MOVE_SEND_ONCE for it in live)

    def text_of(self, space, message, member, sequence):
        reply = self.copy_out(space, message.reply)
        body, rights = bytearray(message.body), iter(message.rights)
        for _, _, type_, count, data in items_of(body) if message.has_ports else ():
            if type_ in RECEIVED_TYPE:
                for at in range(data, data + 4 * count, 4):
                    struct.pack_into("<I", body, at, self.copy_out(space, next(rights)))
        bits = message.has_ports << 31 | message.destination << 8 | message.reply.type
        return struct.pack("<6I", bits, message.size, reply, member, sequence, message.id) + bytes(body)

    def mach_msg(self, space, arguments):
        """Returns the code, the size, the member, and the message."""
        if len(arguments) < 16:
            return KERN_INVALID_ARGUMENT, 0, 0, b""
        option, limit, name, _ = struct.unpack_from("<4I", arguments)
        if option & ~OPTIONS:
            return KERN_INVALID_ARGUMENT, 0, 0, b""
        if not option & (SEND_MSG | RCV_MSG):
            return 0, 0, 0, b""
        if space not in self.spaces:
            return KERN_INVALID_TASK, 0, 0, b""
        if option & SEND_MSG:
            code, _ = self.done_or_undone(lambda: self.send(space, arguments[16:]))
            self.records += code == 0
            if code or not option & RCV_MSG:
                return code, 0, 0, b""
        return self.receive(space, limit, bool(option & RCV_LARGE), name)


    def numbered(self, space, arguments):
        """Returns the code and the results of a numbered call. A space keeps the last recorded one."""
        if space not in self.spaces:
            return KERN_INVALID_TASK, b""
        if not may_be_numbered(arguments[4:]):
            return KERN_INVALID_ARGUMENT, b""
        (request,), call = struct.unpack_from("<I", arguments), arguments[4:]
        last, reply = self.kept.get(space, (0, b""))
        if request < max(last, 1):
            return KERN_INVALID_VALUE, b""
        if request == last:
            return (0, reply) if reply[4:8] == call[:4] else (KERN_INVALID_ARGUMENT, b"")
        records, connection = self.records, Connection(self)
        connection.space = space
        reply = arguments[:4] + connection.answer(call)
        if self.records > records:
            self.kept[space] = request, reply
        return 0, reply


def may_be_numbered(call):
    (number,) = struct.unpack_from("<I", call)
    if number == MACH_MSG:
        if len(call) < 20:
            return False
        option, _, _, timeout = struct.unpack_from("<4I", call, 4)
        return option in ONE_ATTEMPT and timeout == 0
    return number in MAY_BE_NUMBERED and len(call) == 4 + 4 * ARGUMENTS[number]


CALLS = {
    0: "attach",
    1: "names",
    2: "type",
    3: "rename",
    4: "allocate_name",
    5: "allocate",
    6: "destroy",
    7: "deallocate",
    8: "get_refs",
    9: "mod_refs",
    10: "set_qlimit",
    11: "set_mscount",
    12: "set_seqno",
    13: "get_receive_status",
    14: "get_set_status",
    15: "move_member",
    16: "request_notification",
    17: "insert_right",
    18: "extract_right",
    20: "space_create",
    21: "space_destroy",
    CONFINE: "confine",
    LAST_REQUEST: "last_request",
}


class Connection:
    """A connection. Each frame is a call in the space to which it was attached last, or in the space to which it is
    confined."""

    def __init__(self, machine):
        self.machine = machine
        self.space = 1
        self.confined = None  # how many spaces of this number had been destroyed then

    def here(self):
        """Returns the space of its calls, or no space if a confined connection's own space is gone, even if another
        space has its number."""
        is_gone = self.confined is not None and self.confined != self.machine.ended.get(self.space, 0)
        return NULL if is_gone else self.space

    def answer(self, frame):
        """Returns the reply to a frame, both without their lengths."""
        (number,) = struct.unpack_from("<I", frame)
        arguments, space = frame[4:], self.here()
        if number == MACH_MSG:
            code, size, member, text = self.machine.mach_msg(space, arguments)
            return struct.pack("<4I", number, code, size, member) + text
        if number == NUMBERED and len(arguments) >= 8:
            code, results = self.machine.numbered(space, arguments)
            return struct.pack("<II", number, code) + results
        if len(arguments) != 4 * ARGUMENTS.get(number, -1):
            return struct.pack("<II", number, KERN_INVALID_ARGUMENT)
        words = struct.unpack(f"<{ARGUMENTS[number]}I", arguments)
        code, results = self.machine.call(space, number, words)
        if number == ATTACH and self.confined is not None and space in self.machine.spaces:
            code = KERN_NO_ACCESS
        if number == ATTACH and code == 0:
            (self.space,) = words
        if number == CONFINE and code == 0:
            self.confined = self.machine.ended.get(self.space, 0)
        return struct.pack("<II", number, code) + results


def listing(machine):
    """Returns the listing of `machls` after its first line."""
    lines, holders = [], {}
    for space, names in sorted(machine.spaces.items()):
        lines.append(f"space {space}")
        for name, held in sorted(names.items()):
            port = held.port if held.kind in ("port", "once") else 0
            references = held.references if held.kind in ("port", "dead") else 1
            lines.append(f"name {name:08x} {held.type_bits():08x} port {port} refs {references}")
            if held.holds(RECEIVE):
                holders[port] = f"held {space} {name:08x}"
    for serial, port in sorted(machine.ports.items()):
        where = holders.get(serial) or f"carried {machine.carrier(serial)}"
        counts = f"send {machine.count(MOVE_SEND, serial)} once {machine.count(MOVE_SEND_ONCE, serial)}"
        queue = f"queue {len(port.queue)} of {port.limit} seqno {port.sequence} mscount {port.made}"
        lines.append(f"port {serial} {where} {counts} {queue}")
    return "".join(line + "\n" for line in lines)
