"""Tests which events other than a timeout or a disconnect end a wait, and which don't."""

import time
from dataclasses import dataclass, replace

from clients import (
    ALLOCATE_NAME,
    APART,
    CODE,
    DEALLOCATE,
    DESTROY,
    EXTRACT_RIGHT,
    INSERT_RIGHT,
    MACH_RCV_PORT_CHANGED,
    MACH_RCV_PORT_DIED,
    MOD_REFS,
    MOVE_MEMBER,
    PROMPT,
    RENAME,
    REQUEST,
    SET_QLIMIT,
    SPACE_CREATE,
    SPACE_DESTROY,
    TEN_MINUTES,
    answered,
    close_all,
    exchanging,
    expect,
    expect_message,
    expect_still,
    ports,
    receiving,
    sending,
)
from frames import words
from machine import (
    COPY_SEND,
    DEAD_NAME,
    DEAD_NAME_NOTICE,
    KERN_INVALID_TASK,
    MACH_MSG,
    MACH_RCV_TIMED_OUT,
    MACH_SEND_INVALID_DEST,
    MACH_SEND_INVALID_REPLY,
    MACH_SEND_INVALID_RIGHT,
    MACH_SEND_TIMED_OUT,
    MAKE_SEND,
    MAKE_SEND_ONCE,
    MOST_QUEUED,
    MOVE_RECEIVE,
    MOVE_SEND_ONCE,
    NO_SENDERS,
    PORT_DELETED,
    PORT_DESTROYED,
    PORT_SET,
    RECEIVE,
    SEND_MSG,
    SEND_ONCE_NOTICE,
)
from store import Difference


class Scene:
    """A space of its own. `port` has room and no message, `full` has one message and no room, `other` is another port,
    `set` is a set."""

    def __init__(self, server):
        self.server = server
        first = server.client()
        door = first.name(RECEIVE)
        self.space, name = first.call(SPACE_CREATE, door, MAKE_SEND)
        first.call(DESTROY, door)
        self.owner = server.client(self.space)
        self.owner.call(DESTROY, name)
        self.port, self.full, self.other = self.owner.port(), self.owner.port(1), self.owner.port()
        self.owner.send(self.full, 0)
        self.set = self.owner.set_of()
        self.clients = [first, self.owner]
        self.spaces = [self.space]

    def client(self, space=None):
        self.clients.append(self.server.client(space or self.space))
        return self.clients[-1]

    def beside(self, name, disposition=MAKE_SEND):
        """Returns a client in a new space that gets this right, and the right's name there."""
        space, far = self.owner.call(SPACE_CREATE, name, disposition)
        self.spaces.append(space)
        return self.client(space), far

    def waits(self, frame, client=None):
        """Returns a client that waits in this call."""
        client = client or self.client()
        client.write(frame)
        time.sleep(APART)
        return client

    def request(self, name, kind, sync=0, target=None):
        self.owner.call(REQUEST, name, kind, sync, target or self.port, MAKE_SEND_ONCE)

    def end(self):
        last = self.server.client()
        for space in self.spaces:
            if last.ask(words(0, space))[CODE] == 0:
                last.call(SPACE_DESTROY)
        close_all([last, *self.clients])


LESS_ONE, ELSEWHERE = 0xFFFFFFFF, 0x9000


@dataclass
class Change:
    """An event that ends a wait: the event, the code with which the wait ends, the message that comes, and the event
    before the wait."""

    what: str
    make: object
    code: int = 0
    number: int | None = None
    before: object = None


# Receives from a name, a port's or a set's (`source`, with the right `right`).
OF_NAMES = [
    Change("its name is destroyed", lambda it: it.owner.call(DESTROY, it.source), MACH_RCV_PORT_DIED),
    Change("its name is renamed", lambda it: it.owner.call(RENAME, it.source, ELSEWHERE), MACH_RCV_PORT_DIED),
    Change("its right is given up", lambda it: it.owner.call(MOD_REFS, it.source, it.right, LESS_ONE), MACH_RCV_PORT_DIED),
    Change("its space is destroyed", lambda it: it.owner.call(SPACE_DESTROY), KERN_INVALID_TASK),
]

# Receives from a port's name only.
OF_PORTS = [
    Change("the port is moved into a set", lambda it: it.owner.call(MOVE_MEMBER, it.port, it.set), MACH_RCV_PORT_CHANGED),
    Change("the receive right is sent away", lambda it: it.owner.send(it.other, 1, ports(MOVE_RECEIVE, it.port)), MACH_RCV_PORT_DIED),
    Change("the receive right is sent to itself", lambda it: it.owner.send(it.port, 1, ports(MOVE_RECEIVE, it.port)), MACH_RCV_PORT_DIED),
    Change("the receive right goes to a new space", lambda it: it.beside(it.port, MOVE_RECEIVE), MACH_RCV_PORT_DIED),
    Change(
        "the receive right gets another name",
        lambda it: it.owner.call(EXTRACT_RIGHT, it.port, MOVE_RECEIVE),
        MACH_RCV_PORT_DIED,
        before=lambda it: (it.owner.call(DEALLOCATE, it.port), it.owner.call(RENAME, it.port, ELSEWHERE), setattr(it, "port", ELSEWHERE)),
    ),
    Change(
        "its name had the receive right alone, which is given up",
        lambda it: it.owner.call(MOD_REFS, it.port, RECEIVE, LESS_ONE),
        MACH_RCV_PORT_DIED,
        before=lambda it: it.owner.call(DEALLOCATE, it.port),
    ),
]

# Receives from a set only.
OF_SETS = [
    Change("a member with a message is moved in", lambda it: it.owner.call(MOVE_MEMBER, it.full, it.set), number=0),
    Change(
        "a member with a message is moved in from another set",
        lambda it: it.owner.call(MOVE_MEMBER, it.full, it.set),
        number=0,
        before=lambda it: it.owner.set_of(it.full),
    ),
    Change(
        "a new member gets a message",
        lambda it: (it.owner.call(MOVE_MEMBER, it.other, it.set), it.owner.send(it.other, 9)),
        number=9,
    ),
    Change(
        "a renamed member gets a message",
        lambda it: (it.owner.call(RENAME, it.port, ELSEWHERE), it.owner.send(ELSEWHERE, 9)),
        number=9,
    ),
]


def carry(scene):
    """Puts a send-once right to the port into a message of the other port."""
    scene.owner.send(scene.other, 0, ports(MAKE_SEND_ONCE, scene.port))


def once(scene):
    """Gives the port's send-once right a name, with a request for a notice."""
    scene.once, _ = scene.owner.call(EXTRACT_RIGHT, scene.port, MAKE_SEND_ONCE)


def watched(scene):
    """Returns a name with a send-once right to the other port, and a request for a notice about it."""
    scene.once, _ = scene.owner.call(EXTRACT_RIGHT, scene.other, MAKE_SEND_ONCE)
    scene.request(scene.once, DEAD_NAME_NOTICE)


def far_sender(scene, to="port"):
    scene.far, scene.far_name = scene.beside(getattr(scene, to))


def far_once(scene):
    scene.far, scene.far_name = scene.beside(scene.port, MAKE_SEND_ONCE)


# Both kinds, when a message comes.
BY_MESSAGES = [
    Change("a message comes", lambda it: it.owner.send(it.port, 9), number=9),
    Change("a message comes by a right made for it", lambda it: it.owner.send(it.port, 9, disposition=MAKE_SEND_ONCE), number=9),
    Change("a message comes from another space", lambda it: it.far.send(it.far_name, 9), number=9, before=far_sender),
    Change("a name tells that it is dead", lambda it: it.owner.call(DESTROY, it.other), number=DEAD_NAME_NOTICE, before=watched),
    Change(
        "a dead name tells at once",
        lambda it: it.request(it.dead, DEAD_NAME_NOTICE, sync=1),
        number=DEAD_NAME_NOTICE,
        before=lambda it: setattr(it, "dead", it.owner.name(DEAD_NAME)),
    ),
    Change("a name tells that it went", lambda it: it.owner.call(DESTROY, it.once), number=PORT_DELETED, before=watched),
    Change(
        "a port tells that nobody sends",
        lambda it: it.owner.call(DEALLOCATE, it.other),
        number=NO_SENDERS,
        before=lambda it: it.request(it.other, NO_SENDERS),
    ),
    Change(
        "a port tells that its receive right was given up",
        lambda it: it.owner.call(DESTROY, it.other),
        number=PORT_DESTROYED,
        before=lambda it: it.request(it.other, PORT_DESTROYED),
    ),
    Change("a send-once right is given up", lambda it: it.owner.call(DEALLOCATE, it.once), number=SEND_ONCE_NOTICE, before=once),
    Change(
        "a message that carries a send-once right is destroyed",
        lambda it: it.owner.ask(receiving(it.other, timeout=0, limit=0)),
        number=SEND_ONCE_NOTICE,
        before=carry,
    ),
    Change("a queue with a send-once right dies", lambda it: it.owner.call(DESTROY, it.other), number=SEND_ONCE_NOTICE, before=carry),
    Change(
        "a space with a send-once right is destroyed",
        lambda it: it.far.call(SPACE_DESTROY),
        number=SEND_ONCE_NOTICE,
        before=far_once,
    ),
    Change(
        "a message's answer comes by its send-once right",
        lambda it: it.far.send(it.far_name, 9, disposition=MOVE_SEND_ONCE),
        number=9,
        before=far_once,
    ),
]


# Sends to a full queue, from the space of its receiver.
OF_SENDS = [
    Change("a message is received", lambda it: it.owner.take(it.full)),
    Change("a message is destroyed", lambda it: it.owner.ask(receiving(it.full, timeout=0, limit=0))),
    Change("a message is received by the set", lambda it: it.owner.take(it.set), before=lambda it: it.owner.call(MOVE_MEMBER, it.full, it.set)),
    Change("the limit is raised", lambda it: it.owner.call(SET_QLIMIT, it.full, 2)),
    Change("the port's name is destroyed", lambda it: it.owner.call(DESTROY, it.full), MACH_SEND_INVALID_DEST),
    Change("the receive right is given up", lambda it: it.owner.call(MOD_REFS, it.full, RECEIVE, LESS_ONE), MACH_SEND_INVALID_DEST),
    Change("the name is renamed", lambda it: it.owner.call(RENAME, it.full, ELSEWHERE), MACH_SEND_INVALID_DEST),
    Change("the send right is given up", lambda it: it.owner.call(DEALLOCATE, it.full), MACH_SEND_INVALID_DEST),
    Change("the space is destroyed", lambda it: it.owner.call(SPACE_DESTROY), KERN_INVALID_TASK),
]

# The same from another space.
OF_FAR_SENDS = [
    *OF_SENDS[:6],
    Change("the port's space is destroyed", lambda it: it.owner.call(SPACE_DESTROY), MACH_SEND_INVALID_DEST),
    Change("the sender's name is renamed", lambda it: it.far.call(RENAME, it.far_name, ELSEWHERE), MACH_SEND_INVALID_DEST),
    Change("the sender's right is given up", lambda it: it.far.call(DEALLOCATE, it.far_name), MACH_SEND_INVALID_DEST),
    Change("the sender's space is destroyed", lambda it: it.far.call(SPACE_DESTROY), KERN_INVALID_TASK),
]

# Sends with another right: the other port's, as the reply right or in the body.
OF_SENDS_WITH_RIGHTS = [
    Change("the right's name is destroyed", lambda it: it.owner.call(DESTROY, it.other)),
    Change("the right's name is renamed", lambda it: it.owner.call(RENAME, it.other, ELSEWHERE)),
    Change("the right is given up", lambda it: it.owner.call(DEALLOCATE, it.other)),
]


def changes(chance, server, asked):
    took = []

    def all_of(who, table, wait):
        for change in table:
            took.append(one_change(server, f"{who}, as {change.what},", change, wait))

    for is_set in (False, True):
        for frame in (receipt, receipt_in_time, receipt_behind_a_send):
            who = f"{frame.__name__.replace('_', ' ')} at a {'set' if is_set else 'port'}"
            table = [*OF_NAMES, *(OF_SETS if is_set else OF_PORTS), *BY_MESSAGES]
            all_of(who, table, lambda scene, is_set=is_set, frame=frame: wait_in_receipt(scene, is_set, frame))
    all_of("send", OF_SENDS, lambda scene: scene.waits(sending(scene.full, 9)))
    all_of("send in time", OF_SENDS, lambda scene: scene.waits(sending(scene.full, 9, timeout=TEN_MINUTES)))
    all_of("send from another space", OF_FAR_SENDS, wait_far)
    for wait, code in ((wait_with_reply, MACH_SEND_INVALID_REPLY), (wait_with_body, MACH_SEND_INVALID_RIGHT)):
        all_of("send with a right", [replace(it, code=code) for it in OF_SENDS_WITH_RIGHTS], wait)
    for wait_on in (others_go_on, set_goes_on, port_in_transit, port_in_a_notice, limit_for_some, both_halves, name_used_again, over_in_time):
        scene = Scene(server)
        wait_on(scene)
        scene.end()
    return f"{len(took)} waits were ended, within {max(took) * 1_000:.0f} milliseconds at most"


def receipt(scene):
    return receiving(scene.source)


def receipt_in_time(scene):
    return receiving(scene.source, timeout=TEN_MINUTES)


def receipt_behind_a_send(scene):
    scene.sink = scene.owner.port()
    return exchanging(scene.sink, 1, scene.source)


def wait_in_receipt(scene, is_set, frame):
    scene.source, scene.right = scene.port, RECEIVE
    if is_set:
        scene.owner.call(MOVE_MEMBER, scene.port, scene.set)
        scene.source, scene.right = scene.set, PORT_SET
    return scene.waits(frame(scene))


def wait_far(scene):
    far_sender(scene, "full")
    return scene.waits(sending(scene.far_name, 9), scene.client(scene.spaces[-1]))


def wait_with_reply(scene):
    bits = COPY_SEND | COPY_SEND << 8
    return scene.waits(words(MACH_MSG, SEND_MSG, 0, 0, 0, bits, 0, scene.full, scene.other, 0, 9))


def wait_with_body(scene):
    return scene.waits(sending(scene.full, 9, ports(COPY_SEND, scene.other)))


def one_change(server, who, change, wait):
    """Returns the seconds from the event to the reply of the wait."""
    scene = Scene(server)
    if change.before:
        change.before(scene)
    client = wait(scene)
    expect_still(f"{who} too early", [client], 0)
    began = time.monotonic()
    change.make(scene)
    expect(who, client, change.code, change.number)
    took = time.monotonic() - began
    scene.end()
    return took


def others_go_on(scene):
    """Tests that events at the same name of another space end no wait."""
    other = Scene(scene.server)
    at_port, at_full = scene.waits(receiving(scene.port)), scene.waits(sending(scene.full, 9))
    if (other.port, other.full) != (scene.port, scene.full):
        raise Difference("two spaces that were made alike have other names")
    other.owner.send(other.port, 1)
    for name in (other.port, other.full):
        other.owner.call(DESTROY, name)
    other.end()
    expect_still("what waits at a name of which another space has its own", [at_port, at_full])
    scene.owner.send(scene.port, 2)
    scene.owner.take(scene.full)
    expect_message("what waits beside another space", at_port, 2)
    expect("what waits beside another space", at_full, 0)


def set_goes_on(scene):
    """Tests that events at a port that left its set, or was destroyed, end no receive from the set."""
    scene.owner.call(MOVE_MEMBER, scene.port, scene.set)
    scene.owner.call(MOVE_MEMBER, scene.other, scene.set)
    at_set = scene.waits(receiving(scene.set))
    scene.owner.call(MOVE_MEMBER, scene.port, 0)
    at_port = scene.waits(receiving(scene.port))
    scene.owner.send(scene.port, 1)
    expect_message("a receipt from a port that left its set", at_port, 1)
    scene.owner.send(scene.port, 2)
    scene.owner.call(DESTROY, scene.port)
    expect_still("a receipt from a set that a port left", [at_set])
    scene.owner.send(scene.other, 3)
    expect_message("a receipt from a set that a port left", at_set, 3)


def port_in_transit(scene):
    """Tests that a send to a port whose receive right is in a message waits until a receive frees room again."""
    far_sender(scene, "full")
    client = scene.waits(sending(scene.far_name, 9), scene.client(scene.spaces[-1]))
    by_receiver = scene.waits(sending(scene.full, 8, disposition=MAKE_SEND))
    scene.owner.send(scene.port, 1, ports(MOVE_RECEIVE, scene.full))
    expect("a send by a right that the receiver makes, as the receive right is sent,", by_receiver, MACH_SEND_INVALID_DEST)
    expect_still("a send to a port in transit", [client])
    reply = scene.owner.ask(receiving(scene.port))
    name = reply[-1]
    expect_still("a send to a port that arrived", [client])
    if scene.owner.take(name) != 0:
        raise Difference("the message of a port that travelled isn't there")
    expect("a send to a port that travelled and has room", client, 0)
    waiting = scene.waits(receiving(scene.other))
    scene.owner.send(scene.port, 1, ports(MOVE_RECEIVE, name))
    expect_still("a receipt beside a port that is sent", [waiting])


def port_in_a_notice(scene):
    """Tests that a port whose receive right goes to the target of its request stays live, with its queue."""
    far_sender(scene, "full")
    client = scene.waits(sending(scene.far_name, 9), scene.client(scene.spaces[-1]))
    scene.request(scene.full, PORT_DESTROYED)
    scene.owner.call(DESTROY, scene.full)
    expect_still("a send to a port that went with a notice", [client])
    name = scene.owner.ask(receiving(scene.port))[-1]
    scene.owner.call(SET_QLIMIT, name, 2)
    expect("a send to a port that came with a notice and has room", client, 0)


def limit_for_some(scene):
    """Tests that as many sends are answered as there is room for."""
    waiting = [scene.waits(sending(scene.full, it)) for it in range(1, 6)]
    for limit, room in ((3, 2), (0, 0), (4, 1), (MOST_QUEUED, 2)):
        scene.owner.call(SET_QLIMIT, scene.full, limit)
        for _ in range(room):
            found = answered(waiting, PROMPT)
            if not found or found[1][CODE]:
                raise Difference(f"a send for which there is room, as the limit is {limit}: {found}")
            waiting.pop(found[0])
        expect_still("a send for which there is no room", waiting)


def both_halves(scene):
    """Tests that a send waits, and then the receive in the same call."""
    client = scene.waits(exchanging(scene.full, 9, scene.port))
    scene.owner.take(scene.full)
    expect_still("a receipt behind a send that waited", [client])
    scene.owner.send(scene.port, 1)
    expect_message("a receipt behind a send that waited", client, 1)
    scene.waits(exchanging(scene.full, 9, scene.port), client)
    scene.owner.call(DESTROY, scene.full)
    expect("a send with a receipt behind it", client, MACH_SEND_INVALID_DEST)


def name_used_again(scene):
    """Tests a receive whose name is reused for another port at once: it ends with the code of a removed name, or waits
    for the new port's message."""
    for number in range(25):
        client = scene.waits(receiving(scene.port))
        scene.owner.write(words(DESTROY, scene.port), words(ALLOCATE_NAME, RECEIVE, scene.port))
        for _ in range(2):
            scene.owner.reply()
        scene.owner.call(INSERT_RIGHT, scene.port, scene.port, MAKE_SEND)
        scene.owner.send(scene.port, number)
        reply = client.reply()
        if reply is None or reply[CODE] not in (0, MACH_RCV_PORT_DIED):
            raise Difference(f"a receipt whose name is another port's is answered {reply}")


def over_in_time(scene):
    """Tests that a call that waits for a third of a second ends after that time, and not before."""
    for frame, code in (
        (receiving(scene.port, timeout=300), MACH_RCV_TIMED_OUT),
        (receiving(scene.set, timeout=300), MACH_RCV_TIMED_OUT),
        (sending(scene.full, 9, timeout=300), MACH_SEND_TIMED_OUT),
    ):
        client, began = scene.client(), time.monotonic()
        client.write(frame)
        expect("what waits for a while", client, code)
        if time.monotonic() - began < 0.3:
            raise Difference(f"frame {frame.hex()} is over after {time.monotonic() - began} seconds")
