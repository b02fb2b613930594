"""The order of replies when several calls wait in one place."""

import select
import time

from changes import Scene
from clients import (
    APART,
    CODE,
    DESTROY,
    ID,
    MEMBER,
    PROMPT,
    SIZE,
    SPACE_CREATE,
    SPACE_DESTROY,
    STILL,
    TEN_MINUTES,
    close_all,
    expect,
    expect_message,
    expect_still,
    expect_turn,
    ports,
    receiving,
    sending,
    sleep_until,
)
from frames import words
from machine import (
    COPY_SEND,
    DEAD_NAME,
    MACH_MSG_IPC_SPACE,
    MACH_RCV_HEADER_ERROR,
    MACH_RCV_TOO_LARGE,
    MACH_SEND_TIMED_OUT,
    MAKE_SEND,
    MOST_NAMES,
    RCV_LARGE,
    RECEIVE,
)
from store import Difference

# Number of clients that wait in one place, and number of times that a turn is passed on at each place.
CLIENTS, TRIES = 8, 25


def order(chance, server, asked):
    for is_set in (False, True):
        in_time(receipts_in_order, chance, server, is_set)
        receipts_at_once(server, is_set)
        receipts_that_end(chance, server, is_set)
        in_time(receipts_that_leave, server, is_set)
        receipts_without_names(server, is_set)
    in_time(sends_in_order, server)
    sends_that_end(chance, server)
    return "receipts and sends in the order of their coming, and none was passed over"


def in_time(part, *words_of):
    """Tries again with more time between the calls, because a busy server may process them in another order than they
    were written."""
    for apart in (APART, 4 * APART, 20 * APART):
        try:
            return part(apart, *words_of)
        except Difference as found:
            difference = found
    raise difference


def source_of(client, is_set):
    """Returns the source of receives, and the ports to send to."""
    if not is_set:
        port = client.port()
        return "receipts at a port", port, [port]
    members = [client.port() for _ in range(3)]
    return "receipts at a set", client.set_of(*members), members


def receipts_in_order(apart, chance, server, is_set):
    sender = server.client()
    who, source, members = source_of(sender, is_set)
    waiting, number = [], 0
    for _ in range(3):
        # The first half of the clients get replies, and others come after them.
        for _ in range(CLIENTS):
            waiting.append(server.client())
            waiting[-1].write(receiving(source, timeout=chance.choice([None, TEN_MINUTES])))
            time.sleep(apart)
        while len(waiting) > CLIENTS // 2:
            number += 1
            sender.send(chance.choice(members), number)
            expect_turn(who, waiting, number).close()
    # Disconnected clients have no turn.
    waiting.pop(0).close()
    waiting.pop(1).close()
    time.sleep(0.001)
    for _ in list(waiting):
        number += 1
        sender.send(chance.choice(members), number)
        expect_turn(f"{who}, behind clients that went", waiting, number).close()


def receipts_at_once(server, is_set):
    """Tests that each of several messages that arrive at once ends one wait."""
    sender = server.client()
    who, source, members = source_of(sender, is_set)
    for round_ in range(TRIES):
        waiting = server.clients_of(CLIENTS)
        for client in waiting:
            client.write(receiving(source))
        numbers = [100 * round_ + it for it in range(CLIENTS)]
        if round_ % 2:
            time.sleep(APART)
        sender.write(*(sending(members[it % len(members)], it) for it in numbers))
        came = [expect(f"{who}, with a message for each", client, 0)[ID] for client in waiting]
        if sorted(came) != numbers:
            raise Difference(f"{who}: of {numbers} came {came}")
        for _ in numbers:
            sender.reply()
        close_all(waiting)


def receipts_that_end(chance, server, is_set):
    """Tests a receive whose timeout expires, or whose connection is closed, just as a message arrives: the next receive
    gets that message."""
    sender, looker = server.clients_of(2)
    for round_ in range(2 * TRIES):
        is_closed = round_ % 2
        who, source, members = source_of(sender, is_set)
        first, second = server.clients_of(2)
        member, number, wait = chance.choice(members), 10 * round_, 3 * APART
        first.write(receiving(source, timeout=None if is_closed else int(1_000 * wait)))
        began = time.monotonic()
        time.sleep(APART)
        second.write(receiving(source))
        sleep_until(began + wait + chance.uniform(-0.004, 0.004))
        sender.write(sending(member, number))
        if is_closed:
            sleep_until(time.monotonic() + chance.choice([0, 0.0002, 0.001]))
            first.close()
            had_first = not_for_the_next(looker, member, second)
        else:
            had_first = first.reply()[CODE] == 0
            first.close()
        if sender.reply()[CODE]:
            raise Difference(f"{who}: message {number} isn't sent")
        if had_first:
            number += 1
            sender.send(member, number)
        how = "is closed" if is_closed else "gives up"
        expect_message(f"{who}: the one behind one that {how}", second, number)
        second.close()


def not_for_the_next(looker, member, second):
    """Returns true if a message went to a connection that was closed just then: the port has no message, and the next
    receive gets none."""
    until = time.monotonic() + PROMPT
    while time.monotonic() < until:
        is_taken = looker.queued(member) == 0
        if has_answer(second, STILL if is_taken else 0.01):
            return False
        if is_taken:
            return True
    raise Difference("a message stays while a receipt waits, behind one whose client was closed")


def has_answer(client, within):
    return bool(select.select([client], [], [], within)[0])


def receipts_that_leave(apart, server, is_set):
    """Tests that a receive for which the message is too large leaves it to the next one, or destroys it."""
    sender = server.client()
    who, source, (member, *_) = source_of(sender, is_set)
    for round_ in range(TRIES // 5):
        first, second, third = server.clients_of(3)
        for client, limit, option in ((first, 24, RCV_LARGE), (second, 24, 0), (third, 8192, 0)):
            client.write(receiving(source, limit=limit, option=option))
            time.sleep(apart / 2)
        sender.send(member, 2 * round_, ports(COPY_SEND))
        for client in (first, second):
            reply = expect(f"{who}: one for whom the message is too large", client, MACH_RCV_TOO_LARGE)
            if reply[SIZE] != 28 or reply[MEMBER] != member:
                raise Difference(f"{who}: too large is {reply}")
        expect_still(f"{who}: one whose message was destroyed", [third], 0.02)
        sender.send(member, 2 * round_ + 1)
        expect_message(f"{who}: the one behind those", third, 2 * round_ + 1)
        first.write(receiving(source, limit=24, option=RCV_LARGE))
        time.sleep(apart / 2)
        second.write(receiving(source))
        time.sleep(apart / 2)
        sender.send(member, 2 * round_, ports(COPY_SEND))
        expect(f"{who}: one that leaves a message", first, MACH_RCV_TOO_LARGE)
        expect_message(f"{who}: the one behind one that leaves it", second, 2 * round_)
        close_all([first, second, third])


def receipts_without_names(server, is_set):
    """Tests that in a full space each receive is refused in turn, and gets the message once a name is free."""
    scene = Scene(server)
    who, source, (member, *_) = source_of(scene.owner, is_set)
    space, door = scene.owner.call(SPACE_CREATE, member, MAKE_SEND)
    far = server.client(space)
    free = MOST_NAMES - scene.owner.call(1)[0]
    scene.owner.write(*[words(5, DEAD_NAME)] * free)
    made = [scene.owner.reply(30) for _ in range(free)]
    waiting = server.clients_of(2, scene.space)
    for client in waiting:
        client.write(receiving(source))
        time.sleep(APART)
    far.send(door, 7, ports(MAKE_SEND, far.name(RECEIVE)))
    for client in waiting:
        expect(f"{who}, in a full space", client, MACH_RCV_HEADER_ERROR | MACH_MSG_IPC_SPACE)
    scene.owner.call(DESTROY, made[0][2])
    if scene.owner.take(source) != 7:
        raise Difference(f"{who}: the message isn't there once there is a name")
    far.call(SPACE_DESTROY)
    close_all([far, *waiting])
    scene.end()


def sends_in_order(apart, server):
    """Sends from two spaces wait at a queue that holds one message."""
    owner = server.client()
    port = owner.port(1)
    space, far = owner.call(SPACE_CREATE, port, MAKE_SEND)
    owner.send(port, 0)
    waiting = []
    for number in range(1, 2 * CLIENTS + 1):
        is_far = number % 3 == 0
        waiting.append(server.client(space if is_far else 1))
        waiting[-1].write(sending(far if is_far else port, number, timeout=TEN_MINUTES if number % 2 else None))
        time.sleep(apart)
    for number in range(2 * CLIENTS):
        if owner.take(port) != number:
            raise Difference(f"sends at a full queue: message {number} isn't the next one")
        expect_turn("sends at a full queue", waiting).close()
    expect_message("the last send at a full queue", asked_client(owner, receiving(port, timeout=0)), 2 * CLIENTS)
    owner.close()


def asked_client(client, frame):
    client.write(frame)
    return client


def sends_that_end(chance, server):
    """Tests a send whose timeout expires, or whose connection is closed, just as there is room: the next send gets that
    room."""
    owner, looker = server.clients_of(2)
    for round_ in range(2 * TRIES):
        is_closed = round_ % 2
        first, second = server.clients_of(2)
        port = owner.port(1)
        owner.send(port, 0)
        wait = 3 * APART
        first.write(sending(port, 1, timeout=None if is_closed else int(1_000 * wait)))
        began = time.monotonic()
        time.sleep(APART)
        second.write(sending(port, 2))
        sleep_until(began + wait + chance.uniform(-0.004, 0.004))
        owner.write(receiving(port, timeout=0))
        code = None
        if is_closed:
            first.close()
        else:
            code = first.reply()[CODE]
        expect_message("the receipt from a full queue", owner, 0)
        how = "is closed" if is_closed else "gives up"
        who = f"the send behind one that {how}"
        came = [next_of_full(looker, owner, port, who, second)]
        if came == [1]:
            came.append(next_of_full(looker, owner, port, who, second))
        if came not in ([2], [1, 2]) or code == 0 and came == [2] or code == MACH_SEND_TIMED_OUT and came == [1, 2]:
            raise Difference(f"{who}: the messages {came} came, and the first is answered {code}")
        expect(who, second, 0)
        close_all([first, second])


def next_of_full(looker, owner, port, who, waiting):
    """Returns the next message of a queue with room, at which a send waits."""
    until = time.monotonic() + PROMPT
    while looker.queued(port) == 0:
        if time.monotonic() > until:
            raise Difference(f"{who} waits, and has room")
    return owner.take(port)
