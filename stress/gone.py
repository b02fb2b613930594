"""Clients that disconnect while they wait, and the messages that arrive then."""

import itertools
import time

from clients import APART, STILL, TEN_MINUTES, close_all, exchanging, expect_message, receiving
from frames import words
from machine import MOST_QUEUED
from store import Difference, framed

# Number of messages that are sent after each client that disconnects; one may have been there before.
GROUP = MOST_QUEUED - 1


def gone(chance, server, asked):
    half_closed(server)
    said, tries = [], list(itertools.product(WAYS, ("close", "kill")))
    for number, (ask, go) in enumerate(tries):
        missing = messages_beside_the_gone(chance, server, number % 3 == 2, ask, go, asked.messages)
        if missing:
            count = f"{len(missing)} of {asked.messages} messages weren't there, the first of them {missing[0]}"
            said.append(f"{ask.__name__.replace('_', ' ')}, then {go}: {count}")
    if said:
        raise Difference("\n".join(said))
    return f"none of {len(tries) * asked.messages} messages went to a client that had gone"


def receipt_without_end(client, place):
    client.write(receiving(place.source))


def receipt_for_minutes(client, place):
    client.write(receiving(place.source, timeout=TEN_MINUTES))


def several_receipts(client, place):
    client.write(*[receiving(place.source)] * 3)


def receipt_behind_its_send(client, place):
    client.write(exchanging(place.sink, 0, place.source))


def receipt_before_a_part_of_a_frame(client, place):
    client.socket.sendall(framed(receiving(place.source)) + words(8, 5))


def receipt_behind_an_unread_answer(client, place):
    client.write(*[receiving(place.source)] * 2)
    place.sender.send(place.port, 0)


def receipt_of_one_who_ended_writing(client, place):
    client.write(receiving(place.source))
    client.end_writing()


WAYS = (
    receipt_without_end,
    receipt_for_minutes,
    several_receipts,
    receipt_behind_its_send,
    receipt_before_a_part_of_a_frame,
    receipt_behind_an_unread_answer,
    receipt_of_one_who_ended_writing,
)


class Place:
    """The place from which a client that disconnects receives: a port, or a set with that port. `sink` is the
    destination of its sends."""

    def __init__(self, server, is_set):
        self.sender = server.client()
        self.port, self.sink = self.sender.port(), self.sender.port()
        self.source = self.sender.set_of(self.port) if is_set else self.port


def messages_beside_the_gone(chance, server, is_set, ask, go, count):
    """Returns the numbers of the messages that the next receiver didn't get."""
    place, receiver, missing = Place(server, is_set), server.client(), []
    for first in range(1, count + 1, GROUP):
        numbers = range(first, min(count + 1, first + GROUP))
        waiting = server.client()
        ask(waiting, place)
        time.sleep(chance.choice([0, 0.002, 0.01, APART]))
        getattr(waiting, go)()
        time.sleep(0.001)
        place.sender.send_all(place.port, numbers)
        # A message with the number 0 may have been there before.
        came = [it for it in receiver.take_all(place.source, MOST_QUEUED) if it]
        if came != sorted(set(came) & set(numbers)):
            raise Difference(f"of {list(numbers)} came {came}")
        missing += sorted(set(numbers) - set(came))
        receiver.take(place.sink)
    close_all([place.sender, receiver])
    return missing


def half_closed(server):
    """Tests that a client that only shuts down its output gets all replies, and then the end."""
    sender = server.client()
    port = sender.port()
    for pause in (0, APART):
        waiting = server.client()
        waiting.write(receiving(port), receiving(port))
        time.sleep(pause)
        waiting.end_writing()
        for number in (1, 2):
            time.sleep(STILL)
            sender.send(port, number)
            expect_message("a client that ended what it writes", waiting, number)
        expect_end(waiting)


def expect_end(client):
    try:
        raise Difference(f"the connection isn't at its end: {client.reply()}")
    except EOFError:
        client.close()
