"""Stores of older versions (stores/), and checks after a current server has opened them."""

import hashlib
import pathlib
import struct

from frames import words
from store import Difference, compare

STORES = pathlib.Path(__file__).resolve().parent / "stores" / "v1"


def was_printed(known, listing):
    """Returns true if this is the listing of the store from the time when it was written. Of a long listing only the
    hash is kept."""
    text, digest = known.with_name(known.name + ".listing"), known.with_name(known.name + ".listing.sha256")
    if text.exists():
        return listing == text.read_text()
    return hashlib.sha256(listing.encode()).hexdigest() == digest.read_text().strip()


def counts_of(listing):
    """Returns the epoch and the number of records in the first line of a listing."""
    _, epoch, _, records = listing.split("\n", 1)[0].split()
    return int(epoch), int(records)


def state_in(listing):
    """Returns a listing without its first line, which has the epoch and the number of records."""
    return listing.split("\n", 1)[1]


def same_state(known, before, after):
    if state_in(before) != state_in(after):
        raise Difference(f"{known.name} holds something else")


def go_on_upgraded(store, known, before):
    """Checks that an opened store has the same state in version 2, in a later epoch and without records; then uses it.
    """
    after = store.listing()
    same_state(known, before, after)
    (first, _), (last, records) = counts_of(before), counts_of(after)
    if records or not first < last <= first + 2:
        raise Difference(f"{known.name}, of epoch {first}, is in epoch {last} with {records} records")
    for slot in ("image", "segment"):
        front = pathlib.Path(store.folder, f"{slot}{last % 2}").read_bytes()[:16]
        if front != b"\x5a\x02" + bytes(6) + struct.pack("<Q", last):
            raise Difference(f"{known.name}: {slot}{last % 2} begins with {front.hex()}")
    names = [int(it.split()[1], 16) for it in after.split("space ")[1].split("\n") if it.startswith("name")]
    name = next(it for it in range(0x100, 0x2000) if it not in names)
    asked = [words(5, 1), words(10, name, 64), words(10, name, 65), words(2, name)]
    wanted = [words(5, 0, name), words(10, 0), words(10, 18), words(2, 0, 0x20000)]
    compare(asked, wanted, store.serve(asked))
    if counts_of(store.listing()) != (last, 2):
        raise Difference(f"{known.name}: {counts_of(store.listing())} after two calls with a record")
