"""Messages, and the items of their bodies."""

from __future__ import annotations

import dataclasses
import struct
from typing import Any, Iterator, List, Tuple, Union

from .constants import BYTE, CHAR, COPY_SEND, INTEGER_32, MAKE_SEND_ONCE, MOVE_RECEIVE, PORT_NULL

_COMPLEX = 0x80000000


@dataclasses.dataclass(frozen=True)
class Ports:
    """An item of rights: names, and how each is taken. As received, the disposition is the type that they arrived as."""

    disposition: int
    names: Tuple[int, ...]

    def __init__(self, disposition: int, *names: int) -> None:
        object.__setattr__(self, "disposition", disposition)
        object.__setattr__(self, "names", names)


@dataclasses.dataclass(frozen=True)
class Data:
    """An item of data: `number` elements of `bits` bits each, in as many bytes as they take."""

    type: int
    bits: int
    number: int
    bytes: bytes


Item = Union[Ports, Data]


def data(value: Union[bytes, str]) -> Data:
    """Returns an item of bytes, or of a text in UTF-8."""
    if isinstance(value, str):
        return data_of(CHAR, 8, value.encode())
    return data_of(BYTE, 8, value)


def words(*numbers: int) -> Data:
    """Returns an item of numbers of 32 bits."""
    return data_of(INTEGER_32, 32, struct.pack(f"<{len(numbers)}I", *(it & 0xFFFFFFFF for it in numbers)))


def data_of(type_: int, bits: int, content: bytes) -> Data:
    """Returns an item of elements of this size, as many as the bytes contain."""
    return Data(type_, bits, len(content) * 8 // bits, content)


def _item_bytes(item: Item) -> bytes:
    if isinstance(item, Ports):
        type_, bits, number = item.disposition, 32, len(item.names)
        content = struct.pack(f"<{number}I", *item.names)
    else:
        type_, bits, number, content = item.type, item.bits, item.number, item.bytes
    if number < 4096 and type_ < 256 and bits < 256:
        descriptor = struct.pack("<I", type_ | bits << 8 | number << 16 | 1 << 28)
    else:
        descriptor = struct.pack("<IHHI", 3 << 28, type_, bits, number)
    return descriptor + content + bytes(-len(content) % 4)


def _items(body: bytes) -> Iterator[Item]:
    place = 0
    while place < len(body):
        (word,) = struct.unpack_from("<I", body, place)
        type_, bits, number = word & 0xFF, word >> 8 & 0xFF, word >> 16 & 0xFFF
        place += 4
        if word >> 29 & 1:
            type_, bits, number = struct.unpack_from("<HHI", body, place)
            place += 8
        length = (number * bits + 7) // 8
        content = body[place : place + length]
        if not word >> 28 & 1 or len(content) != length:
            raise ValueError("the body isn't a sequence of items in line")
        if MOVE_RECEIVE <= type_ <= MAKE_SEND_ONCE:
            yield Ports(type_, *struct.unpack(f"<{number}I", content))
        else:
            yield Data(type_, bits, number, content)
        place += length + -length % 4


def _signed(number: int) -> int:
    return (number + (1 << 31)) % (1 << 32) - (1 << 31)


@dataclasses.dataclass
class Message:
    """A message.

    To send: `remote` is the destination and `disposition` how its right is taken; `local` is a right to reply by, with
    `local_disposition`. As received: `remote` is the right to reply by, of the type `disposition`, or 0; `local` is the
    port that the message came to. The body is bytes, or a sequence of items, which a message with rights has to have.
    """

    remote: int = PORT_NULL
    disposition: int = COPY_SEND
    local: int = PORT_NULL
    local_disposition: int = 0
    id: int = 0
    body: bytes = b""
    has_items: bool = False
    seqno: int = 0

    @classmethod
    def of(cls, remote: int, disposition: int, *items: Item, **more: Any) -> Message:
        """Returns a message whose body is these items."""
        return cls(remote, disposition, body=b"".join(map(_item_bytes, items)), has_items=True, **more)

    @property
    def items(self) -> List[Item]:
        """The items of the body. ValueError: it isn't a sequence of items."""
        try:
            return list(_items(self.body))
        except struct.error:
            raise ValueError("the body isn't a sequence of items in line") from None

    @property
    def ports(self) -> List[int]:
        """The names of all rights in the body."""
        return [name for item in self.items if isinstance(item, Ports) for name in item.names]

    def reply(self, *items: Item, **more: Any) -> Message:
        """Returns a message by the right to reply, with an id that is greater by 100, as the Mach Interface Generator has
        it. Other words, such as `body`, are those of Message."""
        more = {"id": _signed(self.id + 100), **more}
        if items:
            return Message.of(self.remote, self.disposition, *items, **more)
        return Message(self.remote, self.disposition, **more)

    def to_bytes(self) -> bytes:
        bits = self.disposition | self.local_disposition << 8 | (_COMPLEX if self.has_items else 0)
        size = 24 + len(self.body)
        return struct.pack("<5Ii", bits, size, self.remote, self.local, self.seqno, self.id) + self.body

    @classmethod
    def from_bytes(cls, text: bytes) -> Message:
        bits, _, remote, local, seqno, id_ = struct.unpack_from("<5Ii", text)
        return cls(remote, bits & 0xFF, local, bits >> 8 & 0xFF, id_, text[24:], bool(bits & _COMPLEX), seqno)
