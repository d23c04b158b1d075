"""What a reading of a packet is, the records that answers.c is given, and the line that it must write of each."""

import struct
from typing import Iterator, List, NamedTuple, Tuple, Union

# h, the lengths lent for the stack, for the answer and for the packet
RECORD_HEAD = struct.Struct("<QIII")

ANSWER_LENGTH = 4
NO_ROOM = 9


class Stack(NamedTuple):
    """A packet that is read: protocols from the bottom up, and where the innermost packet's part after its header begins and ends."""

    protocols: List[int]
    begin: int
    end: int


class Refused(NamedTuple):
    """A packet that is refused: the number, the header from outside that met it, and where that header starts."""

    refusal: int
    header: int
    start: int


Reading = Union[Stack, Refused]


class Record(NamedTuple):
    """One call: the height bound, the lengths that are lent, and the packet."""

    h: int
    out_len: int
    answer_len: int
    packet: bytes


def packed(record: Record) -> bytes:
    return RECORD_HEAD.pack(record.h, record.out_len, record.answer_len, len(record.packet)) + record.packet


def unpacked(path: str) -> Iterator[Record]:
    with open(path, "rb") as file:
        head = file.read(RECORD_HEAD.size)
        while head:
            h, out_len, answer_len, packet_len = RECORD_HEAD.unpack(head)
            yield Record(h, out_len, answer_len, file.read(packet_len))
            head = file.read(RECORD_HEAD.size)


def with_room(reading: Reading, out_len: int) -> Reading:
    """Last of all refusals: no room for the stack."""
    if isinstance(reading, Stack) and len(reading.protocols) > out_len:
        return Refused(NO_ROOM, 0, 0)
    return reading


def number_of(protocols: List[int]) -> int:
    """A stack's number for two protocols."""
    number = 0
    for protocol in protocols:
        number = 2 * number + protocol + 1
    return number


def answers(reading: Reading) -> Tuple[int, List[int], List[int]]:
    """The answer, the four numbers, and what is written to the front of the buffer."""
    if isinstance(reading, Stack):
        return 0, [len(reading.protocols), number_of(reading.protocols), reading.begin, reading.end], reading.protocols
    return (1 << 63) + reading.refusal, [reading.header, reading.start, 0, 0], []


def line_of(reading: Reading, record: Record) -> str:
    """What answers.c must say of this record, if this is its reading."""
    answered, numbers, written = answers(reading)
    if record.answer_len < ANSWER_LENGTH:
        answered, numbers, written = (1 << 63) + NO_ROOM, [], []
    texts = [str(number) for number in numbers] + ["-"] * (record.answer_len - len(numbers))
    return f"{answered} {','.join(texts)} {bytes(written).hex()}{'..' * (record.out_len - len(written))}"
