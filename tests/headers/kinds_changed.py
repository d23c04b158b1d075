"""Kinds of packets with bytes left to chance: every change of one byte, changes of several, and bytes that are no packet."""

from typing import Iterator, List, Tuple

from chains import Maker
from kinds_right import case
from patches import HEADER_LENGTH, mended, put
from readings import Record


def bases(maker: Maker) -> Iterator[Tuple[bytes, List[Tuple[int, int, int]]]]:
    """Some right packets, with version, start and length of each header; what they hold looks like a header too, but is not announced."""
    for versions, options in (((4,), 0), ((6,), 0), ((4, 6, 4), 0), ((6, 4), 12)):
        headers, start = [], 0
        for version in versions:
            length = HEADER_LENGTH[version] + (options if version == 4 else 0)
            headers.append((version, start, length))
            start += length
        fields = {at: {"options": maker.options(options)} for at, version in enumerate(versions) if version == 4 and options}
        yield maker.nested(versions, maker.nested((4,), maker.some_bytes(44)), fields), headers


def one_byte_changes(maker: Maker) -> Iterator[Record]:
    """All 255 other values of every byte of every header."""
    for packet, headers in bases(maker):
        for _, start, length in headers:
            for at in range(start, start + length):
                for value in set(range(256)) - {packet[at]}:
                    yield case(put(packet, at, bytes([value])), len(headers))


def mended_byte_changes(maker: Maker) -> Iterator[Record]:
    """The same in the headers of IPv4, each with the right checksum for what the header is then."""
    for packet, headers in bases(maker):
        for start, length in ((start, length) for version, start, length in headers if version == 4):
            for at in range(start, start + length):
                for value in set(range(256)) - {packet[at]}:
                    changed = put(packet, at, bytes([value]))
                    yield case(mended(changed, start, 4 * (changed[start] & 15)))


def several_byte_changes(maker: Maker) -> Iterator[Record]:
    """Some bytes of higher chains changed."""
    chance = maker.random
    for _ in range(200):
        packet = maker.stacked(maker.versions(chance.randrange(1, 7)), options=True)
        for _ in range(50):
            changed = packet
            for _ in range(chance.randrange(1, 5)):
                changed = put(changed, chance.randrange(len(packet)), maker.some_bytes(1))
            yield case(changed, chance.randrange(1, 8), chance.randrange(3, 8))


def random_bytes(maker: Maker) -> Iterator[Record]:
    """Bytes that are no packet; most of them start as a header does."""
    chance = maker.random
    for _ in range(20000):
        packet = maker.some_bytes(chance.randrange(121))
        if packet and chance.random() < 0.8:
            first = chance.choice((0x45, 0x45, 0x46, 0x4F, 0x60, 0x60, 0x6F))
            packet = put(packet, 0, bytes([first]))
        yield case(packet, chance.randrange(14), chance.randrange(4))


def random_bytes_with_lengths(maker: Maker) -> Iterator[Record]:
    """The same with lengths that fit, no offset, a right checksum and a header announced."""
    chance = maker.random
    for _ in range(5000):
        inside = maker.some_bytes(chance.randrange(100))
        if inside and chance.random() < 0.5:
            inside = put(inside, 0, bytes([chance.choice((0x45, 0x60))]))
        yield case(maker.wrapped(chance.choice((4, 6)), chance.choice((4, 41)), inside), chance.randrange(1, 4))


KINDS = {
    "changes of one byte": one_byte_changes,
    "changes of one byte, checksum mended": mended_byte_changes,
    "changes of several bytes": several_byte_changes,
    "random bytes": random_bytes,
    "random bytes in a right header": random_bytes_with_lengths,
}
