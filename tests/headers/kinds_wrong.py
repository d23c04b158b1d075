"""Kinds of packets with headers that are broken on purpose, at each place of a chain."""

from itertools import combinations
from typing import Iterator, Tuple

from chains import ANNOUNCES, Maker, Versions, nestings
from kinds_right import case
from patches import BREAKS, CHECKSUM_AT, FLAGS_AT, HEADER_LENGTH, LENGTH_AT, broken, mended, put_word, starts, with_version, with_words, word
from readings import Record

ID_AT = 4


def places(maker: Maker, highest: int, tall: int, only: Tuple[int, ...] = (4, 6)) -> Iterator[Tuple[Versions, bytes, int, int]]:
    """A right packet, and the number and the start of each of its headers of these versions."""
    for versions in maker.some_nestings(highest, tall):
        packet = maker.nested(versions, maker.some_bytes(11))
        for at, start in enumerate(starts(versions)):
            if versions[at] in only:
                yield versions, packet, at, start


def low_and_high(packet: bytes, at: int) -> Iterator[Record]:
    """With room for every header, and with the bound just below header `at`, whose own refusal comes before the bound's."""
    yield case(packet)
    yield case(packet, max(at, 1), 0)


def fragments(maker: Maker) -> Iterator[Record]:
    """An offset, more to come or both, with DF and the reserved bit set or not."""
    for _, packet, at, start in places(maker, 4, 4, only=(4,)):
        for flags in (0x2000, 0x0001, 0x1FFF, 0x1000, 0x0100, 0x20B9, 0x6000, 0xA000, 0xC001, 0xFFFF):
            yield from low_and_high(mended(put_word(packet, start + FLAGS_AT, flags), start), at)


def bad_checksums(maker: Maker) -> Iterator[Record]:
    for _, packet, at, start in places(maker, 4, 4, only=(4,)):
        right = word(packet, start + CHECKSUM_AT)
        swapped = right >> 8 | right << 8
        for stored in (right + 1, right - 1, right ^ 0x8000, right ^ 0xFFFF, swapped, 0, 0xFFFF):
            yield from low_and_high(put_word(packet, start + CHECKSUM_AT, stored), at)


def sums_of_zero(maker: Maker) -> Iterator[Record]:
    """Headers whose other words add up to all ones, so that both zeros are right as a checksum: 0x0000 and 0xFFFF."""
    for _, packet, at, start in places(maker, 3, 1, only=(4,)):
        blank = mended(put_word(packet, start + ID_AT, 0), start)
        packet = put_word(packet, start + ID_AT, word(blank, start + CHECKSUM_AT))
        for stored in (0, 0xFFFF, 1, 0xFFFE):
            yield from low_and_high(put_word(packet, start + CHECKSUM_AT, stored), at)


def cut_packets(maker: Maker) -> Iterator[Record]:
    """Every length of some packets."""
    chains = [maker.nested(versions, maker.some_bytes(11)) for versions in (*nestings(2), *(maker.versions(height) for height in (3, 4, 5, 13)))]
    chains.append(maker.nested((4, 6, 4), maker.some_bytes(11), {0: {"options": maker.options(24)}, 2: {"options": maker.options(40)}}))
    for packet in chains:
        for length in range(len(packet)):
            yield case(packet[:length])


def cut_inside(maker: Maker) -> Iterator[Record]:
    """Every length of inner packets, in outer ones that fit them."""
    for versions in (*nestings(3, 2), maker.versions(13)):
        for at in sorted({1, len(versions) - 1}):
            inner = maker.nested(versions[at:], maker.some_bytes(2))
            for length in range(min(len(inner), 100)):
                yield case(maker.nested(versions[:at], inner[:length], last=ANNOUNCES[versions[at]]))


def zero_lengths(maker: Maker) -> Iterator[Record]:
    """A length of 0 at each header, and no byte after the innermost."""
    for versions, packet, at, start in places(maker, 4, 4):
        zero = put_word(packet, start + LENGTH_AT[versions[at]], 0)
        yield from low_and_high(mended(zero, start) if versions[at] == 4 else zero, at)
    for versions in maker.some_nestings(5, 3):
        yield case(maker.nested(versions, b""))


def header_lengths(maker: Maker) -> Iterator[Record]:
    """Each header length of IPv4, with total lengths below it, at it and above it."""
    for _, packet, at, start in places(maker, 3, 2, only=(4,)):
        total = word(packet, start + LENGTH_AT[4])
        for words in range(16):
            for length in (total, 0, 1, 19, 20, 4 * words - 1, 4 * words, 4 * words + 1, 65535):
                changed = with_words(put_word(packet, start + LENGTH_AT[4], length), start, words)
                yield from low_and_high(mended(changed, start, 4 * words), at)


def other_lengths(maker: Maker) -> Iterator[Record]:
    """Lengths that are beyond what holds the packet, or so short that what is inside sticks out of it."""
    for versions, packet, at, start in places(maker, 3, 2):
        version = versions[at]
        length = word(packet, start + LENGTH_AT[version])
        for other in (*range(max(length - 70, 0), length + 5), length + 20, length + 40, length + 256, 32768, 65535):
            changed = put_word(packet, start + LENGTH_AT[version], other)
            yield case(mended(changed, start) if version == 4 else changed)
            yield case(changed + maker.some_bytes(3), max(at, 1))


def version_nibbles(maker: Maker) -> Iterator[Record]:
    """Each version in each header, with the right checksum for it and without; and at lengths about the shortest header's."""
    for versions, packet, at, start in places(maker, 3, 2):
        for nibble in range(16):
            changed = with_version(packet, start, nibble)
            yield from low_and_high(changed, at)
            yield from low_and_high(mended(changed, start), at)
    for versions in nestings(3):
        inner = maker.nested(versions[-1:], maker.some_bytes(30))
        for length in (0, 1, 19, 20, 39, 40, 41):
            for nibble in range(16):
                cut = with_version(inner, 0, nibble)[:length]
                yield case(maker.nested(versions[:-1], cut, last=ANNOUNCES[versions[-1]]))


def several_at_once(maker: Maker) -> Iterator[Record]:
    """Every set of breaks at one header, whole and cut: the first of them in order is the refusal."""
    for versions in maker.some_nestings(2, 3):
        for at, version in enumerate(versions):
            inner = maker.nested(versions[at:], maker.some_bytes(25))
            for count in range(len(BREAKS[version]) + 1) if len(versions) < 13 else (1,):
                for breaks in combinations(BREAKS[version], count):
                    wrong = broken(inner, 0, version, breaks)
                    for length in (len(wrong), HEADER_LENGTH[version] - 1):
                        following = ANNOUNCES[version]
                        yield from low_and_high(maker.nested(versions[:at], wrong[:length], last=following), at)


def two_headers(maker: Maker) -> Iterator[Record]:
    """Two headers of a chain broken: the outer one's refusal comes first."""
    for versions in (*nestings(3, 2), maker.versions(13)):
        packet, places_of = maker.nested(versions, maker.some_bytes(11)), starts(versions)
        for outer, inner in combinations(range(len(versions)), 2):
            for first in BREAKS[versions[outer]]:
                for second in BREAKS[versions[inner]]:
                    wrong = broken(packet, places_of[inner], versions[inner], (second,))
                    yield case(broken(wrong, places_of[outer], versions[outer], (first,)))


KINDS = {
    "fragments at each header": fragments,
    "bad checksums at each header": bad_checksums,
    "checksums 0x0000 and 0xFFFF": sums_of_zero,
    "cut packets": cut_packets,
    "cut inner packets": cut_inside,
    "zero lengths": zero_lengths,
    "header lengths and total lengths about them": header_lengths,
    "lengths beyond and below": other_lengths,
    "versions": version_nibbles,
    "several breaks at one header": several_at_once,
    "two headers broken": two_headers,
}
