"""An independent reader of chains of headers, written from RFC 791, RFC 8200 and the rulings on the order of refusals."""

from typing import Callable, List, Optional, Tuple

from readings import Reading, Refused, Stack, with_room

# the version that IPv4's protocol or IPv6's next header announces
ANNOUNCED = {4: 4, 41: 6}

# what holds the header (and what follows it there), the version announced (None outermost), and whether h headers are around it
Test = Callable[[bytes, Optional[int], bool], bool]


def version(holder: bytes) -> int:
    return holder[0] >> 4 if holder else 0


def field(holder: bytes, at: int) -> int:
    """A field of 16 bits."""
    return int.from_bytes(holder[at : at + 2], "big")


def lengths(holder: bytes) -> Tuple[int, int]:
    """The bytes of the header, and those of the whole packet."""
    if version(holder) == 6:
        return 40, 40 + field(holder, 4)
    return (holder[0] & 15) * 4, field(holder, 2)


def ones_sum(header: bytes) -> int:
    """The ones' complement sum of 16-bit words: a carry comes back in at the bottom."""
    total = sum(header[0::2]) * 256 + sum(header[1::2])
    while total > 0xFFFF:
        total = (total >> 16) + (total & 0xFFFF)
    return total


def too_short(holder: bytes, _announced: Optional[int], _full: bool) -> bool:
    return len(holder) < (40 if version(holder) == 6 else 20)


def wrong_version(holder: bytes, announced: Optional[int], _full: bool) -> bool:
    return version(holder) not in ((4, 6) if announced is None else (announced,))


def bad_header_length(holder: bytes, _announced: Optional[int], _full: bool) -> bool:
    header, packet = lengths(holder)
    return header < 20 or packet < header


def beyond_holder(holder: bytes, _announced: Optional[int], _full: bool) -> bool:
    return lengths(holder)[1] > len(holder)


def bad_checksum(holder: bytes, _announced: Optional[int], _full: bool) -> bool:
    return version(holder) == 4 and ones_sum(holder[: lengths(holder)[0]]) != 0xFFFF


def is_fragment(holder: bytes, _announced: Optional[int], _full: bool) -> bool:
    more_fragments, offset = field(holder, 6) & 0x2000, field(holder, 6) & 0x1FFF
    return version(holder) == 4 and (more_fragments != 0 or offset != 0)


def too_high(_holder: bytes, _announced: Optional[int], full: bool) -> bool:
    return full


class Reader:
    """The reader; what it does is kept in attributes, so that a fault can be planted in each."""

    def __init__(self) -> None:
        self.tests: List[Tuple[int, Test]] = [
            (61, too_short),
            (62, wrong_version),
            (63, bad_header_length),
            (64, beyond_holder),
            (65, bad_checksum),
            (66, is_fragment),
            (67, too_high),
        ]
        self.highest = 12
        self.full = lambda outer, h: len(outer) == h
        self.lengths = lengths
        self.room = with_room
        self.stacked = lambda protocols, outer: protocols + outer
        self.inside = lambda holder, header, packet, rest: holder[header:packet]
        self.announced = lambda holder: ANNOUNCED.get(holder[6] if version(holder) == 6 else holder[9])

    def judged(self, holder: bytes, announced: Optional[int], full: bool) -> int:
        """The first refusal that a header meets, or 0."""
        for refusal, met in self.tests:
            if met(holder, announced, full):
                return refusal
        return 0

    def chain(self, h: int, packet: bytes) -> Reading:
        holder, start, announced, outer = packet, 0, None, []
        while True:
            refusal = self.judged(holder, announced, self.full(outer, h))
            if refusal:
                return Refused(refusal, len(outer), start)
            header, length = self.lengths(holder)
            outer = self.stacked([1 if version(holder) == 6 else 0], outer)
            announced = self.announced(holder)
            if announced is None:
                return Stack(outer, start + header, start + length)
            holder = self.inside(holder, header, length, packet[start + header :])
            start += header

    def read(self, h: int, packet: bytes, out_len: int) -> Reading:
        if not 1 <= h <= self.highest:
            return Refused(1, 0, 0)
        return self.room(self.chain(h, packet), out_len)
