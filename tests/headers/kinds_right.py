"""Kinds of packets whose headers are right: what the chain is, where it ends, and how high it may be."""

from typing import Iterator

from scapy.layers.inet import UDP
from scapy.layers.inet6 import IPv6ExtHdrDestOpt, IPv6ExtHdrFragment, IPv6ExtHdrHopByHop, IPv6ExtHdrRouting, Jumbo, PadN
from scapy.packet import Raw

from chains import ANNOUNCES, Maker, nestings
from readings import Record

HIGHEST = 13
BOUNDS = (*range(15), 255, 256, 2**32, 2**32 + 1, 2**63, 2**64 - 1)
NO_NEXT_HEADER = 59


def case(packet: bytes, h: int = 12, out_len: int = 14, answer_len: int = 4) -> Record:
    return Record(h, out_len, answer_len, packet)


def grown(maker: Maker, height: int, inside: bytes, following: int) -> Iterator[Record]:
    for version in (4, 6):
        packet = maker.wrapped(version, following, inside)
        yield case(packet)
        if height + 1 < HIGHEST:
            yield from grown(maker, height + 1, packet, ANNOUNCES[version])


def all_nestings(maker: Maker) -> Iterator[Record]:
    """Every chain of 1 to 13 headers, each made of one that is a header lower."""
    return grown(maker, 0, maker.some_bytes(9), 253)


def bounds_and_buffers(maker: Maker) -> Iterator[Record]:
    for versions in (*nestings(5), maker.versions(12), maker.versions(13)):
        packet = maker.nested(versions, maker.some_bytes(4))
        for h in BOUNDS:
            for out_len in range(len(versions) + 2):
                yield case(packet, h, out_len)


def random_chains(maker: Maker) -> Iterator[Record]:
    """As scapy stacks them, with options and payloads of all sorts, bytes after them, and any bound and buffer."""
    for _ in range(2000):
        packet = maker.stacked(maker.versions(maker.random.randrange(1, 14)), options=True)
        tail = maker.some_bytes(maker.random.choice((0, 0, 1, 60)))
        yield case(packet + tail, maker.random.choice((12, 12, maker.random.randrange(1, 13))), maker.random.choice((14, maker.random.randrange(15))))


def option_lists(maker: Maker) -> Iterator[Record]:
    """Options of each length from 0 to 40 bytes, in each header of IPv4."""
    for length in range(41):
        for versions in nestings(3):
            for at in (at for at, version in enumerate(versions) if version == 4):
                yield case(maker.nested(versions, maker.some_bytes(5), {at: {"options": maker.options(length)}}))


def extension_headers(maker: Maker) -> Iterator[Record]:
    """Each of them innermost and with a further header behind it, after IPv6 and, as a mere protocol number, after IPv4."""
    headers = (
        (0, IPv6ExtHdrHopByHop(options=[PadN(optdata=maker.some_bytes(4))])),
        (60, IPv6ExtHdrDestOpt(options=[PadN(optdata=maker.some_bytes(12))])),
        (43, IPv6ExtHdrRouting(addresses=["2001:db8::1"])),
        *((44, IPv6ExtHdrFragment(offset=offset, m=more)) for offset, more in ((0, 0), (0, 1), (99, 1), (8191, 0))),
    )
    behind = [(NO_NEXT_HEADER, b""), (17, bytes(UDP(sport=9, dport=9) / Raw(maker.some_bytes(8))))]
    behind += [(ANNOUNCES[version], maker.nested((version,), maker.some_bytes(3))) for version in (4, 6)]
    for outer in ((), *nestings(3)):
        for version in (4, 6):
            for number, header in headers:
                for following, inside in behind:
                    header.nh = following
                    yield case(maker.nested((*outer, version), bytes(header / Raw(inside)), last=number))


def flags_to_ignore(maker: Maker) -> Iterator[Record]:
    """DF and the reserved bit in each header of IPv4; scapy numbers MF, DF and the reserved bit 1, 2 and 4."""
    for versions in maker.some_nestings(4, 3):
        for at in (at for at, version in enumerate(versions) if version == 4):
            for flags in (0, 2, 4, 6):
                yield case(maker.nested(versions, maker.some_bytes(6), {at: {"flags": flags}}))


def tails(maker: Maker) -> Iterator[bytes]:
    for length in (1, 2, 19, 20, 40, 61):
        yield maker.some_bytes(length)
    yield maker.nested((4,), b"behind")
    yield maker.nested((6,), b"behind")


def trailing_bytes(maker: Maker) -> Iterator[Record]:
    for versions in (*nestings(4), maker.versions(12)):
        for tail in tails(maker):
            yield case(maker.nested(versions, maker.some_bytes(7), tails={0: tail}))


def shorter_inside(maker: Maker) -> Iterator[Record]:
    """Inner packets shorter than what holds them, one at a time and all at once."""
    for versions in (*nestings(4, 2), maker.versions(12)):
        for tail in tails(maker):
            for at in range(1, len(versions)):
                yield case(maker.nested(versions, maker.some_bytes(7), tails={at: tail}))
            yield case(maker.nested(versions, b"", tails={at: tail for at in range(len(versions))}))


def protocol_numbers(maker: Maker) -> Iterator[Record]:
    """Each protocol number and next header, with a right header behind it."""
    for number in range(256):
        for outer in ((4,), (6,), (4, 6), (6, 4)):
            for version in (4, 6):
                yield case(maker.nested(outer, maker.nested((version,), maker.some_bytes(6)), last=number))


def large_packets(maker: Maker) -> Iterator[Record]:
    """The longest packets that a length can say, with and without bytes behind them."""
    for versions in nestings(3):
        around = sum(40 if version == 6 else 20 for version in versions)
        most = 65575 if versions[0] == 6 else 65535
        for length in (most - around, most - around - 1, 32768, 32767):
            packet = maker.nested(versions, maker.some_bytes(length))
            yield case(packet)
            yield case(packet + maker.some_bytes(9000))
            yield case(packet[:-1])


def jumbo_option(maker: Maker) -> Iterator[Record]:
    """RFC 2675's option with a payload length of 0, which is taken as it stands."""
    header = IPv6ExtHdrHopByHop(options=[Jumbo(jumboplen=65600)], nh=NO_NEXT_HEADER)
    for outer in ((), *nestings(2)):
        for length in (8, 0):
            at = len(outer)
            yield case(maker.nested((*outer, 6), bytes(header) + maker.some_bytes(8), {at: {"plen": length}}, last=0))


def answer_slices(maker: Maker) -> Iterator[Record]:
    """Answer slices too short, which are refused before everything else, and longer than needed."""
    for versions in nestings(3):
        packet = maker.nested(versions, maker.some_bytes(4))
        for answer_len in (0, 1, 2, 3, 5, 8):
            for h, out_len in ((12, 14), (12, 0), (0, 14), (1, 1)):
                yield case(packet, h, out_len, answer_len)
                yield case(packet[:-5], h, out_len, answer_len)


KINDS = {
    "chains of all nestings up to 13 high": all_nestings,
    "bounds and buffers": bounds_and_buffers,
    "random chains up to 13 high": random_chains,
    "options of each length": option_lists,
    "extension headers": extension_headers,
    "DF and reserved bits": flags_to_ignore,
    "trailing bytes": trailing_bytes,
    "inner packets shorter than what holds them": shorter_inside,
    "protocol numbers": protocol_numbers,
    "large packets": large_packets,
    "jumbo options": jumbo_option,
    "answer slices": answer_slices,
}
