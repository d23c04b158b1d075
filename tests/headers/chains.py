"""Packets made by scapy: chains of IPv4 and IPv6 headers, given from outside to inside as versions."""

import itertools
import random
import socket
from typing import Callable, Dict, Iterator, List, Sequence, Tuple

from scapy.layers.inet import ICMP, IP, TCP, UDP, IPOption, IPOption_EOL, IPOption_MTU_Probe, IPOption_NOP, IPOption_RR, IPOption_Router_Alert
from scapy.layers.inet import IPOption_Stream_Id
from scapy.layers.inet6 import ICMPv6EchoRequest, IPv6
from scapy.layers.l2 import GRE
from scapy.packet import Packet, Raw

Versions = Tuple[int, ...]
# fields given to scapy for some of the headers, by their number from outside
Fields = Dict[int, Dict[str, object]]

# the number that announces a version
ANNOUNCES = {4: 4, 6: 41}
# a protocol number for experiments: no program follows it
EXPERIMENT = 253
NONE: Dict = {}


def nestings(highest: int, lowest: int = 1) -> Iterator[Versions]:
    """Every chain of these heights."""
    for height in range(lowest, highest + 1):
        yield from itertools.product((4, 6), repeat=height)


class Maker:
    """Makes packets; all that is left to chance comes from the seed."""

    def __init__(self, seed: str) -> None:
        self.random = random.Random(seed)

    def some_bytes(self, count: int) -> bytes:
        return self.random.getrandbits(8 * count).to_bytes(count, "big") if count else b""

    def versions(self, height: int) -> Versions:
        return tuple(self.random.choice((4, 6)) for _ in range(height))

    def some_nestings(self, highest: int, tall: int) -> Iterator[Versions]:
        """Every low chain, and so many of 13 headers, those of one version first."""
        yield from nestings(highest)
        yield from ((4,) * 13, (6,) * 13)[:tall]
        for _ in range(2, tall):
            yield self.versions(13)

    def header(self, version: int, **fields: object) -> Packet:
        """A header with fields by chance, but for those given and those that scapy works out."""
        if version == 6:
            given = {"src": socket.inet_ntop(socket.AF_INET6, self.some_bytes(16)), "dst": socket.inet_ntop(socket.AF_INET6, self.some_bytes(16)),
                     "tc": self.random.randrange(256), "fl": self.random.randrange(1 << 20), "hlim": self.random.randrange(256)}
            return IPv6(**{**given, **fields})
        given = {"src": socket.inet_ntoa(self.some_bytes(4)), "dst": socket.inet_ntoa(self.some_bytes(4)), "tos": self.random.randrange(256),
                 "id": self.random.randrange(1 << 16), "ttl": self.random.randrange(256), "flags": self.random.choice((0, 2))}
        return IP(**{**given, **fields})

    def wrapped(self, version: int, following: int, inside: bytes, **fields: object) -> bytes:
        """One more header around bytes that are there already."""
        number = {"nh": following} if version == 6 else {"proto": following}
        header = self.header(version, **{**number, **fields})
        header.add_payload(Raw(inside))
        return bytes(header)

    def nested(self, versions: Sequence[int], part: bytes, fields: Fields = NONE, tails: Dict[int, bytes] = NONE, last: int = EXPERIMENT) -> bytes:
        """A chain header by header from inside, with bytes after some of its packets inside what holds them."""
        packet, following = part, last
        for at in reversed(range(len(versions))):
            packet = self.wrapped(versions[at], following, packet, **fields.get(at, {})) + tails.get(at, b"")
            following = ANNOUNCES[versions[at]]
        return packet

    def payload(self, version: int) -> Packet:
        """Something that ends a chain after a header of this version."""
        data = Raw(self.some_bytes(self.random.randrange(40)))
        echo = ICMP() if version == 4 else ICMPv6EchoRequest()
        inner = self.header(self.random.choice((4, 6))) / UDP() / data
        return self.random.choice((UDP(sport=9, dport=9) / data, TCP(sport=9, dport=9) / data, echo / data, GRE() / inner))

    def options(self, length: int) -> List[IPOption]:
        """Options of this many bytes, 0 to 40; scapy pads them to whole words."""
        options: List[IPOption] = []
        while length > 0:
            size, option = self.random.choice([choice for choice in self.option_choices(length) if choice[0] <= length])
            options.append(option())
            length -= size
        return options

    def option_choices(self, length: int) -> List[Tuple[int, Callable[[], IPOption]]]:
        """Options with their lengths; the end of the list only where it is the last byte."""
        routers, value = self.random.randrange(1, 10), self.random.randrange(20)
        return [
            (1, IPOption_EOL if length == 1 else IPOption_NOP),
            (4, IPOption_Router_Alert),
            (4, IPOption_Stream_Id),
            (4, IPOption_MTU_Probe),
            (3 + 4 * routers, lambda: IPOption_RR(routers=["192.0.2.1"] * routers)),
            (2 + value, lambda: IPOption(copy_flag=1, optclass=2, option=30, value=self.some_bytes(value))),
        ]

    def stacked(self, versions: Sequence[int], options: bool) -> bytes:
        """A chain as scapy stacks it itself, which fills in what announces what."""
        packet = self.payload(versions[-1])
        for version in reversed(versions):
            fields = {"options": self.options(4 * self.random.randrange(11))} if options and version == 4 and self.random.random() < 0.3 else {}
            header = self.header(version, **fields)
            # what `/` does, without its copies
            header.add_payload(packet)
            packet = header
        return bytes(packet)
