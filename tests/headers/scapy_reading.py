"""The reading of a right packet that follows from how scapy takes it apart."""

from scapy.layers.inet import IP
from scapy.layers.inet6 import IPv6
from scapy.packet import NoPayload, Packet, Padding

from readings import Reading, Refused, Stack


def part_of(header: Packet) -> bytes:
    """What follows the innermost header in its packet; scapy keeps what follows the packet apart, as padding."""
    inside = header.payload
    # scapy looks for the jumbo option of RFC 2675 here; the length of 0 is to be taken as it stands
    if type(header) is IPv6 and header.plen == 0:
        return b""
    return b"" if isinstance(inside, (NoPayload, Padding)) else inside.original


def reading_of(packet: bytes, h: int) -> Reading:
    layer, start, stack = (IPv6 if packet[0] >> 4 == 6 else IP)(packet), 0, []
    header = layer
    while type(layer) in (IP, IPv6):
        if len(stack) == h:
            return Refused(67, h, start)
        header, start = layer, start + (40 if type(layer) is IPv6 else 4 * layer.ihl)
        stack.insert(0, 1 if type(layer) is IPv6 else 0)
        layer = layer.payload
    part = part_of(header)
    if packet[start : start + len(part)] != part:
        raise ValueError(f"scapy finds another part after the headers: {part.hex()}")
    return Stack(stack, start, start + len(part))
