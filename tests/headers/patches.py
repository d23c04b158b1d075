"""Changes to the bytes of packets that scapy made."""

from typing import Collection, List, Sequence

from scapy.utils import checksum

HEADER_LENGTH = {4: 20, 6: 40}
# where a header says its packet's length
LENGTH_AT = {4: 2, 6: 4}
FLAGS_AT = 6
CHECKSUM_AT = 10
# what can be broken in a header that has all its bytes
BREAKS = {4: (62, 63, 64, 65, 66), 6: (62, 64)}


def starts(versions: Sequence[int]) -> List[int]:
    """Where the headers start, if none has options."""
    return [sum(HEADER_LENGTH[version] for version in versions[:at]) for at in range(len(versions))]


def put(packet: bytes, at: int, value: bytes) -> bytes:
    return packet[:at] + value + packet[at + len(value) :]


def word(packet: bytes, at: int) -> int:
    return int.from_bytes(packet[at : at + 2], "big")


def put_word(packet: bytes, at: int, value: int) -> bytes:
    return put(packet, at, (value % 65536).to_bytes(2, "big"))


def mended(packet: bytes, start: int, length: int = 20) -> bytes:
    """The right checksum for the header of IPv4 at this place, by scapy's sum."""
    blank = put_word(packet, start + CHECKSUM_AT, 0)
    return put_word(packet, start + CHECKSUM_AT, checksum(blank[start : start + length]))


def with_version(packet: bytes, start: int, nibble: int) -> bytes:
    return put(packet, start, bytes([nibble << 4 | packet[start] & 15]))


def with_words(packet: bytes, start: int, words: int) -> bytes:
    """Another header length of IPv4."""
    return put(packet, start, bytes([packet[start] & 0xF0 | words]))


def broken(packet: bytes, start: int, version: int, breaks: Collection[int]) -> bytes:
    """A header broken in one way or in several; its checksum is right but where 65 is asked for."""
    if 62 in breaks:
        packet = with_version(packet, start, version + 1)
    if 64 in breaks:
        packet = put_word(packet, start + LENGTH_AT[version], 65535)
    if version == 6:
        return packet
    if 63 in breaks and 64 in breaks:
        packet = with_words(packet, start, 4)
    elif 63 in breaks:
        packet = put_word(packet, start + LENGTH_AT[4], 19)
    if 66 in breaks:
        packet = put_word(packet, start + FLAGS_AT, 0x2000)
    packet = mended(packet, start)
    if 65 in breaks:
        packet = put_word(packet, start + CHECKSUM_AT, word(packet, start + CHECKSUM_AT) ^ 0x0100)
    return packet
