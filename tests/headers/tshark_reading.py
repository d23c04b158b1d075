"""The reading of a packet that follows from the fields that tshark shows of it.

Usage: tshark_reading.py PATH, which has tshark take PATH.pcap apart and writes the fields to PATH.tshark, a line for each packet.
"""

import subprocess
import sys
from typing import Dict, Iterator, List, NamedTuple, Optional

from readings import Reading, Refused, Stack

# what tshark is asked for; a field of IPv4 has a value for each header of IPv4 that it meets, and so on; ip.version has one for either
FIELDS = ("frame.len", "frame.protocols", "ip.version", "ip.hdr_len", "ip.len", "ip.flags.mf", "ip.frag_offset", "ip.proto", "ip.checksum.status",
          "ipv6.plen", "ipv6.nxt")
# each fragment by itself, lengths of 0 as they stand, and checksums looked at
SETTINGS = ("ip.defragment:FALSE", "ipv6.defragment:FALSE", "ip.tso_support:FALSE", "ip.check_checksum:TRUE")
ANNOUNCED = {"4": "ip", "41": "ipv6"}
VERSION = {"ip": "4", "ipv6": "6"}
GOOD = "1"

Fields = Dict[str, List[str]]


class Header(NamedTuple):
    """One header as tshark shows it: its name, its bytes and its packet's, what it announces, and what is wrong with it."""

    name: str
    header: int
    packet: int
    announced: Optional[str]
    good_checksum: bool
    fragment: bool


def fields_of(line: str) -> Fields:
    return {name: values.split(",") if values else [] for name, values in zip(FIELDS, line.rstrip("\n").split("\t"))}


def taken_for_ppp(fields: Fields) -> bool:
    """In a raw capture tshark takes a packet with certain bytes at its front, which chance may put there, for one of PPP."""
    return fields["frame.protocols"][0].startswith("raw:ppp")


def shown(fields: Fields, name: str, index: int, missing: str = "0") -> str:
    """A field of one of the headers; tshark leaves out what it gives up before."""
    values = fields[name]
    return values[index] if index < len(values) else missing


def header_of(fields: Fields, name: str, index: int) -> Header:
    if name == "ipv6":
        return Header(name, 40, 40 + int(shown(fields, "ipv6.plen", index)), ANNOUNCED.get(shown(fields, "ipv6.nxt", index)), True, False)
    good_checksum = shown(fields, "ip.checksum.status", index) == GOOD
    fragment = (shown(fields, "ip.flags.mf", index), shown(fields, "ip.frag_offset", index)) != ("0", "0")
    header, packet = int(shown(fields, "ip.hdr_len", index)), int(shown(fields, "ip.len", index))
    return Header(name, header, packet, ANNOUNCED.get(shown(fields, "ip.proto", index)), good_checksum, fragment)


def headers(fields: Fields) -> Iterator[Header]:
    """The headers from outside, as long as one follows another."""
    met = {"ip": 0, "ipv6": 0}
    for name in fields["frame.protocols"][0].split(":")[1:]:
        if name not in met:
            return
        yield header_of(fields, name, met[name])
        met[name] += 1


def judged(header: Optional[Header], version: str, announced: Optional[str], room: int) -> int:
    """The refusal by what tshark shows of the header, or 0; the version is "" and the header None where it shows none."""
    if room < (40 if version == "6" else 20):
        return 61
    if header is None or version != VERSION[header.name] or announced not in (None, header.name):
        return 62
    if header.header < 20 or header.packet < header.header:
        return 63
    if header.packet > room:
        return 64
    if not header.good_checksum:
        return 65
    return 66 if header.fragment else 0


def reading_of(fields: Fields, h: int) -> Reading:
    start, room, announced, stack = 0, int(fields["frame.len"][0]), None, []
    following = headers(fields)
    while True:
        header = next(following, None)
        refusal = judged(header, shown(fields, "ip.version", len(stack), ""), announced, room) or (67 if len(stack) == h else 0)
        if refusal:
            return Refused(refusal, len(stack), start)
        stack.insert(0, 1 if header.name == "ipv6" else 0)
        if header.announced is None:
            return Stack(stack, start + header.header, start + header.packet)
        start, room, announced = start + header.header, header.packet - header.header, header.announced


def main() -> int:
    path = sys.argv[1]
    command = ["tshark", "-r", f"{path}.pcap", "-n", "-T", "fields", "-E", "occurrence=a", "-E", "aggregator=,"]
    for setting in SETTINGS:
        command += ["-o", setting]
    for field in FIELDS:
        command += ["-e", field]
    with open(f"{path}.tshark", "w", encoding="utf-8") as shown:
        return subprocess.run(command, stdout=shown, stderr=subprocess.DEVNULL, check=False).returncode


if __name__ == "__main__":
    sys.exit(main())
