"""Makes the records for answers.c, the kind of each, and the same packets as a capture file for tshark.

Usage: make.py PATH SEED, which writes PATH.records, PATH.kinds and PATH.pcap.
"""

import random
import struct
import sys
from typing import List, Tuple

import kinds_changed
import kinds_right
import kinds_wrong
from chains import Maker
from readings import Record, packed

# the link type for packets that start with a header of IPv4 or IPv6
RAW = 101
LONGEST = 1 << 17


def made(seed: str) -> List[Tuple[str, Record]]:
    """Every kind has its own source of chance, so that a change to one leaves the others."""
    cases = []
    for kind, make in {**kinds_right.KINDS, **kinds_wrong.KINDS, **kinds_changed.KINDS}.items():
        cases += [(kind, record) for record in make(Maker(f"{seed} {kind}"))]
    # in a mixed order a planted fault is met soon
    random.Random(seed).shuffle(cases)
    return cases


def write_capture(path: str, cases: List[Tuple[str, Record]]) -> None:
    with open(path, "wb") as file:
        file.write(struct.pack("<IHHiIII", 0xA1B2C3D4, 2, 4, 0, 0, LONGEST, RAW))
        for at, (_, record) in enumerate(cases):
            file.write(struct.pack("<IIII", at, 0, len(record.packet), len(record.packet)) + record.packet)


def main() -> None:
    path, seed = sys.argv[1:]
    cases = made(seed)
    with open(f"{path}.records", "wb") as file:
        file.writelines(packed(record) for _, record in cases)
    with open(f"{path}.kinds", "w", encoding="utf-8") as file:
        file.writelines(f"{kind}\n" for kind, _ in cases)
    write_capture(f"{path}.pcap", cases)


main()
