"""Faults to plant in the independent reader: with each of them the comparison must fail.

Usage: faults.py, which says their names.
"""

from typing import Callable, Dict

import reader as right
from reader import Reader, Test, field, version
from readings import Reading, Refused, with_room

Fault = Callable[[Reader], None]


def unseen(refusal: int) -> Fault:
    """A test that is left out."""

    def plant(reader: Reader) -> None:
        reader.tests = [test for test in reader.tests if test[0] != refusal]

    return plant


def exchanged(refusal: int) -> Fault:
    """Two refusals exchanged: this one is tested after the next."""

    def plant(reader: Reader) -> None:
        at = [number for number, _ in reader.tests].index(refusal)
        reader.tests[at : at + 2] = reversed(reader.tests[at : at + 2])

    return plant


def instead(refusal: int, test: Test) -> Fault:
    """Another test in the place of the right one."""

    def plant(reader: Reader) -> None:
        reader.tests = [(number, test if number == refusal else other) for number, other in reader.tests]

    return plant


def changed(**attributes: object) -> Fault:
    """Another attribute of the reader."""

    def plant(reader: Reader) -> None:
        vars(reader).update(attributes)

    return plant


def bits_met(bits: int) -> Test:
    """Other bits of the flags and offset than the right ones."""
    return lambda holder, announced, full: version(holder) == 4 and field(holder, 6) & bits != 0


def short_sum(holder: bytes, _announced: object, _full: bool) -> bool:
    return version(holder) == 4 and right.ones_sum(holder[:20]) != 0xFFFF


def rest_where_zero(holder: bytes) -> tuple:
    header, packet = right.lengths(holder)
    return header, len(holder) if packet == 40 and version(holder) == 6 else packet


def behind_hop_by_hop(holder: bytes) -> object:
    following = holder[6] if version(holder) == 6 else holder[9]
    if version(holder) == 6 and following == 0 and len(holder) > 40:
        following = holder[40]
    return right.ANNOUNCED.get(following)


def bound_after_header(reader: Reader) -> None:
    """h is tested only after the outermost header."""
    usual = reader.read

    def read(h: int, packet: bytes, out_len: int) -> Reading:
        refusal = reader.judged(packet, None, False)
        return Refused(refusal, 0, 0) if refusal else usual(h, packet, out_len)

    vars(reader).update(read=read)


FAULTS: Dict[str, Fault] = {
    "bound_after_header": bound_after_header,
    "checksum_unseen": unseen(65),
    "options_not_summed": instead(65, short_sum),
    "length_unseen": unseen(64),
    "wrong_holder": changed(inside=lambda holder, header, packet, rest: rest),
    "inner_must_fill": instead(64, lambda holder, announced, full: right.lengths(holder)[1] != len(holder) and announced is not None
                               or right.lengths(holder)[1] > len(holder)),
    "trailing_refused": instead(64, lambda holder, announced, full: right.lengths(holder)[1] != len(holder) and announced is None
                                or right.lengths(holder)[1] > len(holder)),
    "fragments_pass": unseen(66),
    "offset_unseen": instead(66, bits_met(0x2000)),
    "more_to_come_unseen": instead(66, bits_met(0x1FFF)),
    "top_of_offset_unseen": instead(66, bits_met(0x2FFF)),
    "df_is_fragment": instead(66, bits_met(0x7FFF)),
    "reserved_is_fragment": instead(66, bits_met(0xBFFF)),
    "fragment_header_refused": instead(66, lambda holder, announced, full: right.is_fragment(holder, announced, full)
                                       or version(holder) == 6 and holder[6] == 44),
    "announced_unheld": instead(62, lambda holder, announced, full: version(holder) not in (4, 6)),
    "twenty_for_ipv6": instead(61, lambda holder, announced, full: len(holder) < 20),
    "forty_as_announced": instead(61, lambda holder, announced, full: len(holder) < (40 if announced == 6 or version(holder) == 6 else 20)),
    "exchanged_61_62": exchanged(61),
    "exchanged_62_63": exchanged(62),
    "exchanged_63_64": exchanged(63),
    "exchanged_64_65": exchanged(64),
    "exchanged_65_66": exchanged(65),
    "exchanged_66_67": exchanged(66),
    "upside_down": changed(stacked=lambda protocols, outer: outer + protocols),
    "one_header_too_many": changed(full=lambda outer, h: len(outer) == h + 1),
    "thirteen_allowed": changed(highest=13),
    "part_to_the_end": changed(lengths=lambda holder: (right.lengths(holder)[0], len(holder))),
    "rest_where_zero": changed(lengths=rest_where_zero),
    "hop_by_hop_followed": changed(announced=behind_hop_by_hop),
    "headers_from_one": changed(room=lambda reading, out_len: Refused(reading.refusal, reading.header + 1, reading.start)
                                if isinstance(reading, Refused) else with_room(reading, out_len)),
    "buffer_before_headers": changed(room=lambda reading, out_len: Refused(9, 0, 0) if out_len == 0 else with_room(reading, out_len)),
}


def faulty(fault: str) -> Reader:
    reader = Reader()
    if fault != "none":
        FAULTS[fault](reader)
    return reader


if __name__ == "__main__":
    print("\n".join(FAULTS))
