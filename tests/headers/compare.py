"""Compares the answers to all records with the readings of another program, and counts them.

Usage: compare.py PROGRAM PATH [FAULT]; PROGRAM is reader (the independent reader), tshark or scapy; PATH.records, PATH.kinds, PATH.answers and,
for tshark, PATH.tshark must be there. With a fault the readings of the independent reader with this fault stand in the place of the answers, or
of the independent reader where it is the PROGRAM; the first mismatch ends that. Exit status: 0 where all agree, 1 where there is a mismatch.
"""

import sys
from collections import Counter
from typing import Callable, Iterator, NamedTuple, Optional, Tuple

import tshark_reading
from faults import faulty
from readings import ANSWER_LENGTH, Reading, Record, Refused, Stack, line_of, unpacked, with_room

# how many of a kind scapy takes apart, which is slow at it; the records are in a mixed order
SCAPY_SAMPLE = 1000
SHOWN = 5
BROKEN = range(61, 67)
HIGHEST = 12


class Case(NamedTuple):
    kind: str
    record: Record
    answer: str
    tshark: str


# the reading of a case, or None where it is not asked for
Program = Callable[[Case], Optional[Reading]]


def cases(path: str, program: str) -> Iterator[Case]:
    with open(f"{path}.kinds", encoding="utf-8") as kinds, open(f"{path}.answers", encoding="utf-8") as answers:
        shown = open(f"{path}.tshark", encoding="utf-8") if program == "tshark" else None
        for record in unpacked(f"{path}.records"):
            yield Case(next(kinds).rstrip("\n"), record, next(answers).rstrip("\n"), next(shown) if shown else "")
        if next(answers, None) is not None or shown and next(shown, None) is not None:
            raise ValueError("more answers than records")


def usual(record: Record) -> bool:
    """Whether the answer depends on the packet."""
    return 1 <= record.h <= HIGHEST and record.answer_len >= ANSWER_LENGTH


def by_reader(fault: str) -> Program:
    reader = faulty(fault)
    return lambda case: reader.read(case.record.h, case.record.packet, case.record.out_len)


def by_tshark(case: Case) -> Optional[Reading]:
    fields = tshark_reading.fields_of(case.tshark)
    if not usual(case.record) or tshark_reading.taken_for_ppp(fields):
        return None
    return with_room(tshark_reading.reading_of(fields, case.record.h), case.record.out_len)


def by_scapy() -> Program:
    """Of right chains alone: scapy tests nothing."""
    import scapy_reading

    reader, taken = faulty("none"), Counter()

    def program(case: Case) -> Optional[Reading]:
        if not usual(case.record) or taken[case.kind] == SCAPY_SAMPLE:
            return None
        right = reader.read(case.record.h, case.record.packet, case.record.out_len)
        if isinstance(right, Refused) and right.refusal in BROKEN:
            return None
        taken[case.kind] += 1
        return with_room(scapy_reading.reading_of(case.record.packet, case.record.h), case.record.out_len)

    return program


def unmet(met: Counter) -> Iterator[str]:
    """What the records must meet, so that the comparison is worth something: each refusal at each header, and stacks of each height."""
    for refusal in BROKEN:
        yield from (f"refusal {refusal} at header {header}" for header in range(HIGHEST + 1) if not met[refusal, header])
    yield from (f"refusal 67 at header {header}" for header in range(1, HIGHEST + 1) if not met[67, header])
    yield from (f"refusal {refusal}" for refusal in (1, 9) if not met[refusal, 0])
    yield from (f"a stack of {height}" for height in range(1, HIGHEST + 1) if not met[0, height])


def what(reading: Reading) -> Tuple[int, int]:
    return (0, len(reading.protocols)) if isinstance(reading, Stack) else (reading.refusal, reading.header)


def report(program: str, kinds: Counter, met: Counter) -> None:
    print(f"compared with {program}: {sum(kinds.values()):,} records")
    for kind, count in sorted(kinds.items()):
        print(f"{count:10,} {kind}")
    refusals = Counter()
    for (refusal, _), count in met.items():
        refusals[refusal] += count
    texts = (f"{count:,} {f'refused {refusal}' if refusal else 'stacks'}" for refusal, count in sorted(refusals.items()))
    print(f"    of them {', '.join(texts)}")


def compare(program: str, path: str, fault: Optional[str]) -> bool:
    reading_by = {"reader": lambda: by_reader(fault or "none"), "tshark": lambda: by_tshark, "scapy": by_scapy}[program]()
    answers_by = by_reader(fault) if fault and program != "reader" else None
    kinds, met, mismatches = Counter(), Counter(), 0
    for case in cases(path, program):
        reading = reading_by(case)
        if reading is None:
            continue
        expected = line_of(reading, case.record)
        answer = line_of(answers_by(case), case.record) if answers_by else case.answer
        if answer != expected:
            mismatches += 1
            print(f"mismatch: {case.kind}: h {case.record.h}, packet {case.record.packet[:600].hex()}")
            print(f"    answer  {answer}\n    {program:7} {expected}")
        if mismatches == (1 if fault else SHOWN):
            return False
        kinds[case.kind] += 1
        met[what(reading)] += 1
    report(program, kinds, met)
    missing = list(unmet(met)) if program == "reader" else []
    print("".join(f"never met: {text}\n" for text in missing), end="")
    return mismatches == 0 and not missing


if __name__ == "__main__":
    sys.exit(0 if compare(sys.argv[1], sys.argv[2], sys.argv[3] if len(sys.argv) > 3 else None) else 1)
