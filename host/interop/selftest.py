"""Can the comparison fail? A bit or a field of a good frame is changed for one side: all but the reserved bits must show."""
from typing import Iterator

import ours
import theirs
from compare import Case
from kinds import Kind, all_kinds, reserved_bits
from making import Parts, frame
from reading import Reading
from report import Report

# No two octets are the same, and none is at a limit.
PATTERN = bytes((0x21, 0x43, 0x15, 0x32, 0x51))
# In the range of no field.
NO_VALUE = 1 << 40


def sample(kind: Kind) -> bytes:
    """A frame of two objects in plain form."""
    count = 2 if kind.letter == "I" else 0
    elements = [PATTERN[:kind.element_size]] * count if count else []
    made = frame(Parts(kind, 5, 9, 0x40, addresses=[10, 11][:count], elements=elements))
    written = ours.rewrite([made])[0]
    if written is None:
        raise RuntimeError(f"{made.hex()} is refused")
    return written


def flipped(octets: bytes, bit: int) -> bytes:
    changed = bytearray(octets)
    changed[bit // 8] ^= 1 << bit % 8
    return bytes(changed)


def is_reserved(octets: bytes, bit: int) -> bool:
    return bool(reserved_bits(octets, bit // 8) >> bit % 8 & 1)


def is_reported(case: Case) -> bool:
    report = Report()
    report.add("self-test", "", case)
    return not report.is_good and bool(report.unexplained)


def flips_read(octets: bytes, our_reading: Reading) -> Iterator[tuple[str, bool]]:
    """What scapy reads in the flipped frame, against what we read in the good one."""
    for bit in range(8 * len(octets)):
        reported = is_reported(Case(octets, our_reading, theirs.read(flipped(octets, bit))))
        yield f"bit {bit % 8} of octet {bit // 8} read", reported != is_reserved(octets, bit)


def flips_written(octets: bytes, our_reading: Reading) -> Iterator[tuple[str, bool]]:
    for bit in range(8 * len(octets)):
        case = Case(octets, our_reading, our_reading, octets, flipped(octets, bit))
        yield f"bit {bit % 8} of octet {bit // 8} written", is_reported(case)
    yield "our writing missing", is_reported(Case(octets, our_reading, our_reading, None, octets))
    yield "scapy's writing missing", is_reported(Case(octets, our_reading, our_reading, octets, None))
    yield "scapy's writing cut", is_reported(Case(octets, our_reading, our_reading, octets, octets[:-1]))


def changed_fields(octets: bytes, our_reading: Reading) -> Iterator[tuple[str, bool]]:
    """Each of our fields with another value, and missing."""
    their_reading = theirs.read(octets)
    for name in our_reading:
        yield f"{name} changed", is_reported(Case(octets, {**our_reading, name: NO_VALUE}, their_reading))
        rest = {other: value for other, value in our_reading.items() if other != name}
        yield f"{name} missing", is_reported(Case(octets, rest, their_reading))


def trials(kind: Kind) -> Iterator[tuple[str, bool]]:
    """What was done to a frame of this kind, and whether the comparison took it as it must."""
    octets = sample(kind)
    our_reading = ours.read([octets])[0]
    for trial in (flips_read, flips_written, changed_fields):
        for text, is_good in trial(octets, our_reading):
            yield f"{kind}: {octets.hex()}: {text}", is_good


def unseen_counts() -> bool:
    """A list of entries of which none has shown is no success."""
    return not Report().is_good


def run() -> int:
    done = [trial for kind in all_kinds() for trial in trials(kind)]
    failed = [text for text, is_good in done if not is_good]
    for text in failed:
        print(f"self-test: FAILED: {text}")
    print(f"self-test: {len(done)} trials, {len(failed)} failed")
    return 0 if not failed and unseen_counts() else 1
