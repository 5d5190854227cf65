"""Compares the proved library with scapy's IEC 104 layer, field by field, in both directions (docs/INTEROP.md)."""
import argparse
import platform
import random
import re
import sys
from pathlib import Path

import ours
import outside
import reading
import report as reports
import selftest
import theirs
from compare import Case, differences
from entries import ENTRIES, entry_of
from kinds import Kind, all_kinds
from making import Parts, all_parts, frame
from report import Report

ROOT = Path(__file__).resolve().parents[2]


def we_write(report: Report, kind: Kind, parts: list[Parts]) -> None:
    """scapy reads what our writer made. Were a frame not written, it would count as missing."""
    made = [frame(p) for p in parts]
    writings = ours.rewrite(made)
    frames = [written or given for written, given in zip(writings, made)]
    for octets, our_reading, written in zip(frames, ours.read(frames), writings):
        report.add("we write", str(kind), Case(octets, our_reading, theirs.read(octets), written, theirs.rewrite(octets)))


def both_read(report: Report, kind: Kind, parts: list[Parts]) -> None:
    """The octets as they were made, with reserved bits set in some: what both read, and write again."""
    frames = [frame(p) for p in parts]
    for octets, our_reading, written in zip(frames, ours.read(frames), ours.rewrite(frames)):
        report.add("both read", str(kind), Case(octets, our_reading, theirs.read(octets), written, theirs.rewrite(octets)))


def scapy_writes(report: Report, kind: Kind, parts: list[Parts], rng: random.Random) -> None:
    """We read what scapy wrote from fields, and write it again."""
    packets = [theirs.make(rng, p) for p in parts]
    frames = [bytes(packet) for packet in packets]
    for packet, octets, our_reading, written in zip(packets, frames, ours.read(frames), ours.rewrite(frames)):
        report.add("scapy writes", str(kind), Case(octets, our_reading, theirs.given(packet, octets), written, octets))


def outside_the_scope(report: Report, rng: random.Random, count: int) -> None:
    frames = list(outside.octets(rng, count))
    for octets, our_reading in zip(frames, ours.read(frames)):
        report.add("both read", "outside document 01", Case(octets, our_reading, theirs.read(octets)))
    packets = list(outside.packets(rng, count))
    frames = [bytes(packet) for packet in packets]
    for packet, octets, our_reading in zip(packets, frames, ours.read(frames)):
        report.add("scapy writes", "outside document 01", Case(octets, our_reading, theirs.given(packet, octets)))


def compared(seed: int, count: int) -> Report:
    report, rng = Report(), random.Random(seed)
    for kind in all_kinds():
        parts = list(all_parts(rng, kind, count))
        we_write(report, kind, parts)
        both_read(report, kind, parts)
        scapy_writes(report, kind, parts, rng)
    outside_the_scope(report, rng, max(1, count // 5))
    return report


def undocumented() -> list[str]:
    headings = re.findall(r"^## (D\d+) ", (ROOT / "docs/DIFFERENCES.md").read_text(encoding="utf-8"), re.MULTILINE)
    return [entry.name for entry in ENTRIES if entry.name not in headings]


def compare(seed: int, count: int) -> int:
    version = (ROOT / "target/scapy/version").read_text().strip()
    print(f"python3-scapy {version}, Python {platform.python_version()}, seed {seed}, {count} random frames of a kind")
    report = compared(seed, count)
    print("\n".join(reports.lines(report)))
    missing = undocumented()
    if missing:
        print(f"not in docs/DIFFERENCES.md: {' '.join(missing)}")
    return 0 if report.is_good and not missing else 1


def show(octets: bytes) -> int:
    """Both sides on one frame."""
    case = Case(octets, ours.read([octets])[0], theirs.read(octets), ours.rewrite([octets])[0], theirs.rewrite(octets))
    for side, fields, written in (("ours ", case.ours, case.our_writing), ("scapy", case.theirs, case.their_writing)):
        print(f"{side} reads  {reading.shown(fields)}")
        print(f"{side} writes {written.hex() if written else 'nothing'}")
    for d in differences(case):
        entry = entry_of(d)
        print(f"{entry.name if entry else 'unexplained'}: {d.name}: ours {d.ours}, scapy {d.theirs}")
    return 0


def main() -> int:
    parser = argparse.ArgumentParser(description=__doc__)
    parser.add_argument("--seed", type=int, default=104)
    parser.add_argument("--frames", type=int, default=200, help="random frames of each kind and direction")
    parser.add_argument("--self-test", action="store_true", help="flip every bit of a frame of each kind")
    parser.add_argument("--frame", type=bytes.fromhex, help="show both sides on one frame")
    words = parser.parse_args()
    if words.self_test:
        return selftest.run()
    if words.frame is not None:
        return show(words.frame)
    return compare(words.seed, words.frames)


if __name__ == "__main__":
    sys.exit(main())
