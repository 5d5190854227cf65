"""What was compared, and what came of it."""
from collections import Counter
from dataclasses import dataclass, field

import reading
from compare import Case, Difference, differences
from entries import ENTRIES, entry_of

# How many of the differences that no entry explains are shown, and how many digits of a frame beside its entry.
SHOWN = 10
LONGEST_SHOWN = 64


@dataclass
class Found:
    """The frames of an entry by direction, and the difference in the smallest of them."""

    smallest: Difference
    frames: Counter[str] = field(default_factory=Counter)

    def add(self, direction: str, d: Difference) -> None:
        self.frames[direction] += 1
        self.smallest = min(self.smallest, d, key=lambda d: (len(d.frame), d.frame))


class Report:
    def __init__(self) -> None:
        self.frames: Counter[tuple[str, str]] = Counter()
        self.fields = 0
        self.found: dict[str, Found] = {}
        self.unexplained: list[Difference] = []

    def add(self, direction: str, kind: str, case: Case) -> None:
        self.frames[direction, kind] += 1
        self.fields += len({*case.ours, *case.theirs})
        firsts: dict[str, Difference] = {}
        for d in differences(case):
            entry = entry_of(d)
            if entry is None:
                self.unexplained.append(d)
            else:
                firsts.setdefault(entry.name, d)
        for name, d in firsts.items():
            self.found.setdefault(name, Found(d)).add(direction, d)

    @property
    def unseen(self) -> list[str]:
        return [entry.name for entry in ENTRIES if entry.name not in self.found]

    @property
    def is_good(self) -> bool:
        return not self.unexplained and not self.unseen


def shown_difference(d: Difference) -> str:
    octets = d.frame.hex()
    start = octets if len(octets) <= LONGEST_SHOWN else f"{octets[:LONGEST_SHOWN]}.. ({len(d.frame)} octets)"
    return f"{start}: {d.name}: ours {d.ours}, scapy {d.theirs}"


def table(report: Report) -> list[str]:
    directions = list(dict.fromkeys(direction for direction, _ in report.frames))
    kinds = list(dict.fromkeys(kind for _, kind in report.frames))
    rows = [["frames", *directions]]
    rows += [[kind, *(str(report.frames[d, kind] or "-") for d in directions)] for kind in kinds]
    rows += [["all", *(str(sum(report.frames[d, kind] for kind in kinds)) for d in directions)]]
    return [f"{row[0]:<18}" + "".join(f"{cell:>14}" for cell in row[1:]) for row in rows]


def explained(report: Report) -> list[str]:
    lines = []
    for entry in ENTRIES:
        found = report.found.get(entry.name)
        if found:
            counts = ", ".join(f"{direction} {count}" for direction, count in found.frames.items())
            lines += [f"{entry.name} {entry.title}: {counts}", f"    smallest {shown_difference(found.smallest)}"]
    return lines


def unexplained(report: Report) -> list[str]:
    lines = []
    for d in report.unexplained[:SHOWN]:
        lines += [shown_difference(d), f"  frame {d.frame.hex()}"]
        lines += [f"  ours  {reading.shown(d.our_reading)}", f"  scapy {reading.shown(d.their_reading)}"]
    return lines


def lines(report: Report) -> list[str]:
    return [
        *table(report),
        f"{sum(report.frames.values())} frames, {report.fields} fields",
        *explained(report),
        f"entries that did not show: {' '.join(report.unseen) or 'none'}",
        *unexplained(report),
        f"differences that no entry explains: {len(report.unexplained)}",
    ]
