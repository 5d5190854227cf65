"""Two readings of one frame, and two writings of it, compared field by field and octet by octet."""
from dataclasses import dataclass

from reading import Reading, Value, is_refused


@dataclass(frozen=True)
class Difference:
    """One field in which the two sides differ; None where a side has no such field."""

    frame: bytes
    name: str
    ours: Value | None
    theirs: Value | None
    our_reading: Reading
    their_reading: Reading

    @property
    def type_id(self) -> Value | None:
        return self.their_reading.get("type")

    @property
    def field(self) -> str:
        """The name without the number of the object."""
        return self.name.rpartition(".")[2]

    @property
    def place(self) -> int | None:
        """The octet's place, where two writings differ in an octet."""
        return int(self.name.removeprefix("octet ")) if self.name.startswith("octet ") else None


@dataclass(frozen=True)
class Case:
    """A frame, both readings of it and, where they are to be the same, both writings of what was read."""

    frame: bytes
    ours: Reading
    theirs: Reading
    our_writing: bytes | None = None
    their_writing: bytes | None = None

    def difference(self, name: str, ours: Value | None, theirs: Value | None) -> Difference:
        return Difference(self.frame, name, ours, theirs, self.ours, self.theirs)


def verdict(reading: Reading) -> Value:
    return reading["refused"] if is_refused(reading) else reading["frame"]


def differing_fields(case: Case) -> list[Difference]:
    """A frame that both refuse is no difference: scapy's refusals have no numbers."""
    if is_refused(case.ours) and is_refused(case.theirs):
        return []
    if is_refused(case.ours) or is_refused(case.theirs):
        return [case.difference("reading", verdict(case.ours), verdict(case.theirs))]
    pairs = {name: (case.ours.get(name), case.theirs.get(name)) for name in [*case.ours, *case.theirs]}
    return [case.difference(name, a, b) for name, (a, b) in pairs.items() if a != b]


def hex_or_none(octets: bytes | None) -> str | None:
    return None if octets is None else octets.hex()


def is_missing(writing: bytes | None, other: bytes | None, reading: Reading) -> bool:
    """A side that reads a frame must write it; that it does not read it is a difference of reading."""
    return writing is None and other is not None and not is_refused(reading)


def differing_octets(case: Case) -> list[Difference]:
    ours, theirs = case.our_writing, case.their_writing
    is_one_missing = is_missing(ours, theirs, case.ours) or is_missing(theirs, ours, case.theirs)
    if ours is None or theirs is None:
        return [case.difference("written", hex_or_none(ours), hex_or_none(theirs))] if is_one_missing else []
    if len(ours) != len(theirs):
        return [case.difference("written", ours.hex(), theirs.hex())]
    return [case.difference(f"octet {i}", a, b) for i, (a, b) in enumerate(zip(ours, theirs)) if a != b]


def differences(case: Case) -> list[Difference]:
    return differing_fields(case) + differing_octets(case)
