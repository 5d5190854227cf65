"""What is compared: the carried types in both layouts, S and U frames, and the limits that document 01 gives."""
from typing import NamedTuple

ELEMENT_SIZES = {1: 1, 3: 1, 5: 2, 7: 5, 9: 3, 11: 3, 13: 5, 15: 5, 21: 2, 70: 1, 100: 1, 101: 1, 102: 0}
# The bits of an element that are read as nothing and written 0; none in the other types.
RESERVED_BITS = {
    1: b"\x0e",
    3: b"\x0c",
    5: b"\0\x0e",
    7: b"\0\0\0\0\x0e",
    9: b"\0\0\x0e",
    11: b"\0\0\x0e",
    13: b"\0\0\0\0\x0e",
}
LISTED_CAUSES = (*range(1, 14), *range(20, 42), *range(44, 48))
ADDRESS_SIZE = 3
LAST_ADDRESS = 0xFFFFFF
LAST_NUMBER = 32767
HEADER_SIZE = 6
# The place in an I frame where its first element starts: after the control octets, the header and an address.
FIRST_ELEMENT = 6 + HEADER_SIZE + ADDRESS_SIZE
MAX_ASDU = 249
MAX_OBJECTS = 127
U_FLAGS = {"start act": 0x04, "start con": 0x08, "stop act": 0x10, "stop con": 0x20, "test act": 0x40, "test con": 0x80}


class Kind(NamedTuple):
    """A kind of frame; `type_id` and `sequence` say something of I frames alone."""

    letter: str
    type_id: int = 0
    sequence: bool = False

    def __str__(self) -> str:
        return f"I {self.type_id} {'sequence' if self.sequence else 'plain'}" if self.letter == "I" else self.letter

    @property
    def element_size(self) -> int:
        return ELEMENT_SIZES[self.type_id]

    @property
    def step(self) -> int:
        """Octets from one element to the next."""
        return self.element_size + (0 if self.sequence else ADDRESS_SIZE)

    @property
    def most_objects(self) -> int:
        if self.sequence:
            return min(MAX_OBJECTS, (MAX_ASDU - HEADER_SIZE - ADDRESS_SIZE) // self.step)
        return min(MAX_OBJECTS, (MAX_ASDU - HEADER_SIZE) // self.step)

    @property
    def least_objects(self) -> int:
        return 1 if self.sequence else 0


def i_kinds() -> list[Kind]:
    """Type 102 has no element, so no sequence."""
    return [Kind("I", t, s) for t in ELEMENT_SIZES for s in (False, True) if not (t == 102 and s)]


def all_kinds() -> list[Kind]:
    return [*i_kinds(), Kind("S"), Kind("U")]


def element_place(frame: bytes, place: int) -> int | None:
    """Which octet of its element the octet at this place of a frame is; None where it is in no element."""
    if place < FIRST_ELEMENT or frame[6] not in ELEMENT_SIZES:
        return None
    kind = Kind("I", frame[6], bool(frame[7] & 0x80))
    offset = (place - FIRST_ELEMENT) % max(kind.step, 1)
    return offset if offset < kind.element_size else None


def reserved_bits(frame: bytes, place: int) -> int:
    """The reserved bits of an octet of a frame, where it is in an element of a carried type."""
    within = element_place(frame, place)
    bits = RESERVED_BITS.get(frame[6]) if within is not None else None
    return bits[within] if bits else 0
