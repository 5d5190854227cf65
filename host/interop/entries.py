"""The entries of docs/DIFFERENCES.md on scapy: each says of a difference whether it is one of its own, for both sides."""
import struct
from typing import Callable, NamedTuple

from compare import Difference
from kinds import ELEMENT_SIZES, LAST_ADDRESS, LISTED_CAUSES, element_place, reserved_bits

QUIET_BIT = 0x00400000


def turned_round(bits: int) -> int:
    return sum((bits >> 8 * i & 0xFF) << 24 - 8 * i for i in range(4))


def is_signalling(bits: int) -> bool:
    return bits & 0x7F800000 == 0x7F800000 and bits & 0x007FFFFF != 0 and bits & QUIET_BIT == 0


def is_refused_with(d: Difference, refusal: int) -> bool:
    """We refuse with this number, and scapy reads or writes it."""
    return d.name == "reading" and d.ours == f"refused {refusal}" and d.theirs in ("I", "S", "U")


def both_numbers(d: Difference) -> bool:
    return isinstance(d.ours, int) and isinstance(d.theirs, int)


def bit_string(d: Difference) -> bool:
    return d.type_id == 7 and d.field == "bits" and both_numbers(d) and d.theirs == turned_round(d.ours)


def signalling_nan(d: Difference) -> bool:
    """As it is read, and as scapy writes it again: the octet with the quiet bit is the third."""
    if d.type_id != 13 or not both_numbers(d):
        return False
    if d.place is None:
        return d.field == "bits" and is_signalling(d.ours) and d.theirs == d.ours | QUIET_BIT
    if element_place(d.frame, d.place) != 2:
        return False
    bits = struct.unpack_from("<I", d.frame, d.place - 2)[0]
    return is_signalling(bits) and d.theirs == d.ours | QUIET_BIT >> 16


def changed_mark(d: Difference) -> bool:
    """Our cause has the mark as its highest bit."""
    i, _, field = d.name.partition(".")
    if d.type_id != 70 or field not in ("cause", "changed"):
        return False
    cause, rest = d.our_reading.get(f"{i}.cause", 0), d.their_reading.get(f"{i}.cause", 0)
    return cause == rest + 128 and d.their_reading.get(f"{i}.changed") == 1


def no_objects(d: Difference) -> bool:
    """scapy has one object with no octets in place of none, and counts it when it writes."""
    is_empty = d.our_reading.get("count") == 0 and d.their_reading.get("count") == 0
    return is_empty and d.name in ("objects", "octet 7") and (d.ours, d.theirs) == (0, 1)


def reserved_bit_of_s(d: Difference) -> bool:
    return d.name == "reading" and (d.ours, d.theirs) == ("S", "not read") and d.frame[4] & 1 == 1


def reserved_bits_written(d: Difference) -> bool:
    if d.place is None:
        return False
    reserved = reserved_bits(d.frame, d.place)
    return reserved != 0 and (d.ours ^ d.theirs) & ~reserved == 0 and d.ours & reserved == 0 and d.theirs == d.frame[d.place]


def control_octets(d: Difference) -> bool:
    if d.theirs == "S":
        return is_refused_with(d, 7) and d.frame[2:4] != b"\x01\x00"
    return d.theirs == "U" and is_refused_with(d, 6) and d.frame[3:6] != b"\0\0\0"


def octets_the_count_needs(d: Difference) -> int:
    """Those after the ASDU's header."""
    count, size = d.frame[7] & 0x7F, ELEMENT_SIZES[d.frame[6]]
    return 3 + count * size if d.frame[7] & 0x80 else count * (3 + size)


def count_not_kept(d: Difference) -> bool:
    return is_refused_with(d, 12) and octets_the_count_needs(d) != len(d.frame) - 12


def length_too_large(d: Difference) -> bool:
    return is_refused_with(d, 3) and d.frame[1] > 253


def unlisted_cause(d: Difference) -> bool:
    return is_refused_with(d, 10) and d.their_reading["cause"] not in LISTED_CAUSES


def type_not_carried(d: Difference) -> bool:
    return is_refused_with(d, 11) and d.type_id not in ELEMENT_SIZES


def empty_sequence(d: Difference) -> bool:
    is_empty = d.their_reading.get("count") == 0 or d.type_id == 102
    return is_refused_with(d, 13) and d.their_reading["sq"] == 1 and is_empty


def address_past_the_last(d: Difference) -> bool:
    last = d.their_reading.get("0.address", 0) + d.their_reading.get("count", 0) - 1
    return is_refused_with(d, 14) and d.their_reading["sq"] == 1 and last > LAST_ADDRESS


def cut_value(d: Difference) -> bool:
    if not both_numbers(d):
        return False
    if d.field == "value" and d.type_id == 5:
        return d.theirs > 63 and d.ours == d.theirs - 128 or d.theirs < -64 and d.ours == d.theirs + 64
    if d.field == "seq":
        return d.theirs > 31 and d.ours == d.theirs & 31
    return d.field == "address" and d.theirs > LAST_ADDRESS and d.ours == d.theirs & LAST_ADDRESS


def more_after_the_frame(d: Difference) -> bool:
    return is_refused_with(d, 4) and len(d.frame) > 2 + d.frame[1]


def never_ends(d: Difference) -> bool:
    if (d.name, d.ours, d.theirs) != ("reading", "refused 12", "never ends"):
        return False
    return d.frame[6] == 102 and d.frame[7] & 0x80 == 0x80


class Entry(NamedTuple):
    name: str
    title: str
    explains: Callable[[Difference], bool]


ENTRIES = (
    Entry("D23", "the octets of a bit string the other way round", bit_string),
    Entry("D24", "a signalling NaN becomes a quiet one", signalling_nan),
    Entry("D25", "the octet of type 70 in two fields", changed_mark),
    Entry("D26", "no objects are read as one that is empty", no_objects),
    Entry("D27", "the S frame's reserved bit", reserved_bit_of_s),
    Entry("D28", "reserved bits are written again", reserved_bits_written),
    Entry("D29", "control octets are not checked", control_octets),
    Entry("D30", "the count is not held to the objects", count_not_kept),
    Entry("D31", "L of 254 and 255", length_too_large),
    Entry("D32", "causes that are not listed", unlisted_cause),
    Entry("D33", "types that we do not carry", type_not_carried),
    Entry("D34", "sequences with nothing in them", empty_sequence),
    Entry("D35", "addresses run past three octets", address_past_the_last),
    Entry("D36", "writing cuts what does not fit", cut_value),
    Entry("D37", "octets after the frame", more_after_the_frame),
    Entry("D38", "type 102 in a sequence with octets is never read to its end", never_ends),
)


def entry_of(d: Difference) -> Entry | None:
    """The one entry that explains it: with two that both say they do, the list is wrong."""
    found = [entry for entry in ENTRIES if entry.explains(d)]
    return found[0] if len(found) == 1 else None
