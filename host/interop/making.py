"""Frames to compare: at random, and at the limits of every field."""
import random
import struct
from dataclasses import dataclass, field, replace
from typing import Iterator

from kinds import LAST_ADDRESS, LAST_NUMBER, LISTED_CAUSES, Kind

# Elements at their limits, by type; a quality octet of each is clear, full and in between.
QUALITIES = (b"\x00", b"\xff", b"\xf1", b"\x0e", b"\x80", b"\x40", b"\x20", b"\x10", b"\x01")
I16 = tuple(struct.pack("<h", n) for n in (0, 1, -1, 32767, -32768, 256, -256))
I32 = tuple(struct.pack("<i", n) for n in (0, 1, -1, 2**31 - 1, -(2**31), 1000, 65536))
U32 = tuple(struct.pack("<I", n) for n in (0, 1, 0x80, 0x80000000, 0xFFFFFFFF, 0x01020304))
# Zeros, ones, infinities, the least and the greatest, a quiet and two signalling NaNs.
F32 = tuple(struct.pack("<I", n) for n in (
    0, 0x80000000, 0x3F800000, 0xBF800000, 0x7F800000, 0xFF800000, 1, 0x007FFFFF, 0x00800000, 0x7F7FFFFF,
    0x7FC00000, 0xFFFFFFFF, 0x7F800001, 0xFFBFFFFF,
))
STEPS = tuple(bytes([n]) for n in (0x00, 0x3F, 0x40, 0x7F, 0x80, 0xBF, 0xC0, 0xFF))
OCTETS = tuple(bytes([n]) for n in (0, 1, 2, 3, 20, 0x1F, 0x20, 0x7F, 0x80, 0x81, 0xC0, 0xFF))


def with_quality(values: tuple[bytes, ...]) -> tuple[bytes, ...]:
    return tuple(value + quality for value in values for quality in QUALITIES)


EXTREMES = {
    1: QUALITIES, 3: (*QUALITIES, b"\x02", b"\x03"), 5: with_quality(STEPS), 7: with_quality(U32), 9: with_quality(I16),
    11: with_quality(I16), 13: with_quality(F32), 15: with_quality(I32), 21: I16, 70: OCTETS, 100: OCTETS,
    101: OCTETS, 102: (b"",),
}


@dataclass(frozen=True)
class Parts:
    """What a frame is made of. A sequence takes its first address; S and U frames take `receive` and `flags`."""

    kind: Kind
    send: int = 0
    receive: int = 0
    flags: int = 0
    test: int = 0
    negative: int = 0
    cause: int = 3
    originator: int = 0
    common: int = 1
    addresses: list[int] = field(default_factory=list)
    elements: list[bytes] = field(default_factory=list)


def objects(parts: Parts) -> bytes:
    addresses = [struct.pack("<I", a)[:3] for a in parts.addresses]
    if parts.kind.sequence:
        return addresses[0] + b"".join(parts.elements)
    return b"".join(a + e for a, e in zip(addresses, parts.elements))


def asdu(parts: Parts) -> bytes:
    count = len(parts.elements) | parts.kind.sequence << 7
    cause = parts.cause | parts.test << 7 | parts.negative << 6
    header = struct.pack("<BBBBH", parts.kind.type_id, count, cause, parts.originator, parts.common)
    return header + objects(parts)


def framed(control: bytes, body: bytes = b"") -> bytes:
    return bytes([0x68, len(control) + len(body)]) + control + body


def frame(parts: Parts) -> bytes:
    if parts.kind.letter == "S":
        return framed(struct.pack("<BBH", 1, 0, parts.receive * 2))
    if parts.kind.letter == "U":
        return framed(bytes([3 | parts.flags, 0, 0, 0]))
    return framed(struct.pack("<HH", parts.send * 2, parts.receive * 2), asdu(parts))


# --- At random ------------------------------------------------------------------------------------


def number(rng: random.Random, last: int) -> int:
    return rng.choice((0, 1, last - 1, last, rng.randint(0, last), rng.randint(0, last)))


def element(rng: random.Random, kind: Kind) -> bytes:
    if rng.random() < 0.3:
        return rng.choice(EXTREMES[kind.type_id])
    return rng.randbytes(kind.element_size)


def how_many(rng: random.Random, kind: Kind) -> int:
    """Few objects in most frames: a full one costs as much as a hundred of these."""
    if rng.random() < 0.04:
        return rng.randint(kind.least_objects, kind.most_objects)
    return rng.randint(1, min(4, kind.most_objects))


def addresses(rng: random.Random, kind: Kind, count: int) -> list[int]:
    if not kind.sequence:
        return [number(rng, LAST_ADDRESS) for _ in range(count)]
    first = number(rng, LAST_ADDRESS - (count - 1))
    return [first + i for i in range(count)]


def random_parts(rng: random.Random, kind: Kind) -> Parts:
    count = how_many(rng, kind) if kind.letter == "I" else 0
    return Parts(
        kind, number(rng, LAST_NUMBER), number(rng, LAST_NUMBER), rng.randrange(64) << 2,
        rng.getrandbits(1), rng.getrandbits(1), rng.choice(LISTED_CAUSES), number(rng, 255), number(rng, 65535),
        addresses(rng, kind, count), [element(rng, kind) for _ in range(count)],
    )


# --- At the limits --------------------------------------------------------------------------------


def of_count(rng: random.Random, kind: Kind, count: int, first: int = 10) -> Parts:
    return Parts(kind, addresses=[first + i for i in range(count)], elements=[element(rng, kind) for _ in range(count)])


def limits_of_i(rng: random.Random, kind: Kind) -> Iterator[Parts]:
    one = of_count(rng, kind, 1)
    yield from (replace(one, elements=[e]) for e in EXTREMES[kind.type_id])
    yield from (replace(one, cause=c, test=t, negative=n) for c in LISTED_CAUSES for t in (0, 1) for n in (0, 1))
    yield from (replace(one, originator=n) for n in (0, 1, 127, 128, 255))
    yield from (replace(one, common=n) for n in (0, 1, 255, 256, 65534, 65535))
    yield from (replace(one, send=n, receive=m) for n, m in ((0, 127), (128, 0), (LAST_NUMBER, 1), (1, LAST_NUMBER)))
    yield from (replace(one, addresses=[a]) for a in (0, 1, 255, 256, 65535, 65536, LAST_ADDRESS))
    for count in {kind.least_objects, 1, 2, 3, kind.most_objects - 1, kind.most_objects}:
        yield of_count(rng, kind, count)
        yield of_count(rng, kind, count, LAST_ADDRESS - max(count - 1, 0))


def limits(rng: random.Random, kind: Kind) -> Iterator[Parts]:
    if kind.letter == "S":
        yield from (Parts(kind, receive=n) for n in (0, 1, 127, 128, 255, 256, LAST_NUMBER - 1, LAST_NUMBER))
    elif kind.letter == "U":
        yield from (Parts(kind, flags=n << 2) for n in range(64))
    else:
        yield from limits_of_i(rng, kind)


def all_parts(rng: random.Random, kind: Kind, count: int) -> Iterator[Parts]:
    yield from limits(rng, kind)
    yield from (random_parts(rng, kind) for _ in range(count))
