"""Frames that document 01 refuses or does not write: as octets for both to read, and as scapy writes them."""
import random
from typing import Iterator

from scapy.contrib.scada import iec104
from scapy.packet import Packet

import theirs
from kinds import ELEMENT_SIZES, LAST_ADDRESS, LISTED_CAUSES, Kind, all_kinds, i_kinds
from making import Parts, frame, of_count, random_parts

SINGLE_POINTS = Kind("I", 1, True)
COUNTERS = Kind("I", 15)
# A reserved bit, an octet after the frame, an object without its element, type 102 in a sequence with an octet.
SMALLEST = ("680401000300", "68040300000000", "680d000000000101030001000a0000", "680e0000000066810300010000000000")


# --- Octets ---------------------------------------------------------------------------------------


def with_reserved_bit(octets: bytes) -> bytes:
    return octets[:4] + bytes([octets[4] | 1]) + octets[5:]


def with_its_length(octets: bytes) -> bytes:
    """The frame with the L that fits it."""
    return octets[:1] + bytes([len(octets) - 2]) + octets[2:]


def octets(rng: random.Random, count: int) -> Iterator[bytes]:
    yield from map(bytes.fromhex, SMALLEST)
    for _ in range(count):
        yield with_reserved_bit(frame(random_parts(rng, Kind("S"))))
        for kind in i_kinds():
            two = frame(of_count(rng, kind, 2))
            yield from (with_its_length(two[:-1]), with_its_length(two + b"\0"))
        yield from (frame(random_parts(rng, kind)) + rng.randbytes(1) for kind in all_kinds())


# --- Packets of scapy -----------------------------------------------------------------------------


def packet(rng: random.Random, parts: Parts, **changes: object) -> Packet:
    """A packet whose header has these fields in place of its own."""
    made = theirs.make(rng, parts)
    for name, value in changes.items():
        setattr(made, name, value)
    return made


def with_object(rng: random.Random, kind: Kind, **changes: object) -> Packet:
    """A packet with one object, which has these fields in place of its own."""
    made = theirs.make(rng, of_count(rng, kind, 1))
    for name, value in changes.items():
        setattr(made.io[0], name, value)
    return made


def control_octets(rng: random.Random) -> Iterator[Packet]:
    yield iec104.IEC104_S_Message(octet_1=rng.randrange(1, 64) << 2 | 1, rx_seq_num=rng.randrange(32768))
    yield iec104.IEC104_S_Message(octet_2=rng.randrange(1, 256))
    for octet in ("octet_2", "octet_3", "octet_4"):
        yield iec104.IEC104_U_Message(testfr_act=1, **{octet: rng.randrange(1, 256)})


def headers(rng: random.Random) -> Iterator[Packet]:
    one = of_count(rng, rng.choice(i_kinds()), 1)
    yield packet(rng, one, cot=rng.choice([c for c in range(64) if c not in LISTED_CAUSES]))
    yield packet(rng, one, num_io=rng.randint(2, 127))
    yield packet(rng, of_count(rng, SINGLE_POINTS, 2, LAST_ADDRESS))
    other = rng.choice([t for t in iec104.IEC104_IO_WITH_IOA_CLASSES if t not in ELEMENT_SIZES])
    yield iec104.IEC104_I_Message_SingleIOA(cot=3, io=[iec104.IEC104_IO_WITH_IOA_CLASSES[other]()])


def too_many(rng: random.Random) -> Iterator[Packet]:
    """Counts above 127, and an L of 254 or 255, with a count that fits its seven bits and with one that does not."""
    yield packet(rng, of_count(rng, SINGLE_POINTS, rng.choice((128, 129, 240))))
    yield packet(rng, of_count(rng, SINGLE_POINTS, rng.choice((241, 242))))
    yield packet(rng, of_count(rng, Kind("I", 1), 61))
    yield packet(rng, of_count(rng, Kind("I", 21, True), 121))


def empty_sequences(rng: random.Random) -> Iterator[Packet]:
    kind = rng.choice([k for k in i_kinds() if k.sequence])
    yield packet(rng, Parts(kind, addresses=[10]))
    yield packet(rng, of_count(rng, Kind("I", 102, True), rng.randrange(1, 128)))


def too_large(rng: random.Random) -> Iterator[Packet]:
    """Values that their field has no room for."""
    yield with_object(rng, Kind("I", 5), value=rng.choice((64, -65, rng.randint(64, 127), rng.randint(-128, -65))))
    yield with_object(rng, COUNTERS, sq=rng.randrange(32, 64))
    yield with_object(rng, COUNTERS, information_object_address=rng.randint(LAST_ADDRESS + 1, 2**32 - 1))


def packets(rng: random.Random, count: int) -> Iterator[Packet]:
    for _ in range(count):
        for group in (control_octets, headers, too_many, empty_sequences, too_large):
            yield from group(rng)
