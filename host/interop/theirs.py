"""scapy's IEC 104 layer: its reading of octets, and frames that it writes from fields, by our names for the fields."""
import logging
import random
import signal
import struct
from typing import Any, Callable

from scapy.contrib.scada import iec104
from scapy.packet import Packet, Raw

from kinds import U_FLAGS
from making import F32, Parts
from reading import Reading, refused

# It warns of frames that are cut; here they are counted.
logging.getLogger("scapy").setLevel(logging.CRITICAL)

# Our names for scapy's fields of the header of an I frame, and the flags of a U frame.
HEADER = {
    "send": "tx_seq_num", "receive": "rx_seq_num", "type": "type_id", "sq": "sq", "test": "test",
    "negative": "ack", "cause": "cot", "originator": "origin_address", "common": "common_asdu_address",
}
FLAGS = {
    "start act": "startdt_act", "start con": "startdt_con", "stop act": "stopdt_act", "stop con": "stopdt_con",
    "test act": "testfr_act", "test con": "testfr_con",
}
# Seconds of processor time; a full frame takes hundredths.
LONGEST_READING = 0.5
MARKS = ("iv", "nt", "sb", "bl")
# What scapy takes for a field of an element.
RANGES = {
    "iv": (0, 1), "nt": (0, 1), "sb": (0, 1), "bl": (0, 1), "ov": (0, 1), "ca": (0, 1), "cy": (0, 1), "reserved": (0, 0),
    "spi_value": (0, 1), "dpi_value": (0, 3), "transient_state": (0, 1), "value": (-64, 63), "sq": (0, 31),
    "normed_value": (-32768, 32767), "scaled_value": (-32768, 32767), "counter_value": (-(2**31), 2**31 - 1),
    "bsi": (0, 2**32 - 1), "qoi": (0, 255), "frz": (0, 3), "rqt": (0, 63), "local_param_state": (0, 1), "coi": (0, 127),
}


# --- Reading --------------------------------------------------------------------------------------


def marks(io: Packet) -> Reading:
    return {name: getattr(io, name) for name in MARKS}


def quality(io: Packet) -> Reading:
    return {**marks(io), "ov": io.ov}


def counter(io: Packet) -> Reading:
    return {"value": io.counter_value, "iv": io.iv, "ca": io.ca, "cy": io.cy, "seq": io.sq}


def cause(io: Packet) -> Reading:
    """Our record has no mark beside the cause, so it is named only where it is set."""
    return {"cause": io.coi, **({"changed": 1} if io.local_param_state else {})}


def fraction(io: Packet) -> int:
    """scapy shows a normalised value as the fraction that it means."""
    return int(io.normed_value * 32768)


def float_bits(io: Packet) -> int:
    return struct.unpack("<I", struct.pack("<f", io.scaled_value))[0]


VALUES: dict[int, Callable[[Packet], Reading]] = {
    1: lambda io: {**marks(io), "spi": io.spi_value},
    3: lambda io: {**marks(io), "dpi": io.dpi_value},
    5: lambda io: {"value": io.value, "transient": io.transient_state, **quality(io)},
    7: lambda io: {"bits": io.bsi, **quality(io)},
    9: lambda io: {"value": fraction(io), **quality(io)},
    11: lambda io: {"value": io.scaled_value, **quality(io)},
    13: lambda io: {"bits": float_bits(io), **quality(io)},
    15: counter,
    21: lambda io: {"value": fraction(io)},
    70: cause,
    100: lambda io: {"qualifier": io.qoi},
    101: lambda io: {"qualifier": io.frz << 6 | io.rqt},
    102: lambda io: {},
}


def fields_of_object(packet: Packet, i: int) -> Reading:
    io = packet.io[i]
    if isinstance(io, Raw):
        return {"octets": io.load.hex()} if io.load else {}
    # scapy keeps the first address of a sequence alone; the others follow from it.
    address = packet.information_object_address + i if packet.sq else io.information_object_address
    values = VALUES.get(packet.type_id, lambda io: {})
    return {"address": address, **values(io)}


def fields_of_i(packet: Packet) -> Reading:
    fields: Reading = {name: getattr(packet, theirs) for name, theirs in HEADER.items()}
    count = len(packet.io) if packet.num_io is None else packet.num_io
    fields.update({"count": count, "objects": len(packet.io)})
    for i in range(len(packet.io)):
        fields.update({f"{i}.{name}": value for name, value in fields_of_object(packet, i).items()})
    return fields


def fields_of_s(packet: Packet) -> Reading:
    return {"control 1": packet.octet_1, "control 2": packet.octet_2, "receive": packet.rx_seq_num}


def fields_of_u(packet: Packet) -> Reading:
    flags = {name: getattr(packet, theirs) for name, theirs in FLAGS.items()}
    return {"format": packet.octet_1_1_2, **flags, **{f"control {i}": getattr(packet, f"octet_{i}") for i in (2, 3, 4)}}


LETTERS = {iec104.IEC104_S_Message: ("S", fields_of_s), iec104.IEC104_U_Message: ("U", fields_of_u)}


def fields_of(packet: Packet, length: int) -> Reading:
    """The fields of a packet that was read, or that is to be written."""
    letter, fields = LETTERS.get(type(packet), ("I", fields_of_i))
    return {"frame": letter, "start": packet.start, "length": length, **fields(packet)}


class NeverEnds(BaseException):
    """No Exception: scapy takes those for objects that it cannot read, and goes on."""


def stop(signum: int, stack: object) -> None:
    raise NeverEnds


def decoded(frame: bytes) -> Packet | None:
    """None where scapy takes the octets for no frame, or fails on them."""
    signal.signal(signal.SIGVTALRM, stop)
    signal.setitimer(signal.ITIMER_VIRTUAL, LONGEST_READING)
    try:
        packet = iec104.iec104_decode(frame)
    except (struct.error, IndexError, ValueError, TypeError):
        return None
    finally:
        signal.setitimer(signal.ITIMER_VIRTUAL, 0)
    return None if isinstance(packet, Raw) else packet


def read(frame: bytes) -> Reading:
    try:
        packet = decoded(frame)
    except NeverEnds:
        return {"frame": "never ends"}
    if packet is None:
        return refused("not read")
    return fields_of(packet, packet.apdu_length)


# --- Writing --------------------------------------------------------------------------------------


def rewrite(frame: bytes) -> bytes | None:
    """The frame that scapy writes from the fields that it read, with a count and a length of its own counting."""
    try:
        packet = decoded(frame)
    except NeverEnds:
        return None
    if packet is None:
        return None
    # A packet and its objects keep the octets that they were read from, so all of them are made anew.
    again = type(packet)()
    for name, value in packet.fields.items():
        setattr(again, name, [type(io)(**io.fields) for io in value] if name == "io" else value)
    if "io" in again.default_fields:
        again.apdu_length = again.num_io = None
    return bytes(again)


def random_value(rng: random.Random, name: str, is_float: bool) -> Any:
    if is_float:
        return struct.unpack("<f", rng.choice((rng.choice(F32), rng.randbytes(4))))[0]
    low, high = RANGES[name]
    return rng.choice((low, high, max(low, -1), rng.randint(low, high), rng.randint(low, high), rng.randint(low, high)))


def io_class(parts: Parts) -> type[Packet]:
    classes = iec104.IEC104_IO_CLASSES if parts.kind.sequence else iec104.IEC104_IO_WITH_IOA_CLASSES
    return classes[parts.kind.type_id]


def make_object(rng: random.Random, parts: Parts, i: int) -> Packet:
    fields = {f.name: f for f in io_class(parts).fields_desc}
    address = fields.pop("information_object_address", None)
    values = {name: random_value(rng, name, f.fmt == "<f") for name, f in fields.items()}
    if address is not None:
        values["information_object_address"] = parts.addresses[i]
    return io_class(parts)(**values)


def make_i(parts: Parts, ios: list[Packet]) -> Packet:
    header = {
        "tx_seq_num": parts.send, "rx_seq_num": parts.receive, "type_id": parts.kind.type_id, "test": parts.test,
        "ack": parts.negative, "cot": parts.cause, "origin_address": parts.originator, "common_asdu_address": parts.common,
    }
    if parts.kind.sequence:
        return iec104.IEC104_I_Message_SeqIOA(**header, information_object_address=parts.addresses[0], io=ios)
    return iec104.IEC104_I_Message_SingleIOA(**header, io=ios)


def make(rng: random.Random, parts: Parts) -> Packet:
    """A packet of these parts; the fields of its elements are scapy's, at random."""
    if parts.kind.letter == "S":
        return iec104.IEC104_S_Message(rx_seq_num=parts.receive)
    if parts.kind.letter == "U":
        return iec104.IEC104_U_Message(**{theirs: int(bool(parts.flags & U_FLAGS[n])) for n, theirs in FLAGS.items()})
    return make_i(parts, [make_object(rng, parts, i) for i in range(len(parts.elements))])


def given(packet: Packet, frame: bytes) -> Reading:
    """What a packet was given to write; its length is the one that scapy counted."""
    return fields_of(packet, frame[1])
