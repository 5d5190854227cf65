"""The proved library, asked through the program `drive`: a line for a line."""
import subprocess
from pathlib import Path

from kinds import U_FLAGS
from reading import Reading, refused

DRIVE = Path(__file__).resolve().parents[2] / "tools" / "drive"
HEADER_NAMES = ("type", "sq", "test", "negative", "cause", "originator", "common", "count")


def ask(lines: list[str]) -> list[str]:
    done = subprocess.run([DRIVE], input="".join(f"{line}\n" for line in lines), capture_output=True, text=True, check=True)
    answers = done.stdout.splitlines()
    if len(answers) != len(lines):
        raise RuntimeError(f"drive answered {len(answers)} lines to {len(lines)}: {done.stderr}")
    return answers


def fields_of_objects(words: list[str]) -> Reading:
    """`10:value=1000,iv=0` is the address and the fields of one object."""
    fields: Reading = {}
    for i, word in enumerate(words):
        address, _, values = word.partition(":")
        fields[f"{i}.address"] = int(address)
        for pair in filter(None, values.split(",")):
            name, _, value = pair.partition("=")
            fields[f"{i}.{name}"] = int(value)
    return fields


def fields_of_asdu(answer: str) -> Reading:
    words = answer.split()
    header = dict(zip(HEADER_NAMES, map(int, words)))
    rest = words[len(HEADER_NAMES):]
    return {**header, "objects": len(rest), **fields_of_objects(rest)}


def fields_of_frame(words: list[str]) -> Reading:
    """The control octets that a read S or U frame must have (document 01: 6, 7) count as read."""
    if words[0] == "I":
        return {"send": int(words[1]), "receive": int(words[2])}
    if words[0] == "S":
        return {"control 1": 1, "control 2": 0, "receive": int(words[1])}
    octet = int(words[1], 16)
    flags = {name: int(bool(octet & bit)) for name, bit in U_FLAGS.items()}
    return {"format": octet & 3, **flags, "control 2": 0, "control 3": 0, "control 4": 0}


def reading(frame: bytes, frame_answer: str, asdu_answer: str) -> Reading:
    words = frame_answer.split()
    if words[0] == "refused":
        return refused(frame_answer)
    fields: Reading = {"frame": words[0], "start": 0x68, "length": len(frame) - 2, **fields_of_frame(words)}
    if words[0] != "I":
        return fields
    # The ASDU is handed back as a part of the frame.
    if words[3] != frame[6:].hex():
        fields["part"] = words[3]
    return {**fields, **fields_of_asdu(asdu_answer)}


def read(frames: list[bytes]) -> list[Reading]:
    lines = [line for f in frames for line in (f"frame {f.hex()}", f"asdu {f[6:].hex()}")]
    answers = ask(lines)
    return [reading(f, *answers[2 * i:2 * i + 2]) for i, f in enumerate(frames)]


def written(answer: str) -> bytes | None:
    return None if answer.startswith("refused") else bytes.fromhex(answer)


def rewrite(frames: list[bytes]) -> list[bytes | None]:
    """What our writer makes of the record that was read; None where it is refused."""
    return [written(answer) for answer in ask([f"rewrite {f.hex()}" for f in frames])]
