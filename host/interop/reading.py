"""A reading: a frame's fields by name, in one flat table, so that two of them are compared name by name."""
from typing import Mapping

Value = int | str
Reading = dict[str, Value]


def refused(reason: str) -> Reading:
    return {"refused": reason}


def is_refused(reading: Mapping[str, Value]) -> bool:
    return "refused" in reading


def shown(reading: Mapping[str, Value]) -> str:
    if is_refused(reading):
        return str(reading["refused"])
    return " ".join(f"{name.replace(' ', '-')}={value}" for name, value in reading.items())
