"""Names and conflicts as lines of the shell."""

from __future__ import annotations

from typing import Dict, Iterator, List, Optional

from .merge import ThreeWay
from .names import Names
from .text import cell, encoded, shown


def names(names: Names) -> Iterator[str]:
    """A line for each name: its version, the name, and in columns behind it the time and the description."""
    firsts = {name: f"{version} {name}" for name, version in names.items()}
    width = max(map(len, firsts.values()), default=0)
    for name, first in firsts.items():
        yield f"{first:{width}}  {_time(names, name):20}  {_description(names, name)}".rstrip()


def fields(names: Names, name: str) -> Dict[str, object]:
    """A name as fields of JSON. The time is that of ISO 8601, in UTC."""
    about = names.about(name)
    time = None if about.time is None else f"{about.time:%Y-%m-%dT%H:%M:%SZ}"
    return {"name": name, "version": names[name], "time": time, "description": about.description}


def _time(names: Names, name: str) -> str:
    time = names.about(name).time
    return "" if time is None else f"{time:%Y-%m-%d %H:%M} UTC"


def _description(names: Names, name: str) -> str:
    return cell(encoded(names.about(name).description))


def labels(names: Names, is_long: bool) -> Dict[int, List[str]]:
    """What stands for the names of each version in the tree: with their descriptions, and with times where it is long."""
    found: Dict[int, List[str]] = {}
    for name, version in names.items():
        description = _description(names, name)
        parts = [name, _time(names, name) if is_long else "", f'"{description}"' if description else ""]
        found.setdefault(version, []).append(" ".join(filter(None, parts)))
    return found


def conflict(row: ThreeWay, ours: str, theirs: str) -> str:
    """A key that both sides of a merge have changed."""
    return f"! {shown(row.key)}: {_value(row.base)} before, {_value(row.ours)} in {ours}, {_value(row.theirs)} in {theirs}"


def _value(value: Optional[bytes]) -> str:
    return "absent" if value is None else shown(value)
