"""What the shell prints and loads as JSON, one object a line.

A key or a value that is UTF-8 is a string. Any other one is an object with its bytes in hexadecimal: `{"hex": "ff00"}`.
A line is ASCII alone: every other character is `\\uNNNN`, so that no terminal and no encoding changes it.
"""

from __future__ import annotations

import json
from typing import Mapping

from .frames import Pair


def _plain(value: object) -> object:
    """A value of a field as JSON has it."""
    if not isinstance(value, bytes):
        return value
    try:
        return value.decode()
    except UnicodeDecodeError:
        return {"hex": value.hex()}


def line_of(fields: Mapping[str, object]) -> str:
    """An object as a line, without its end."""
    return json.dumps({name: _plain(value) for name, value in fields.items()})


def pair_of(line: str) -> Pair:
    """The pair of a line. A ValueError says what is wrong with it."""
    try:
        found = json.loads(line)
    except (ValueError, RecursionError):
        raise ValueError("is no JSON") from None
    if not isinstance(found, dict) or set(found) != {"key", "value"}:
        raise ValueError("is not an object with a key and a value alone")
    key, value = (_bytes_of(name, found[name]) for name in ("key", "value"))
    return key, value


def _bytes_of(name: str, form: object) -> bytes:
    """The bytes of a field of this name."""
    try:
        if isinstance(form, str):
            return form.encode()
        if isinstance(form, dict) and list(form) == ["hex"] and isinstance(form["hex"], str):
            return bytes.fromhex(form["hex"])
    except ValueError:  # half a surrogate pair, or no hexadecimal digits
        pass
    raise ValueError(f'has a {name} that is neither text nor {{"hex": ".."}}')
