"""Reads the lines of a script as docs/formats.md specifies it. Python's own JSON reader accepts some lines that are not JSON by RFC 8259."""

from __future__ import annotations

import json
import math
from typing import Any

from shapes import NOT_JSON

MOST_NESTED = 127
# A 64-bit number has at most so many digits.
MOST_DIGITS = 20


class NoJson(ValueError):
    """The line is not JSON, though Python accepts it."""


def number_of(text: str) -> float:
    number = float(text)
    if math.isinf(number):
        raise NoJson(text)
    return number


def whole_number_of(text: str) -> int | float:
    """Returns a float for a number that is not a whole number of a script: `-0`, or one with too many digits."""
    return number_of(text) if text == "-0" or len(text) > MOST_DIGITS else int(text)


def refuse(text: str) -> None:
    raise NoJson(text)


def check_text(text: str) -> None:
    """Rejects a lone surrogate."""
    if any("\ud800" <= letter <= "\udfff" for letter in text):
        raise NoJson("half a letter")


def check_texts(value: Any) -> None:
    if isinstance(value, str):
        check_text(value)
    elif isinstance(value, list):
        for inside in value:
            check_texts(inside)


def object_of(pairs: list[tuple[str, Any]]) -> dict:
    """Returns the object, in which the last of equal keys counts. The values of the others have to be JSON too."""
    for key, value in pairs:
        check_text(key)
        check_texts(value)
    return dict(pairs)


READER = json.JSONDecoder(object_pairs_hook=object_of, parse_float=number_of, parse_int=whole_number_of, parse_constant=refuse)


def nested(text: str) -> int:
    """Returns how deep the containers of a JSON text are nested."""
    most = depth = 0
    is_inside = is_escaped = False
    for letter in text:
        if is_inside:
            is_inside = is_escaped or letter != '"'
            is_escaped = not is_escaped and letter == "\\"
        elif letter == '"':
            is_inside = True
        elif letter in "[{":
            depth += 1
            most = max(most, depth)
        elif letter in "]}":
            depth -= 1
    return most


def value_of(line: bytes) -> Any:
    try:
        text = line.decode()
        value = READER.decode(text)
        check_texts(value)
    except (ValueError, RecursionError):
        return NOT_JSON
    return NOT_JSON if nested(text) > MOST_NESTED else value


def values_of(script: bytes) -> list[Any]:
    """Returns the values of all lines. A last line feed begins no line."""
    lines = script.split(b"\n")
    return [value_of(line) for line in (lines if lines[-1] else lines[:-1])]
