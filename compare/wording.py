"""Reads command-line arguments as docs/formats.md specifies them, and makes random ones."""

from __future__ import annotations

import os
import re
from dataclasses import dataclass
from random import Random

MOST = {"generate": 1_000_000, "sessions": 8}
FLAGS = ("live", "read")


@dataclass(frozen=True)
class Asked:
    """The directory; the number of documents to generate, or None if input is read; whether it is the line mode, and whether that only reads."""

    directory: bytes
    generate: int | None
    is_live: bool = False
    is_read_only: bool = False


def number_of(text: str, most: int) -> int | None:
    """Reads a number as Rust does: digits, with or without a plus sign."""
    number = int(text) if re.fullmatch(r"\+?[0-9]{1,4000}", text) else 0
    return number if 1 <= number <= most else None


def asked(arguments: list[bytes]) -> Asked | None:
    """Returns what the arguments ask for, or None if they are a usage error."""
    try:
        words = [argument.decode() for argument in arguments]
    except UnicodeDecodeError:
        return None
    directories: list[str] = []
    numbers: dict[str, int] = {}
    flags: set[str] = set()
    while words:
        word = words.pop(0)
        if word == "--":
            directories += words
            break
        if word == "-" or not word.startswith("-"):
            directories.append(word)
            continue
        name, has_value, text = word[2:].partition("=")
        if word.startswith("--") and name in FLAGS and not has_value and name not in flags:
            flags.add(name)
            continue
        if not word.startswith("--") or name not in MOST or name in numbers:
            return None
        number = number_of(text if has_value else words.pop(0) if words else "", MOST[name])
        if number is None:
            return None
        numbers[name] = number
    if len(directories) != 1 or (flags and ("live" not in flags or numbers)):
        return None
    return Asked(directories[0].encode(), numbers.get("generate"), "live" in flags, "read" in flags)


# The first eight are numbers in range.
NUMBERS = [b"1", b"2", b"8", b"9", b"12", b"300", b"007", b"+5", b"0", b"-1", b"", b"x", b"1e3", b"12 ", b" 12", b"0x1", b"1.0", b"1000001", b"9" * 30]
NUMBERS += [b"\xff", b"-", b"--", b"18446744073709551616", b"4294967297", "٣".encode()]
DIRECTORIES = [b"store", b"store", b"./store", b"store/", b"new", b"a b", "é".encode(), b"-", b".", b"", b"x" * 255, b"=", b"\n", b"generate", b"'", b"*"]
ODD = [b"--", b"-x", b"-s", b"-h", b"--help", b"--version", b"--gen", b"--generate", b"--sessions", b"--Generate", b"--session=1", b"-sessions", b"---"]
ODD += [b"--=1", b"\xff", b"--\xff", b"--live", b"--read", b"--live=true", b"--Live", b"-l"]


def option(random: Random) -> list[bytes]:
    name = random.choice([b"--generate", b"--sessions"])
    number = random.choice(NUMBERS[:8]) if random.random() < 0.7 else random.choice(NUMBERS)
    return [name + b"=" + number] if random.random() < 0.5 else [name, number]


def arguments(random: Random) -> list[bytes]:
    """Returns random arguments, most of which are correct or nearly so."""
    words = [random.choice(DIRECTORIES)] if random.random() < 0.9 else []
    for _ in range(random.choice([0, 0, 1, 1, 2, 3])):
        at = random.randint(0, len(words))
        words[at:at] = option(random)
    if random.random() < 0.2:
        words = [word for word in words if word in DIRECTORIES] if random.random() < 0.8 else words
        for flag in random.choice([[b"--live"], [b"--live", b"--read"], [b"--read"], [b"--live", b"--live"]]):
            words.insert(random.randint(0, len(words)), flag)
    kind = random.random()
    if kind < 0.15:
        words.insert(random.randint(0, len(words)), random.choice(ODD + DIRECTORIES))
    elif kind < 0.25 and words:
        del words[random.randrange(len(words))]
    elif kind < 0.3:
        words.insert(random.randint(0, len(words)), os.fsencode("".join(chr(random.randint(1, 127)) for _ in range(random.randint(0, 9)))).replace(b"/", b""))
    return words
