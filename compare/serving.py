"""The line mode, `facets --live`, as docs/formats.md specifies it: which lines are carried out together as a phase, and what is written."""

from __future__ import annotations

from collections.abc import Callable
from dataclasses import dataclass, field
from typing import Any

import reading
import reference
import shapes
from reference import line_of
from scripts import Order, Script
from sessions import Sessions

MOST_BYTES = 67_108_864
GROUP = {"cmd": "group"}


@dataclass
class Item:
    """What is carried out as one phase: the faults of its lines, which are written first, and its commands. `lines` has all its lines, as they come."""

    lines: list[bytes] = field(default_factory=list)
    faults: list[dict] = field(default_factory=list)
    orders: list[Order] = field(default_factory=list)

    def in_writing_order(self) -> list[Order]:
        return sorted(self.orders, key=lambda order: (order.session, order.line))


@dataclass
class Served:
    """What comes in: the config line's value, and the items after it. `fault` is that of the first line, after which the process ends."""

    config: Any
    items: list[Item]
    fault: dict | None = None

    def script(self) -> Script:
        return Script(self.config, [item.orders for item in self.items])


def lines_of(data: bytes) -> list[bytes]:
    """Returns the lines. What comes after the last line feed is one too, unless it is empty."""
    lines = data.split(b"\n")
    return lines if lines[-1] else lines[:-1]


def fault_of(line: bytes, value: Any, number: int, is_read_only: bool) -> dict | None:
    """Returns the fault of a line after the first."""
    if len(line) > MOST_BYTES:
        return {"fault": "too_long", "line": number}
    fault = shapes.first_fault([{"cmd": "config"}, value])
    if not fault and is_read_only and value["cmd"] == "commit":
        fault = {"fault": "bad_shape"}
    return fault and {**fault, "line": number}


def served(data: bytes, is_read_only: bool = False) -> Served:
    """Reads lines. Line numbers count from 1 over all lines."""
    lines = lines_of(data)
    values = [reading.value_of(line) if len(line) <= MOST_BYTES else shapes.NOT_JSON for line in lines]
    fault = {"fault": "too_long"} if lines and len(lines[0]) > MOST_BYTES else shapes.first_fault(values[:1])
    items: list[Item] = []
    group, size = False, 0
    for number, (line, value) in enumerate(zip(lines[1:], values[1:]), 2):
        if not group:
            items.append(Item())
        item = items[-1]
        item.lines.append(line)
        if shapes.is_phase(value):
            group = False
        elif value == GROUP and not group:
            group, size = True, 0
        elif group and size > MOST_BYTES:
            pass  # the group is full
        elif group and size + len(line) + 1 > MOST_BYTES:
            item.faults.append({"fault": "too_long", "line": number})
            size = MOST_BYTES + 1
        else:
            size += len(line) + 1
            found = fault_of(line, value, number, is_read_only)
            if found:
                item.faults.append(found)
            else:
                item.orders.append(Order(len(items) - 1, value["s"], number, value))
    return Served(values[0] if values else None, items, fault)


def run(stored: dict[str, bytes], data: bytes, is_read_only: bool = False) -> tuple[int, bytes]:
    """Returns the status and the output, if the sessions of a group run one after the other. `stored` become the files that are left."""
    given = served(data, is_read_only)
    if given.fault:
        return 9 if given.fault["fault"] == "too_long" else 5, line_of(given.fault)
    try:
        system = Sessions(stored, given.config)
    except reference.NotOpened as fault:
        return fault.status, line_of(fault.line)
    output = opened_line(system.opened)
    for item in given.items:
        output += written(item, system.carry_out)
    return 0, output + system.last_line()


def opened_line(opened: tuple[int, int]) -> bytes:
    return line_of({"line": 1, "opened": list(opened)})


def written(item: Item, carry_out: Callable[[Order], dict]) -> bytes:
    """What is written for an item."""
    replies = [{**carry_out(order), "line": order.line, "s": order.session} for order in item.in_writing_order()]
    return b"".join(map(line_of, [*item.faults, *replies]))
