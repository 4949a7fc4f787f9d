"""Scripts without a fault, read: the orders phase by phase. The orders of one session run in line order; the sessions of a phase run beside each other; what a
session holds lasts across phases."""

from __future__ import annotations

from dataclasses import dataclass

from shapes import is_phase


@dataclass(frozen=True)
class Order:
    """A command, with its phase from 0, its session and its line."""

    phase: int
    session: int
    line: int
    value: dict

    @property
    def command(self) -> str:
        return self.value["cmd"]

    @property
    def on(self) -> str | None:
        return self.value.get("on")


@dataclass(frozen=True)
class Script:
    """Its config line, and phase by phase its orders, in line order."""

    config: dict
    phases: list[list[Order]]

    def runs_beside(self) -> bool:
        """Whether two sessions run beside each other."""
        return any(len({order.session for order in phase}) > 1 for phase in self.phases)

    def in_writing_order(self) -> list[Order]:
        """Phase by phase, the sessions rising, the lines rising."""
        return [order for phase in self.phases for order in sorted(phase, key=lambda order: (order.session, order.line))]


def script_of(values: list[dict]) -> Script:
    """The script whose lines have these values, of which none is faulty."""
    phases: list[list[Order]] = [[]]
    for line, value in enumerate(values[1:], 2):
        if is_phase(value):
            phases.append([])
        else:
            phases[-1].append(Order(len(phases) - 1, value["s"], line, value))
    return Script(values[0], phases)
