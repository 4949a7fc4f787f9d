"""What a script of several sessions is to write where the sessions of each phase run one after the other, in the order of their numbers; so also where no
phase has two sessions.

Which outputs are right where sessions run beside each other is told by `relation`."""

from __future__ import annotations

import reference
from reference import line_of
from scripts import Order, script_of


class Sessions(reference.Session):
    """One store, and the pairs that each session holds under a name: how many documents, and how many labels."""

    def __init__(self, stored: dict[str, bytes], config: dict):
        super().__init__(stored, config)
        self.opened = (len(self.documents), len(self.labels))
        self.held: dict[tuple[int, str], tuple[int, int]] = {}
        self.added_by: list[int] = []

    def carry_out(self, order: Order) -> dict:
        """The reply, but for its line and its session."""
        if order.command in ("hold", "release"):
            return self.hold(order) if order.command == "hold" else self.release(order)
        if order.on is not None:
            return self.over_held(order)
        reply = getattr(self, order.command)(order.value)
        if order.command == "add" and "at" in reply:
            self.added_by.append(order.session)
        return reply

    def hold(self, order: Order) -> dict:
        key = (order.session, order.value["name"])
        if key in self.held:
            return {"refused": "held_already"}
        self.held[key] = (self.taken, self.taken_labels)
        return {"n": self.taken}

    def release(self, order: Order) -> dict:
        pair = self.held.pop((order.session, order.value["name"]), None)
        return {"refused": "not_held"} if pair is None else {"n": pair[0]}

    def over_held(self, order: Order) -> dict:
        pair = self.held.get((order.session, order.on or ""))
        if pair is None:
            return {"refused": "not_held"}
        last = (self.taken, self.taken_labels)
        self.taken, self.taken_labels = pair
        reply = getattr(self, order.command)(order.value)
        self.taken, self.taken_labels = last
        return reply

    def last_line(self) -> bytes:
        return last_line(self.labels, self.opened, self.added_by)


def last_line(labels: list[tuple[str, ...]], opened: tuple[int, int], added_by: list[int]) -> bytes:
    """The line behind the replies: the labels that were added, each with its parent's ordinal, what was opened, and whose the added documents are."""
    ordinals = {path: ordinal for ordinal, path in enumerate(labels)}
    added = [[ordinals[path[:-1]], path[-1]] for path in labels[opened[1] :]]
    return line_of({"labels": added, "opened": list(opened), "order": added_by})


def run(stored: dict[str, bytes], values: list[dict]) -> tuple[int, bytes]:
    """The status and the output of a script, whose lines have these values, over stored files, which become those that the run leaves."""
    script = script_of(values)
    try:
        sessions = Sessions(stored, script.config)
    except reference.NotOpened as fault:
        return fault.status, line_of(fault.line)
    replies = [line_of({**sessions.carry_out(order), "line": order.line, "s": order.session}) for order in script.in_writing_order()]
    return 0, b"".join(replies) + sessions.last_line()
