"""Tiny scripts of several sessions, with outputs that may be right or wrong: for these `literal` can try everything that is hidden."""

from __future__ import annotations

from random import Random

import literal
import mutating
import simulating
from relation import Checker
from shapes import LOOKS

# of these clauses the data decides that no line tells
HIDDEN = {"entered", "pairs", "publications", "places", "replies"}

LABELS = [[["A", "x"]], [["A", "y"]], [["B", "x"]], [["A", "x"], ["B", "x"]], [["B", "x"], ["A", "x"]], []]


def order(random: Random, session: int) -> dict:
    kind = random.random()
    if kind < 0.4:
        return {"s": session, "cmd": "add", "id": "b", "facets": random.choice(LABELS)}
    if kind < 0.65:
        return {"s": session, "cmd": "refresh"}
    if kind < 0.9:
        return {"s": session, "cmd": "stats", **({"on": "a"} if random.random() < 0.2 else {})}
    if kind < 0.94:
        return {"s": session, "cmd": "hold", "name": "a"}
    if kind < 0.95:
        return {"s": session, "cmd": "merge"}
    if kind < 0.98:
        return {"s": session, "cmd": "search", "ask": [{"all": random.randint(0, 1)}]}
    return {"s": session, "cmd": "sums", "dim": "A", "n": random.randint(0, 1)}


def values(random: Random) -> list[dict]:
    lines: list[dict] = [{"cmd": "config"}]
    sessions = random.randint(2, 3)
    for phase in range(random.choice([1, 1, 2])):
        lines += [{"cmd": "phase"}] * (phase > 0)
        lines += [order(random, random.randint(1, sessions)) for _ in range(random.randint(2, 8 - 3 * phase))]
    return lines


def in_another_order(random: Random, output: mutating.Output) -> None:
    """The adds of the sessions stand in another order."""
    order = output.last["order"]
    random.shuffle(order)
    places: dict[int, list[int]] = {session: [at for at, by in enumerate(order) if by == session] for session in order}
    for place in output.all("add", "at"):
        output.lines[place]["at"] = places[output.orders[place].session].pop(0)


def with_other_labels(random: Random, output: mutating.Output) -> None:
    """Two labels stand in each other's place, where no child comes to stand before its parent."""
    labels = output.ran.world.labels
    if len(labels) > 2:
        first, second = sorted(random.sample(range(1, len(labels)), 2))
        if not any(path[:-1] in (labels[first], labels[second]) for path in labels[first : second + 1]):
            output.exchange_labels(first, second)


def with_another_number(random: Random, output: mutating.Output) -> None:
    places = output.all("refresh", "n") + output.all("stats", "n") + output.all("hold", "n")
    if places:
        line = output.lines[random.choice(places)]
        key = random.choice(sorted({"n", "labels"} & set(line)))
        line[key] = max(0, line[key] + random.choice([-2, -1, 1, 2]))
        if "documents" in line:
            line["documents"] = line["n"]


CHANGES = [in_another_order, with_other_labels, with_another_number, with_another_number]


def reader(random: Random) -> Checker:
    """A tiny run's output, changed up to three times."""
    ran = simulating.ran(random, {}, values(random), simulating.Chances(reads_beside_refresh=True))
    output = mutating.Output(random, ran)
    for _ in range(random.randint(0, 3)):
        random.choice(CHANGES)(random, output)
    return Checker(ran.script, ran.opened, output.bytes())


def is_of_hidden(read: Checker) -> bool:
    """What was found broken, if anything, is broken by what is hidden."""
    looks = {a.order.line for a in read.answered if a.order.command in (*LOOKS, "hold", "release")}
    return all(broken.clause in HIDDEN and (broken.clause != "replies" or set(broken.lines) <= looks) for broken in read.verdict.breaks)


def is_small(read: Checker) -> bool:
    """There is not too much to try."""
    refreshes = sum(a.refreshed is not None for a in read.answered)
    return refreshes <= 3 and (refreshes + 1) ** sum(map(literal.takes, read.answered)) <= 300


def agrees(random: Random) -> tuple[bool, bool] | None:
    """Whether the check of a tiny output answers as trying everything does, and its answer. None where what is hidden doesn't matter, or is too much."""
    read = reader(random)
    verdict = read.run()
    if not is_of_hidden(read) or not is_small(read):
        return None
    return verdict.is_decided and verdict.is_right == literal.has_hidden(read), verdict.is_right
