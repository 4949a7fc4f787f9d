"""Random scripts of several sessions, and runs of them as they may go: the sessions of a phase take their steps in a random order, over four histories: the
labels, the documents, the pairs that were published, and the commits. `compare/run` gives the scripts to the program; `compare/selftest` uses both."""

from __future__ import annotations

from collections.abc import Generator, Iterator
from dataclasses import dataclass, field
from random import Random
from typing import Any

import making
import reading
import reference
import scripts
import sessions
from reference import line_of
from relation import Opened
from scripts import Order, Script
from shapes import LOOKS

NAMES = ["a", "b", "é", "x" * 64]

# the steps of a command: between two of them those of others may come, and its reply comes at the end
Steps = Generator[None, None, dict]


# ---- scripts


def with_session(random: Random, value: dict, session: int) -> dict:
    value["s"] = session
    if value["cmd"] in LOOKS and random.random() < 0.4:
        value["on"] = random.choice(NAMES[: random.choice([1, 2, 4])])
    return value


def small_add(random: Random, number: int) -> dict:
    """An add of few labels, which those of other sessions meet."""
    labels = {dim: [dim, random.choice("xyzuv") if random.random() < 0.7 else random.choice(["5", "-1"])] for dim in random.sample("ABC", random.randint(0, 3))}
    return {"s": 1, "cmd": "add", "id": f"b{number}", "text": random.choice(["", "go", "rust go"]), "facets": list(labels.values())}


def order(random: Random, number: int, session: int) -> dict:
    kind = random.random()
    if kind < 0.41:
        value = small_add(random, number) if random.random() < 0.7 else making.add(random, number)
    elif kind < 0.45:
        value = {"cmd": "merge"}
    elif kind < 0.6:
        value = {"cmd": "refresh"}
    elif kind < 0.75:
        value = {"cmd": random.choice(["hold", "hold", "release"]), "name": random.choice(NAMES[: random.choice([1, 2, 4])])}
    elif kind < 0.9:
        value = {"cmd": random.choice(["stats", "commit"])}
    elif kind < 0.94:
        value = {"cmd": "document", "at": random.choice([0, 1, 2, 5, number])}
    else:
        value = making.look(random)
    return with_session(random, value, session)


def values(random: Random, dims: list[dict], most_sessions: int = 4, most_orders: int = 10, auto_merge: bool = False) -> list[dict]:
    """The lines of a script of 1 to so many sessions, which have up to so many orders in each phase."""
    count = random.randint(1, most_sessions)
    numbers = random.sample(range(1, random.choice([count, 64]) + 1), count)
    config: dict = {"cmd": "config", "dims": dims}
    config.update({key: random.choice([1, 2, 4, 8, 20]) for key in ("max_docs", "max_labels") if random.random() < 0.3})
    config.update({key: random.choice([1, 2, 64]) for key in ("stripes", "cache") if random.random() < 0.3})
    if auto_merge:
        config["auto_merge"] = True
    lines = [config]
    for phase in range(random.randint(1, 3)):
        lines += [{"cmd": "phase"}] * (phase > 0 or random.random() < 0.1)
        few = random.choice([numbers, numbers, numbers[:1]])
        for _ in range(random.randint(0, most_orders * len(few))):
            lines.append(order(random, len(lines), random.choice(few)))
    return lines


def thousands() -> list[dict]:
    """Two sessions add a thousand documents each, beside each other, and then one of them looks."""
    labels = {1: lambda at: ["Author", "Bob"], 2: lambda at: ["Author", "Lisa" if at % 2 == 0 else "Bob"]}
    adds = [{"s": session, "cmd": "add", "id": f"{'xy'[session - 1]}{at}", "facets": [labels[session](at)]} for session in (1, 2) for at in range(1000)]
    looks = [{"s": 1, "cmd": "refresh"}, {"s": 1, "cmd": "search", "hits": 0, "ask": [{"top": ["Author"], "n": 10}]}]
    return [{"cmd": "config"}, *adds, {"cmd": "phase"}, *looks]


def eight_sessions() -> list[dict]:
    """Eight sessions add 2,000 documents each, beside each other, refresh, commit and merge now and then, and then all of them look."""
    values: list[dict] = [{"cmd": "config", "dims": [{"dim": "Date", "hierarchical": True}]}]
    for at in range(2000):
        for session in range(1, 9):
            facets = [["Author", f"a{at % 50}"], ["Date", f"{2000 + session}", f"{at % 12}"], ["Own", f"{session}-{at // 10}"]]
            values.append({"s": session, "cmd": "add", "id": f"{session}-{at}", "facets": facets})
            if at % 500 == 250 + session:
                values.append({"s": session, "cmd": "refresh"})
            if at == 1000 and session in (1, 5):
                values.append({"s": session, "cmd": "commit"})
            if at % 700 == 600 + session:
                values.append({"s": session, "cmd": "merge"})
    values.append({"cmd": "phase"})
    values += [{"s": session, "cmd": "refresh"} for session in range(1, 9)]
    values += [{"s": session, "cmd": "search", "from": session, "hits": 1, "ask": [{"top": ["Author"], "n": 3}, {"top": ["Date"], "n": 9}]} for session in range(1, 9)]
    return [*values, {"s": 8, "cmd": "commit"}]


def all_sessions() -> list[dict]:
    """All 64 sessions add fifty documents each, beside each other, refresh once, and hold a pair over the next phase, in which each looks, some merge and one
    commits."""
    values: list[dict] = [{"cmd": "config", "dims": [{"dim": "Date", "hierarchical": True}]}]
    sessions = range(1, 65)
    for at in range(50):
        for session in sessions:
            facets = [["Author", f"a{at % 10}"], ["Date", f"{2000 + session}", f"{at % 12}"]]
            values.append({"s": session, "cmd": "add", "id": f"{session}-{at}", "facets": facets})
            if at == session % 50:
                values.append({"s": session, "cmd": "refresh"})
    values += [{"s": session, "cmd": "hold", "name": "a"} for session in sessions]
    values += [{"cmd": "phase"}, {"s": 64, "cmd": "commit"}]
    values += [{"s": session, "cmd": ("refresh", "merge")[session % 8 - 1]} for session in sessions if session % 8 in (1, 2)]
    for session in sessions:
        values.append({"s": session, "cmd": "search", "on": "a", "hits": 1, "ask": [{"top": ["Author"], "n": 3}]})
        values += [{"s": session, "cmd": "stats", "on": "a"}, {"s": session, "cmd": "stats"}]
    return values


def opened_of(random: Random, dims: list[dict]) -> dict[str, bytes]:
    """The files of a store that is to be opened: none, or those of a run that committed."""
    stored: dict[str, bytes] = {}
    if random.random() < 0.3:
        before = [small_add(random, number) for number in range(random.randint(0, 4))]
        reference.run(stored, [{"cmd": "config", "dims": dims}, *before, {"s": 1, "cmd": "commit"}])
    return stored


# ---- runs


@dataclass
class Chances:
    """What may go wrong in a run, and how its sessions meet."""

    # which commit fails on the disk, from 0
    failing_commit: int | None = None
    spends_numbers: bool = False
    wants_memory: float = 0.0
    # a pair can be taken while a refresh is on its way
    reads_beside_refresh: bool = False

    @staticmethod
    def some(random: Random) -> Chances:
        failing = random.randint(0, 2) if random.random() < 0.4 else None
        return Chances(failing, random.random() < 0.05, random.choice([0.0, 0.0, 0.05]), random.random() < 0.5)


@dataclass
class World:
    """What there is, as every session sees it in its turn."""

    view: reference.Session
    random: Random
    chances: Chances
    opened: Opened
    labels: list[tuple[str, ...]] = field(default_factory=list)
    owners: list[int] = field(default_factory=list)
    pairs: list[tuple[int, int]] = field(default_factory=list)
    commits: int = 0
    failed: int | None = None
    is_refreshing: bool = False
    is_committing: bool = False
    held: dict[tuple[int, str], tuple[int, int]] = field(default_factory=dict)
    replies: dict[int, dict] = field(default_factory=dict)

    # ---- commands

    def wants_memory(self) -> bool:
        return self.random.random() < self.chances.wants_memory

    def add(self, order: Order) -> Steps:
        labels = [tuple(path) for path in order.value.get("facets", [])]
        refused = self.view.broken(labels)
        if refused:
            return refused
        limit = max(self.view.max_labels, len(self.opened.labels))
        for path in (label[:end] for label in labels for end in range(1, len(label) + 1)):
            yield
            if self.wants_memory():
                return {"refused": "no_memory"}
            if path not in self.labels:
                if len(self.labels) >= limit:
                    return {"refused": "labels_full", "size": len(self.labels)}
                self.labels.append(path)
        yield
        if len(self.view.documents) >= self.view.max_docs:
            return {"refused": "docs_full", "count": len(self.view.documents)}
        if self.wants_memory():
            return {"refused": "no_memory"}
        self.view.documents.append(self.view.document_of(order.value["id"], order.value.get("text", ""), labels))
        self.owners.append(order.session)
        return {"at": len(self.view.documents) - 1}

    def refresh(self, order: Order) -> Steps:
        while self.is_refreshing:
            yield
        self.is_refreshing = True
        documents = len(self.view.documents)
        yield
        labels = len(self.labels)
        yield
        self.is_refreshing = False
        if self.wants_memory():
            return {"refused": "no_memory"}
        self.pairs.append((documents, labels))
        return {"n": documents}

    def take(self, order: Order) -> Generator[None, None, tuple[int, int] | None]:
        """The pair that was published last, or is held under the order's name."""
        yield
        if order.on is not None:
            return self.held.get((order.session, order.on))
        while self.is_refreshing and not self.chances.reads_beside_refresh:
            yield
        return self.pairs[-1]

    def hold(self, order: Order) -> Steps:
        key = (order.session, order.value["name"])
        if key in self.held:
            return {"refused": "held_already"}
        pair = yield from self.take(order)
        if self.wants_memory():
            return {"refused": "no_memory"}
        self.held[key] = pair
        return {"n": pair[0]}

    def release(self, order: Order) -> Steps:
        yield
        pair = self.held.pop((order.session, order.value["name"]), None)
        return {"refused": "not_held"} if pair is None else {"n": pair[0]}

    def look(self, order: Order) -> Steps:
        pair = yield from self.take(order)
        if pair is None:
            return {"refused": "not_held"}
        if order.command != "stats" and self.wants_memory():
            return {"refused": "no_memory"}
        return answer(self.view, order, pair)

    def merge(self, order: Order) -> Steps:
        """Merges segments, which no reply shows."""
        yield
        return {"refused": "no_memory"} if self.wants_memory() else {"merged": True}

    def commit(self, order: Order) -> Steps:
        while self.is_committing:
            yield
        if self.failed is not None:
            return {"refused": "closed", "count": self.failed}
        self.is_committing = True
        documents = len(self.view.documents)
        yield
        self.is_committing = False
        if self.wants_memory():
            return {"refused": "no_memory"}
        if self.chances.spends_numbers:
            return {"refused": "numbers_spent", "number": 2**63 + self.random.randint(0, 9)}
        self.commits += 1
        if self.commits - 1 == self.chances.failing_commit:
            self.failed = self.random.randint(1, 3)
            return {"refused": "disk", "count": self.failed}
        return {"n": documents}

    # ---- sessions

    def session(self, orders: list[Order]) -> Iterator[None]:
        commands = {"add": self.add, "refresh": self.refresh, "hold": self.hold, "release": self.release, "merge": self.merge, "commit": self.commit}
        for order in orders:
            yield
            self.replies[order.line] = yield from commands.get(order.command, self.look)(order)

    def phase(self, orders: list[Order]) -> None:
        """Runs the sessions of a phase beside each other: now one step of each in turn, now many of one."""
        running = [self.session([order for order in orders if order.session == session]) for session in sorted({order.session for order in orders})]
        most = self.random.choice([1, 3, 30])
        while running:
            steps = self.random.choice(running)
            for _ in range(self.random.randint(1, most)):
                if next(steps, STOPPED) is STOPPED:
                    running.remove(steps)
                    break


STOPPED: Any = object()


def answer(view: reference.Session, order: Order, pair: tuple[int, int]) -> dict:
    """The reply of a command that looks over a pair of documents and labels."""
    view.taken, view.taken_labels = pair
    return getattr(view, order.command)(order.value)


@dataclass
class Ran:
    """A script, what was opened, and the world at the end of a run."""

    script: Script
    opened: Opened
    world: World

    def lines(self) -> list[dict]:
        return [{**self.world.replies[order.line], "line": order.line, "s": order.session} for order in self.script.in_writing_order()]

    def last(self) -> dict:
        opened = (len(self.opened.documents), len(self.opened.labels))
        line = sessions.last_line(self.world.labels, opened, self.world.owners)
        return reading.value_of(line)

    def output(self) -> bytes:
        return output_of(self.lines(), self.last())


def output_of(lines: list[dict], last: dict) -> bytes:
    return b"".join(map(line_of, lines)) + line_of(last)


def ran(random: Random, stored: dict[str, bytes], lines: list[dict], chances: Chances) -> Ran:
    """One run of a script over stored files, which stay as they are."""
    script = scripts.script_of(lines)
    view = reference.Session(dict(stored), script.config)
    opened = Opened(list(view.labels), list(view.documents))
    world = World(view, random, chances, opened, pairs=[(len(view.documents), len(view.labels))])
    world.labels = view.labels
    for phase in script.phases:
        world.phase(phase)
    return Ran(script, opened, world)
