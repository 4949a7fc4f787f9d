"""Tells whether an output of a script of several sessions is right, clause by clause.

Sessions of a phase run beside each other, so there are many right outputs. The last line says which labels were added and whose the added documents are, each
in their order; with it an output is right where these clauses hold:

    bytes          each line is spelled as it has to be, and the last one has its keys
    asked          each order has one reply: phase by phase, the sessions rising, the lines rising
    label_list     the labels all differ, each stands behind its parent and is a path
    opened_labels  the labels begin with the opened ones
    label_limit    they are no more than fit, or than were opened
    entered        each added label was entered by an add that the config accepts and that brings it; no earlier path of its document was skipped, and there
                   were all labels that its session had been shown
    full           an add is refused for labels only where all of them may be there: each is brought by an add that did not come after it
    opened_docs    the documents begin with the opened ones
    operations     behind them those of each session are those of its adds that were placed, in line order, each at its place
    replies        each reply is right of the final labels and documents, and of what the session holds
    fresh          each add, refresh and commit comes behind all documents that its session had been shown
    publications   the labels of a pair cover its documents
    pairs          a pair was opened, or a refresh that may have come before published it, and no older one than the session knew
    places         all pairs stand in one list that never falls; each command takes the last one when it comes (see `places`)
    one_failure    at most one commit fails on the disk
    closed         a commit tells of a failure only where a commit that may have come before has failed so
    last_commit    after a failed commit each later one tells of it, or has no memory
    stays_closed   so does each one after a commit that told of it

A session has been shown what its earlier lines were answered, and what anyone was in an earlier phase. Every session's publications are its refreshes, and the
first is the opened pair: that is how the list is made here."""

from __future__ import annotations

import json
from collections import Counter, defaultdict
from collections.abc import Callable, Iterable
from dataclasses import dataclass, field
from typing import Any

import places
import reference
from reference import Document, line_of
from scripts import Order, Script
from shapes import LOOKS, is_list, is_object, is_text, is_whole

Path = tuple[str, ...]
NEVER = 1 << 80


@dataclass(frozen=True)
class Opened:
    """What a store had when it was opened: its labels with the root, and its documents."""

    labels: list[Path]
    documents: list[Document]


@dataclass(frozen=True)
class Break:
    """A clause that is broken, the lines of the script whose replies break it, and how."""

    clause: str
    lines: tuple[int, ...]
    why: str


@dataclass
class Verdict:
    """All clauses that were found broken. Not decided where the search for places gave up."""

    breaks: list[Break] = field(default_factory=list)
    is_decided: bool = True
    # where the output is right: each refresh's line with its labels, and each line that took a pair, with None, in the order of their places
    places: list[tuple[int, int | None]] = field(default_factory=list)

    @property
    def is_right(self) -> bool:
        return self.is_decided and not self.breaks

    @property
    def clauses(self) -> set[str]:
        return {broken.clause for broken in self.breaks}


@dataclass
class Pair:
    """A pair that was taken: its documents, and its labels where a reply told them."""

    documents: int
    labels: int | None = None


@dataclass(eq=False)
class Answered:
    order: Order
    reply: dict
    raw: bytes
    took: Pair | None = None

    @property
    def key(self) -> tuple[int, int]:
        return (self.order.phase, self.order.session)

    def is_refused(self, word: str) -> bool:
        return self.reply.get("refused") == word

    def number(self, key: str) -> int | None:
        value = self.reply.get(key)
        return value if is_whole(value) else None

    # ---- what it says of the histories

    @property
    def placed(self) -> int | None:
        return self.number("at") if self.order.command == "add" else None

    @property
    def shows(self) -> int:
        """How many documents the reply has shown."""
        if self.placed is not None:
            return self.placed + 1
        if self.is_refused("docs_full"):
            return self.number("count") or 0
        return self.number("n") or 0

    @property
    def stood(self) -> int | None:
        """How many documents there were when an add, a refresh or a commit came to its turn."""
        if self.order.command == "add":
            return self.number("count") if self.is_refused("docs_full") else self.placed
        return self.number("n") if self.order.command in ("refresh", "commit") else None

    @property
    def refreshed(self) -> int | None:
        return self.number("n") if self.order.command == "refresh" else None

    def failed(self, word: str) -> int | None:
        """The count of a commit that failed on the disk, or was closed."""
        return self.number("count") if self.order.command == "commit" and self.is_refused(word) else None


def comes_after(a: Answered, b: Answered) -> bool:
    """b had been answered when a was asked."""
    return b.order.phase < a.order.phase or (b.key == a.key and b.order.line < a.order.line)


def may_come_after(a: Answered, b: Answered) -> bool:
    """b may have been answered before a."""
    if b.order.phase != a.order.phase:
        return b.order.phase < a.order.phase
    return b.order.session != a.order.session or b.order.line < a.order.line


class Unreadable(Exception):
    """The output can't be looked at further."""


class Checker:
    def __init__(self, script: Script, opened: Opened, output: bytes):
        self.script, self.opened, self.output = script, opened, output
        self.verdict = Verdict()
        # evaluates over the documents that it is given
        self.view = reference.Session({}, script.config)
        self.answered: list[Answered] = []
        self.last: dict = {}
        self.labels: list[Path] = []
        self.ordinals: dict[Path, int] = {}
        self.documents: list[Document] = []
        self.owners: list[int] = []

    def broken(self, clause: str, lines: Iterable[int], why: str) -> None:
        self.verdict.breaks.append(Break(clause, tuple(lines), why))

    def run(self) -> Verdict:
        try:
            self.read_output()
            self.read_labels()
            self.read_documents()
        except Unreadable:
            return self.verdict
        self.paths = {id(a): self.paths_of(a) for a in self.answered if a.order.command == "add"}
        self.check_replies()
        self.check_fresh()
        self.check_commits()
        self.shown = self.known_before(self.shown_labels, 0)
        self.check_full()
        bringers = self.check_entered()
        self.check_pairs()
        if not self.verdict.clauses & {"replies", "fresh", "entered", "pairs", "publications"}:
            self.check_places(bringers)
        return self.verdict

    # ---- the lines

    def fail(self, clause: str, lines: Iterable[int], why: str) -> None:
        self.broken(clause, lines, why)
        raise Unreadable

    def read_line(self, raw: bytes, lines: tuple[int, ...]) -> dict:
        try:
            value = json.loads(raw)
            is_same = isinstance(value, dict) and line_of(value) == raw + b"\n"
        except (ValueError, RecursionError):
            is_same = False
        if not is_same:
            self.fail("bytes", lines, "the line is no object, or is spelled otherwise")
        return value

    def read_output(self) -> None:
        orders = self.script.in_writing_order()
        lines = self.output.split(b"\n")
        if len(lines) < 2 or lines[-1] != b"":
            self.fail("bytes", (), "the output does not end with a line feed")
        for order, raw in zip(orders, lines[:-2]):
            reply = self.read_line(raw, (order.line,))
            if (reply.get("line"), reply.get("s")) != (order.line, order.session):
                self.fail("asked", (order.line,), "the reply of another line stands here")
            self.answered.append(Answered(order, reply, raw))
        if len(lines) - 2 != len(orders):
            self.fail("asked", (), f"there are {len(lines) - 2} replies to {len(orders)} orders")
        self.last = self.read_line(lines[-2], ())

    # ---- the labels and the documents

    def read_labels(self) -> None:
        def is_label(value: Any) -> bool:
            return isinstance(value, list) and len(value) == 2 and is_whole(value[0]) and is_text(value[1], 1, 1024)

        def are_whole(value: Any) -> bool:
            return is_list(value, NEVER, is_whole)

        tests = {"labels": lambda value: is_list(value, NEVER, is_label), "opened": are_whole, "order": are_whole}
        if not is_object(self.last, tests) or len(self.last["opened"]) != 2:
            self.fail("bytes", (), "the last line has other keys")
        if self.last["opened"][1] != len(self.opened.labels):
            self.fail("opened_labels", (), f"{self.last['opened'][1]} labels, but {len(self.opened.labels)} were opened")
        if self.last["opened"][0] != len(self.opened.documents):
            self.fail("opened_docs", (), f"{self.last['opened'][0]} documents, but {len(self.opened.documents)} were opened")
        self.labels = list(self.opened.labels)
        self.ordinals = {path: ordinal for ordinal, path in enumerate(self.labels)}
        for parent, part in self.last["labels"]:
            if parent >= len(self.labels):
                self.fail("label_list", (), f"label {len(self.labels)} stands before its parent")
            path = self.labels[parent] + (part,)
            if path in self.ordinals or len(path) > 32:
                self.fail("label_list", (), f"label {len(self.labels)} stands there twice, or is no path")
            self.ordinals[path] = len(self.labels)
            self.labels.append(path)
        if len(self.labels) > max(self.view.max_labels, len(self.opened.labels)):
            self.broken("label_limit", (), f"there are {len(self.labels)} labels")

    def read_documents(self) -> None:
        """The history: the opened documents, and behind them each session's, as `order` tells."""
        self.documents, self.owners = list(self.opened.documents), [0] * len(self.opened.documents)
        adds: dict[int, list[Answered]] = defaultdict(list)
        for a in self.answered:
            if a.placed is not None:
                adds[a.order.session].append(a)
        later = {session: iter(of_session) for session, of_session in adds.items()}
        misplaced = []
        for session in self.last["order"]:
            a = next(later.get(session, iter(())), None)
            if a is None:
                self.fail("operations", (), f"an operation of session {session} at {len(self.documents)} is none of its adds")
            if a.placed != len(self.documents):
                misplaced.append(a.order.line)
            self.documents.append(self.document_of(a.order.value))
            self.owners.append(session)
        missing = [a.order.line for of_session in later.values() for a in of_session]
        if misplaced or missing:
            self.fail("operations", sorted(misplaced + missing), "the adds stand elsewhere in `order`, or are missing there")

    def document_of(self, value: dict) -> Document:
        labels = [tuple(path) for path in value.get("facets", [])]
        return Document(value["id"], value.get("text", ""), labels, [self.ordinals.get(label, NEVER) for label in labels], [])

    # ---- what was known

    def known_before(self, value: Callable[[Answered], int], start: int) -> dict[int, int]:
        """For each answered order the greatest value of those that it comes after, at least this one."""
        known, base, phase = {}, start, -1
        running: dict[int, int] = {}
        for a in self.answered:
            if a.order.phase != phase:
                phase, base, running = a.order.phase, max([base, *running.values()]), {}
            known[id(a)] = running.get(a.order.session, base)
            running[a.order.session] = max(known[id(a)], value(a))
        return known

    # ---- replies

    def check_replies(self) -> None:
        held: dict[tuple[int, str], Pair] = {}
        for a in self.answered:
            right = self.right_reply(a, held)
            if right is None or line_of({**right, "line": a.order.line, "s": a.order.session}) != a.raw + b"\n":
                self.broken("replies", (a.order.line,), f"{a.raw.decode()} is answered to {a.order.command}" + (f", not {right}" if right else ""))
            self.hold_or_release(a, held)

    def hold_or_release(self, a: Answered, held: dict[tuple[int, str], Pair]) -> None:
        if a.order.command == "hold" and a.took is not None:
            held[a.order.session, a.order.value["name"]] = a.took
        if a.order.command == "release" and a.number("n") is not None:
            held.pop((a.order.session, a.order.value["name"]), None)

    def right_reply(self, a: Answered, held: dict[tuple[int, str], Pair]) -> dict | None:
        """The right reply that is nearest to the one that was given; None where none has its numbers."""
        if a.is_refused("no_memory") and a.order.command not in ("release", "stats"):
            return {"refused": "no_memory"}
        if a.order.command in ("hold", "release"):
            return self.right_name(a, held.get((a.order.session, a.order.value["name"])))
        if a.order.command in LOOKS:
            return self.right_look(a, held)
        return {"add": self.right_add, "refresh": self.right_count, "commit": self.right_commit, "merge": self.right_merge}[a.order.command](a)

    def right_add(self, a: Answered) -> dict | None:
        document = self.document_of(a.order.value)
        refused = self.view.broken(document.labels)
        if refused:
            return refused
        if self.covered_by(document) == NEVER:
            return {"refused": "labels_full", "size": len(self.labels)} if self.view.max_labels <= len(self.labels) else None
        if a.is_refused("docs_full"):
            count = a.number("count")
            return {"refused": "docs_full", "count": count} if count is not None and self.view.max_docs <= count <= len(self.documents) else None
        if a.placed is None or a.placed >= min(self.view.max_docs, len(self.documents)):
            return None
        return {"at": a.placed} if (self.owners[a.placed], self.documents[a.placed]) == (a.order.session, document) else None

    def right_count(self, a: Answered) -> dict | None:
        n = a.number("n")
        return {"n": n} if n is not None and n <= len(self.documents) else None

    def right_commit(self, a: Answered) -> dict | None:
        for word in ("disk", "closed"):
            if a.is_refused(word):
                count = a.number("count")
                return None if count is None else {"refused": word, "count": count}
        if a.is_refused("numbers_spent"):
            # the number can be above 2^64
            number = a.reply.get("number")
            return {"refused": "numbers_spent", "number": number} if is_whole(number, 2**63, NEVER) else None
        return self.right_count(a)

    def right_merge(self, _: Answered) -> dict:
        return {"merged": True}

    def right_name(self, a: Answered, pair: Pair | None) -> dict | None:
        if a.order.command == "release":
            return {"refused": "not_held"} if pair is None else {"n": pair.documents}
        if pair is not None:
            return {"refused": "held_already"}
        right = self.right_count(a)
        if right is not None:
            a.took = Pair(right["n"])
        return right

    def right_look(self, a: Answered, held: dict[tuple[int, str], Pair]) -> dict | None:
        """Of a command that looks, over a held pair, or the one whose number the reply tells."""
        if a.order.on is not None:
            pair = held.get((a.order.session, a.order.on))
            if pair is None:
                return {"refused": "not_held"}
        else:
            refused = self.view.refused_look(a.order.value)
            if refused:
                return refused
            n = a.number("count" if a.is_refused("no_such_document") else "n")
            if n is None or n > len(self.documents):
                return None
            a.took = pair = Pair(n)
        if a.order.command == "stats" and pair.labels is None:
            pair.labels = a.number("labels")
        return self.over(pair, a.order)

    def over(self, pair: Pair, order: Order) -> dict:
        self.view.documents = self.documents
        self.view.taken, self.view.taken_labels = pair.documents, pair.labels
        return getattr(self.view, order.command)(order.value)

    # ---- documents

    def check_fresh(self) -> None:
        known = self.known_before(lambda a: a.shows, len(self.opened.documents))
        for a in self.answered:
            if a.stood is not None and not known[id(a)] <= a.stood <= len(self.documents):
                self.broken("fresh", (a.order.line,), f"{a.stood}, but the session had been shown {known[id(a)]}, and there are {len(self.documents)}")

    # ---- commits

    def check_commits(self) -> None:
        commits = [a for a in self.answered if a.order.command == "commit"]
        failed = [a for a in commits if a.failed("disk") is not None]
        if len(failed) > 1:
            self.broken("one_failure", [a.order.line for a in failed], "more than one commit failed on the disk")
        for a in commits:
            if a.failed("closed") is not None and not any(b.failed("disk") == a.failed("closed") and may_come_after(a, b) for b in failed):
                self.broken("closed", (a.order.line,), "no commit has failed so that may have come before")
        self.check_told(commits, failed, "disk", "last_commit")
        self.check_told(commits, [a for a in commits if a.failed("closed") is not None], "closed", "stays_closed")

    def check_told(self, commits: list[Answered], tellers: list[Answered], word: str, clause: str) -> None:
        """Each commit after one that told of a failure tells of it, or has no memory."""
        for a in tellers:
            for b in commits:
                if comes_after(b, a) and b.failed("closed") != a.failed(word) and not b.is_refused("no_memory"):
                    self.broken(clause, (b.order.line, a.order.line), "a commit does not tell of the failure before it")

    # ---- labels

    def paths_of(self, a: Answered) -> list[Path]:
        """The prefixes of the labels of a document that the config accepts, facet by facet, the dimension first."""
        labels = [tuple(path) for path in a.order.value.get("facets", [])]
        return [] if self.view.broken(labels) else [label[:end] for label in labels for end in range(1, len(label) + 1)]

    def covered_by(self, document: Document) -> int:
        """How many of the labels there have to be so that all of the document's are among them."""
        prefixes = [label[:end] for label in document.labels for end in range(1, len(label) + 1)]
        return max((self.ordinals[path] + 1 if path in self.ordinals else NEVER for path in prefixes), default=0)

    def shown_labels(self, a: Answered) -> int:
        """How many labels a reply has shown."""
        if a.order.command == "add":
            if a.placed is not None or a.is_refused("docs_full"):
                return self.covered_by(self.document_of(a.order.value))
            return (a.number("size") or 0) if a.is_refused("labels_full") else 0
        return (a.number("labels") or 0) if a.order.command == "stats" else 0

    def check_entered(self) -> dict[int, list[places.Spot]]:
        """For each added label, by its ordinal, the first line of each session that may have entered it, as far as its documents and replies tell: all of one
        phase, since in a later one each session has seen the pairs that these had."""
        bringers: dict[int, dict[int, places.Spot]] = {ordinal: {} for ordinal in range(len(self.opened.labels), len(self.labels))}
        events: Counter[tuple[int, int]] = Counter()
        for a in self.answered:
            behind = -1
            for path in dict.fromkeys(self.paths.get(id(a), [])):
                ordinal = self.ordinals.get(path, NEVER)
                spots = bringers.get(ordinal, {})
                is_first = all(phase == a.order.phase for phase, _, _ in spots.values())
                if ordinal in bringers and behind < ordinal and self.shown[id(a)] <= ordinal and is_first:
                    spots.setdefault(a.order.session, (*a.key, events[a.key]))
                behind = max(behind, ordinal)
            events[a.key] += self.is_event(a)
        for ordinal, spots in bringers.items():
            if not spots:
                lines = [a.order.line for a in self.answered if self.labels[ordinal] in self.paths.get(id(a), [])]
                self.broken("entered", lines, f"no add can have entered label {ordinal}, {list(self.labels[ordinal])}")
        return {ordinal: list(spots.values()) for ordinal, spots in bringers.items()}

    def check_full(self) -> None:
        refused: dict[tuple[int, int], Answered] = {}
        for a in self.answered:
            if a.order.command == "add" and a.is_refused("labels_full"):
                refused.setdefault(a.key, a)
        if not refused:
            return
        bringing: dict[Path, list[Answered]] = defaultdict(list)
        for b in self.answered:
            for path in self.paths.get(id(b), []):
                bringing[path].append(b)
        for a in refused.values():
            for path in self.labels[len(self.opened.labels) :]:
                if all(comes_after(b, a) for b in bringing[path]):
                    self.broken("full", (a.order.line, *(b.order.line for b in bringing[path])), f"label {self.ordinals[path]} was entered later")

    # ---- pairs

    def is_event(self, a: Answered) -> bool:
        return a.refreshed is not None or a.took is not None

    def check_pairs(self) -> None:
        took = [a for a in self.answered if a.took is not None]
        published: dict[int, list[Answered]] = defaultdict(list)
        for b in self.answered:
            if b.refreshed is not None:
                published[b.refreshed].append(b)
        known_refresh = self.known_before(lambda a: a.refreshed or 0, 0)
        known_pair = self.known_before(lambda a: a.took.documents if a.took else 0, 0)
        known_labels = self.known_before(lambda a: a.took.labels or 0 if a.took else 0, 0)
        covers = self.covers()
        for a in took:
            n, labels = a.took.documents, a.took.labels
            if n != len(self.opened.documents) and not any(may_come_after(a, b) for b in published[n]):
                self.broken("pairs", (a.order.line,), f"no refresh that may have come before has published {n}")
            if n < max(known_refresh[id(a)], known_pair[id(a)]) or (labels is not None and labels < known_labels[id(a)]):
                self.broken("pairs", (a.order.line,), f"a pair of {n} is older than one that the session knew")
            if labels is not None and not covers[n] <= labels <= len(self.labels):
                self.broken("publications", (a.order.line,), f"{labels} labels do not cover {n} documents, or are not there")

    def covers(self) -> list[int]:
        """For each number of documents, how many labels cover so many."""
        covers = [1]
        for document in self.documents:
            covers.append(max(covers[-1], self.covered_by(document)))
        return covers

    def check_places(self, bringers: dict[int, list[places.Spot]]) -> None:
        covers = self.covers()
        phases: list[dict[int, list[places.Event]]] = [defaultdict(list) for _ in self.script.phases]
        for a in self.answered:
            events = phases[a.order.phase][a.order.session]
            if a.refreshed is not None:
                events.append(places.Event(a.order.line, True, a.refreshed, None, max(self.shown[id(a)], covers[a.refreshed])))
            elif a.took is not None:
                events.append(places.Event(a.order.line, False, a.took.documents, a.took.labels))
        opened = (len(self.opened.documents), len(self.opened.labels))
        outcome = places.Search(places.Problem(opened, phases, bringers, len(self.labels))).run()
        self.verdict.is_decided = outcome.is_decided
        self.verdict.places = outcome.log
        if not outcome.is_found and outcome.is_decided:
            without = places.Search(places.Problem(opened, phases, {}, len(self.labels))).run()
            if without.is_found:
                self.broken("entered", outcome.lines, "a label stands before labels that its sessions had seen in pairs")
            else:
                self.broken("places", without.lines, "there is no list of publications in which each command takes the last pair")


def check(script: Script, opened: Opened, output: bytes) -> Verdict:
    """Whether the output is right for the script over what was opened."""
    return Checker(script, opened, output).run()
