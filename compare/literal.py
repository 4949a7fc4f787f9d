"""The clauses of a right output spelled out, slowly, over data that no line of an output tells: which pairs were published, in their order and with their
numbers of labels, and which of them each order took. `relation` looks for such data; here one sees whether what it found is right, and, by trying all there is
for tiny scripts, whether there is none where it found none."""

from __future__ import annotations

import itertools
from collections.abc import Callable, Iterator
from dataclasses import dataclass

from reference import Document
from relation import Answered, Checker, comes_after, may_come_after
from shapes import LOOKS

Numbers = tuple[int, int]


@dataclass
class Hidden:
    """The pairs that were published, each beside its session, and by line the place among them of what an order took or published."""

    published: list[tuple[int, Numbers]]
    places: dict[int, int]


@dataclass
class Literal:
    """An output that was read, with its hidden data."""

    read: Checker
    hidden: Hidden

    def place(self, a: Answered) -> int | None:
        return self.hidden.places.get(a.order.line)

    def took(self, a: Answered) -> Numbers | None:
        place = self.place(a)
        return self.hidden.published[place][1] if place is not None and a.order.command != "refresh" else None

    def broken(self) -> list[str]:
        """The clauses on what is hidden that do not hold."""
        clauses: dict[str, Callable[[], bool]] = {
            "replies": self.replies,
            "entered": lambda: all(self.is_entered(ordinal) for ordinal in range(len(self.read.opened.labels), len(self.read.labels))),
            "fresh": lambda: all(a.stood is None or self.is_fresh(a, a.stood) for a in self.read.answered),
            "opened_pair_first": lambda: self.hidden.published[0] == (0, (len(self.read.opened.documents), len(self.read.opened.labels))),
            "publications": self.are_publications,
            "refreshes": self.are_refreshes,
            "pairs": lambda: all(self.took(a) is None or self.is_right_pair(a, self.took(a)) for a in self.read.answered),
            "places": lambda: all(self.place(a) is None or self.is_at(a, self.place(a)) for a in self.read.answered),
            "have_places": lambda: all(a.refreshed is None or self.place(a) is not None for a in self.read.answered),
        }
        return [name for name, holds in clauses.items() if not holds()]

    def known_to(self, a: Answered) -> Iterator[Answered]:
        return (b for b in self.read.answered if comes_after(a, b))

    # ---- replies

    def replies(self) -> bool:
        held: dict[tuple[int, str], Numbers] = {}
        for a in self.read.answered:
            key = (a.order.session, a.order.value.get("name", ""))
            if not self.is_right(a, held):
                return False
            if a.order.command == "hold" and "n" in a.reply and self.took(a) is not None:
                held[key] = self.took(a)
            if a.order.command == "release" and "n" in a.reply:
                held.pop(key, None)
        return True

    def is_right(self, a: Answered, held: dict[tuple[int, str], Numbers]) -> bool:
        if a.is_refused("no_memory"):
            return a.order.command not in ("release", "stats")
        given = {key: value for key, value in a.reply.items() if key not in ("line", "s")}
        under = held.get((a.order.session, a.order.on or a.order.value.get("name", "")))
        if a.order.command == "release":
            return given == ({"n": under[0]} if under else {"refused": "not_held"})
        if a.order.command == "hold":
            took = self.took(a)
            return given == {"refused": "held_already"} if under else took is not None and given == {"n": took[0]}
        if a.order.command in LOOKS:
            pair = under if a.order.on is not None else self.took(a)
            if pair is None:
                return a.order.on is not None and given == {"refused": "not_held"}
            self.read.view.documents, (self.read.view.taken, self.read.view.taken_labels) = self.read.documents, pair
            return given == getattr(self.read.view, a.order.command)(a.order.value)
        # the others see nothing that is hidden
        return True

    # ---- labels and documents

    def reply_among(self, a: Answered, count: int) -> bool:
        these = set(self.read.labels[:count])
        if a.order.command == "add" and (a.placed is not None or a.is_refused("docs_full")):
            return self.knows(these, self.read.document_of(a.order.value))
        if a.order.command == "add" and a.is_refused("labels_full"):
            return (a.number("size") or 0) <= count
        return a.order.command != "stats" or (a.number("labels") or 0) <= count

    def knows(self, paths: set, document: Document) -> bool:
        return all(label[:end] in paths for label in document.labels for end in range(1, len(label) + 1))

    def labels_among(self, a: Answered, count: int) -> bool:
        place = self.place(a)
        return self.reply_among(a, count) and (place is None or self.hidden.published[place][1][1] <= count)

    def is_entered(self, ordinal: int) -> bool:
        path, before = self.read.labels[ordinal], set(self.read.labels[:ordinal])
        for b in self.read.answered:
            paths = self.read.paths_of(b) if b.order.command == "add" else []
            if path in paths and before.issuperset(paths[: paths.index(path)]) and all(self.labels_among(a, ordinal) for a in self.known_to(b)):
                return True
        return False

    def is_fresh(self, a: Answered, n: int) -> bool:
        return len(self.read.opened.documents) <= n <= len(self.read.documents) and all(b.shows <= n for b in self.known_to(a))

    # ---- pairs

    def are_publications(self) -> bool:
        pairs = [pair for _, pair in self.hidden.published]
        rise = all(pair[0] <= other[0] and pair[1] <= other[1] for pair, other in zip(pairs, pairs[1:]))
        there = all(n <= len(self.read.documents) and labels <= len(self.read.labels) for n, labels in pairs)
        return rise and there and all(self.knows(set(self.read.labels[:labels]), document) for n, labels in pairs for document in self.read.documents[:n])

    def are_refreshes(self) -> bool:
        sessions = {session for session, _ in self.hidden.published[1:]} | {a.order.session for a in self.read.answered}
        return all(
            [pair[0] for by, pair in self.hidden.published[1:] if by == session]
            == [a.refreshed for a in self.read.answered if a.order.session == session and a.refreshed is not None]
            for session in sessions
        )

    def is_right_pair(self, a: Answered, pair: Numbers) -> bool:
        has_source = pair[0] == len(self.read.opened.documents) or any(b.refreshed == pair[0] and may_come_after(a, b) for b in self.read.answered)
        for b in self.known_to(a):
            earlier = self.took(b)
            if (b.refreshed or 0) > pair[0] or (earlier is not None and (earlier[0] > pair[0] or earlier[1] > pair[1])):
                return False
        return has_source and any(pair == other for _, other in self.hidden.published)

    def is_at(self, a: Answered, place: int) -> bool:
        if place >= len(self.hidden.published):
            return False
        session, pair = self.hidden.published[place]
        if a.refreshed is not None and (session, pair[0]) != (a.order.session, a.refreshed):
            return False
        if a.refreshed is not None and not all(self.labels_among(b, pair[1]) for b in self.known_to(a)):
            return False
        earlier = [self.place(b) for b in self.known_to(a) if self.place(b) is not None]
        return all(other < place if a.refreshed is not None else other <= place for other in earlier)


# ---- hidden data


def takes(a: Answered) -> bool:
    """It took a pair without a name, and was not refused for memory or for a name."""
    if a.is_refused("no_memory") or a.is_refused("held_already"):
        return False
    return a.order.command in (*LOOKS, "hold") and a.order.on is None


def found(read: Checker) -> Hidden:
    """The hidden data of a right output, as its check has found it."""
    answered = {a.order.line: a for a in read.answered}
    published = [(0, (len(read.opened.documents), len(read.opened.labels)))]
    places: dict[int, int] = {}
    for line, labels in read.verdict.places:
        a = answered[line]
        if labels is not None and a.refreshed is not None:
            published.append((a.order.session, (a.refreshed, labels)))
        places[line] = len(published) - 1
    # a search that was refused for an ask took a pair too, and so did `sums` with an `n` of 0
    for a in read.answered:
        if takes(a) and a.order.line not in places:
            places[a.order.line] = max((places[b.order.line] for b in read.answered if comes_after(a, b) and b.order.line in places), default=0)
    return Hidden(published, places)


def merged(lists: list[list[Answered]]) -> Iterator[list[Answered]]:
    """All ways to put these into one list, each in its order."""
    if not any(lists):
        yield []
    for place, of_session in enumerate(lists):
        if of_session:
            for rest in merged(lists[:place] + [of_session[1:]] + lists[place + 1 :]):
                yield [of_session[0], *rest]


def all_hidden(read: Checker) -> Iterator[Hidden]:
    """Every list of publications and every choice of places, for tiny scripts."""
    refreshes = [a for a in read.answered if a.refreshed is not None]
    taking = [a for a in read.answered if takes(a)]
    by_session = [[a for a in refreshes if a.order.session == session] for session in sorted({a.order.session for a in refreshes})]
    opened = (len(read.opened.documents), len(read.opened.labels))
    for order in merged(by_session):
        for labels in itertools.combinations_with_replacement(range(1, len(read.labels) + 1), len(order)):
            published = [(0, opened)] + [(a.order.session, (a.refreshed or 0, count)) for a, count in zip(order, labels)]
            if not Literal(read, Hidden(published, {})).are_publications():
                continue
            own = {a.order.line: place for place, a in enumerate(order, 1)}
            told = [a.number("count" if a.is_refused("no_such_document") else "n") for a in taking]
            choices = [[place for place, (_, pair) in enumerate(published) if n in (None, pair[0])] for n in told]
            for choice in itertools.product(*choices):
                yield Hidden(published, {**own, **{a.order.line: place for a, place in zip(taking, choice)}})


def has_hidden(read: Checker) -> bool:
    """There is hidden data with which all clauses on it hold."""
    return any(not Literal(read, hidden).broken() for hidden in all_hidden(read))
