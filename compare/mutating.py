"""Wrong outputs: a right one with one thing changed, and the clauses of `relation` of which one is broken then."""

from __future__ import annotations

import copy
from collections.abc import Callable, Iterator
from random import Random

from relation import Path
from scripts import Order
from shapes import LOOKS
from simulating import Ran, answer, output_of


class Output:
    """A right output, as values that can be changed."""

    def __init__(self, random: Random, ran: Ran):
        self.random, self.ran = random, ran
        self.orders = ran.script.in_writing_order()
        self.lines = copy.deepcopy(ran.lines())
        self.last = ran.last()
        self.view = ran.world.view
        self.count = len(ran.world.view.documents)

    def bytes(self) -> bytes:
        return output_of(self.lines, self.last)

    def pick(self, command: str, key: str) -> int | None:
        """Where an order of this command stands whose reply has this key."""
        found = self.all(command, key)
        return self.random.choice(found) if found else None

    def all(self, command: str, key: str) -> list[int]:
        return [place for place, order in enumerate(self.orders) if order.command == command and key in self.lines[place]]

    def refused(self, word: str) -> list[int]:
        return [place for place, line in enumerate(self.lines) if line.get("refused") == word]

    def answer(self, place: int, reply: dict) -> None:
        """Another reply to an order."""
        order = self.orders[place]
        self.lines[place] = {**reply, "line": order.line, "s": order.session}

    def looks(self) -> Iterator[int]:
        """The orders without a name that took a pair and told its number."""
        for place, order in enumerate(self.orders):
            if order.command in (*LOOKS, "hold") and order.on is None and "n" in self.lines[place]:
                yield place

    def look_at(self, place: int, documents: int) -> None:
        """The order took another pair."""
        order = self.orders[place]
        self.answer(place, {"n": documents} if order.command == "hold" else answer(self.view, order, (documents, len(self.ran.world.labels))))

    def published(self) -> Iterator[tuple[Order, int]]:
        for order, line in zip(self.orders, self.lines):
            if order.command == "refresh" and "n" in line:
                yield order, line["n"]

    def bringers(self) -> dict[Path, list[int]]:
        """For each path the adds that may enter it."""
        found: dict[Path, list[int]] = {}
        for place, order in enumerate(self.orders):
            labels = [tuple(path) for path in order.value.get("facets", [])] if order.command == "add" else []
            if not self.view.broken(labels):
                for path in dict.fromkeys(label[:end] for label in labels for end in range(1, len(label) + 1)):
                    found.setdefault(path, []).append(place)
        return found

    def exchange_labels(self, first: int, second: int) -> None:
        """Two labels stand in each other's place, whatever becomes of those between."""
        labels = list(self.ran.world.labels)
        labels[first], labels[second] = labels[second], labels[first]
        ordinals = {path: ordinal for ordinal, path in enumerate(labels)}
        self.last["labels"] = [[ordinals[path[:-1]], path[-1]] for path in labels[len(self.ran.opened.labels) :]]


def is_later(order: Order, other: Order) -> bool:
    return order.phase > other.phase or (order.phase, order.session) == (other.phase, other.session) and order.line > other.line


# ---- what is changed: each answers whether it could be


def an_at_twice(output: Output) -> bool:
    placed = output.all("add", "at")
    if len(placed) < 2:
        return False
    first, second = output.random.sample(placed, 2)
    output.lines[second]["at"] = output.lines[first]["at"]
    return True


def exchanged_places(output: Output) -> bool:
    placed = output.all("add", "at")
    if len(placed) < 2:
        return False
    first, second = (output.lines[place] for place in output.random.sample(placed, 2))
    first["at"], second["at"] = second["at"], first["at"]
    return True


def an_operation_missing(output: Output) -> bool:
    if output.last["order"]:
        output.last["order"].pop(output.random.randrange(len(output.last["order"])))
        return True
    return False


def an_operation_too_many(output: Output) -> bool:
    output.last["order"].append(output.random.choice([1, 2, output.orders[0].session if output.orders else 1, 65]))
    return True


def an_operation_of_another(output: Output) -> bool:
    if not output.last["order"]:
        return False
    place = output.random.randrange(len(output.last["order"]))
    output.last["order"][place] += 1
    return True


def a_pair_nobody_published(output: Output) -> bool:
    known = {n for _, n in output.published()} | {len(output.ran.opened.documents)}
    unknown = [n for n in range(output.count + 1) if n not in known]
    looks = list(output.looks())
    if not unknown or not looks:
        return False
    output.look_at(output.random.choice(looks), output.random.choice(unknown))
    return True


def a_pair_published_later(output: Output) -> bool:
    for place in output.looks():
        order = output.orders[place]
        sources = {n for refresh, n in output.published() if not is_later(refresh, order)} | {len(output.ran.opened.documents)}
        later = [n for refresh, n in output.published() if is_later(refresh, order) and n not in sources]
        if later:
            output.look_at(place, output.random.choice(later))
            return True
    return False


def an_old_pair(output: Output) -> bool:
    """It is older than one that a refresh of an earlier phase has published."""
    for place in output.looks():
        order = output.orders[place]
        known = [n for refresh, n in output.published() if refresh.phase < order.phase]
        older = [n for n in [len(output.ran.opened.documents), *known] if n < max(known, default=0)]
        if older:
            output.look_at(place, output.random.choice(older))
            return True
    return False


def a_stale_refresh(output: Output) -> bool:
    for place in output.all("refresh", "n") + output.all("commit", "n"):
        before = [output.lines[at]["at"] for at in output.all("add", "at") if is_later(output.orders[place], output.orders[at])]
        if before:
            output.lines[place]["n"] = output.random.randint(0, max(before))
            return True
    return False


def a_refresh_of_the_future(output: Output) -> bool:
    place = output.pick(output.random.choice(["refresh", "commit"]), "n")
    if place is None:
        return False
    output.lines[place]["n"] = output.count + 1
    return True


def a_label_before_its_elder(output: Output) -> bool:
    """Two labels that one add alone can have entered, in the other order."""
    first = len(output.ran.opened.labels)
    labels, bringers = output.ran.world.labels, output.bringers()
    pairs = [(at, at + 1) for at in range(first, len(labels) - 1) if bringers[labels[at]] == bringers[labels[at + 1]] and len(bringers[labels[at]]) == 1]
    return exchange(output, [(at, other) for at, other in pairs if labels[other][:-1] != labels[at]])


def a_label_before_a_shown_one(output: Output) -> bool:
    """Two labels that two adds of one session alone can have entered, of which the first was placed, in the other order."""
    first = len(output.ran.opened.labels)
    labels, bringers = output.ran.world.labels, output.bringers()
    pairs = []
    for at in range(first, len(labels) - 1):
        by, other_by = bringers[labels[at]], bringers[labels[at + 1]]
        is_alone = len(by) == len(other_by) == 1 and by != other_by and "at" in output.lines[by[0]]
        if is_alone and is_later(output.orders[other_by[0]], output.orders[by[0]]) and labels[at + 1][:-1] != labels[at]:
            pairs.append((at, at + 1))
    return exchange(output, pairs)


def exchange(output: Output, pairs: list[tuple[int, int]]) -> bool:
    if not pairs:
        return False
    output.exchange_labels(*output.random.choice(pairs))
    return True


def a_child_before_its_parent(output: Output) -> bool:
    for place, (parent, _) in enumerate(output.last["labels"]):
        if parent >= len(output.ran.opened.labels):
            output.last["labels"][place][0] = len(output.ran.opened.labels) + place
            return True
    return False


def a_label_of_nobody(output: Output) -> bool:
    output.last["labels"].append([0, "nobody"])
    return True


def a_label_twice(output: Output) -> bool:
    if not output.last["labels"]:
        return False
    output.last["labels"].append(output.random.choice(output.last["labels"]))
    return True


def a_label_missing(output: Output) -> bool:
    """The last label, which a document has that was placed."""
    if not output.last["labels"]:
        return False
    path = output.ran.world.labels[-1]
    output.last["labels"].pop()
    return any("at" in output.lines[place] for place in output.bringers()[path])


def last_add(output: Output) -> int | None:
    """The add that was placed last, which is then taken out of the order."""
    placed = output.all("add", "at")
    if not placed:
        return None
    output.last["order"].pop()
    return max(placed, key=lambda place: output.lines[place]["at"])


def labels_full_with_room(output: Output) -> bool:
    place = last_add(output)
    if place is None or len(output.ran.world.labels) >= output.view.max_labels:
        return False
    output.answer(place, {"refused": "labels_full", "size": len(output.ran.world.labels)})
    return True


def labels_full_of_another_size(output: Output) -> bool:
    for place in output.refused("labels_full"):
        output.lines[place]["size"] += output.random.choice([-1, 1])
        return True
    return False


def docs_full_with_room(output: Output) -> bool:
    place = last_add(output)
    if place is None or output.count - 1 >= output.view.max_docs:
        return False
    output.answer(place, {"refused": "docs_full", "count": output.count - 1})
    return True


def closed_without_failure(output: Output) -> bool:
    place = output.pick("commit", "n")
    if place is None or output.refused("disk"):
        return False
    output.answer(place, {"refused": "closed", "count": 1})
    return True


def closed_with_another_count(output: Output) -> bool:
    for place in output.refused("closed"):
        output.lines[place]["count"] += 1
        return True
    return False


def durable_after_failure(output: Output) -> bool:
    for failed in output.refused("disk") + output.refused("closed"):
        later = [place for place in output.refused("closed") if is_later(output.orders[place], output.orders[failed])]
        if later:
            output.answer(output.random.choice(later), {"n": output.count})
            return True
    return False


def two_failures(output: Output) -> bool:
    place = output.pick("commit", "n")
    if place is None or not output.refused("disk"):
        return False
    output.answer(place, {"refused": "disk", "count": 9})
    return True


def a_hit_more(output: Output) -> bool:
    place = output.pick("search", "hit_count")
    if place is None:
        return False
    output.lines[place]["hit_count"] += 1
    return True


def another_range(output: Output) -> bool:
    """A range has another count, or another number of documents has a number."""
    place = output.pick("ranges", "valued")
    if place is None:
        return False
    line = output.lines[place]
    if output.random.random() < 0.3:
        line["valued"] += 1
    else:
        output.random.choice(line["ranges"])[1] += output.random.choice([-1, 1])
    return True


def another_sum(output: Output) -> bool:
    """A component has another sum, is missing, or is one too many."""
    place = output.pick("sums", "sums")
    if place is None:
        return False
    sums = output.lines[place]["sums"]
    if not sums or output.random.random() < 0.2:
        sums.append(["nobody", -(2**63)])
    elif output.random.random() < 0.5:
        output.random.choice(sums)[1] += output.random.choice([-1, 1])
    else:
        sums.pop(output.random.randrange(len(sums)))
    return True


def another_text(output: Output) -> bool:
    place = output.pick("document", "text")
    if place is None:
        return False
    output.lines[place]["text"] += "!"
    return True


def another_page(output: Output) -> bool:
    """The hits that are listed begin one hit later, or there is one on a page that has none."""
    place = output.pick("search", "hits")
    if place is None:
        return False
    hits = output.lines[place]["hits"]
    if hits:
        hits.pop(0)
    else:
        hits.append({"at": 0, "id": "nobody"})
    return True


def hits_in_the_other_order(output: Output) -> bool:
    places = [place for place in output.all("search", "hits") if len(output.lines[place]["hits"]) > 1]
    if not places:
        return False
    output.lines[output.random.choice(places)]["hits"].reverse()
    return True


def another_content(output: Output) -> bool:
    """A hit that is shown has another text or lacks its labels, or one that is not shown has both."""
    places = [place for place in output.all("search", "hits") if output.lines[place]["hits"]]
    if not places:
        return False
    hit = output.random.choice(output.lines[output.random.choice(places)]["hits"])
    if "text" not in hit:
        hit.update({"text": "", "labels": []})
    elif output.random.random() < 0.5:
        hit["text"] += "!"
    else:
        del hit["labels"]
    return True


def held_after_release(output: Output) -> bool:
    """A name that is held is said not to be, or the other way round."""
    places = output.refused("not_held") + output.refused("held_already") + output.all("release", "n")
    if not places:
        return False
    place = output.random.choice(places)
    output.answer(place, {"n": 0} if "refused" in output.lines[place] else {"refused": "not_held"})
    return output.orders[place].command in ("hold", "release")


def too_few_labels(output: Output) -> bool:
    for place in output.all("stats", "labels"):
        if any(document.labels for document in output.view.documents[: output.lines[place]["n"]]):
            output.lines[place]["labels"] = 1
            return True
    return False


def too_many_labels(output: Output) -> bool:
    place = output.pick("stats", "labels")
    if place is None:
        return False
    output.lines[place]["labels"] = len(output.ran.world.labels) + 1
    return True


def another_merge(output: Output) -> bool:
    place = output.pick("merge", "merged")
    if place is None:
        return False
    output.answer(place, output.random.choice([{"merged": False}, {"merged": True, "n": output.count}, {"n": output.count}, {"refused": "closed", "count": 1}]))
    return True


def exchanged_replies(output: Output) -> bool:
    if len(output.lines) < 2:
        return False
    first, second = output.random.sample(range(len(output.lines)), 2)
    output.lines[first], output.lines[second] = output.lines[second], output.lines[first]
    return True


def a_reply_missing(output: Output) -> bool:
    if not output.lines:
        return False
    output.lines.pop(output.random.randrange(len(output.lines)))
    return True


def a_key_more(output: Output) -> bool:
    if not output.lines:
        return False
    output.random.choice(output.lines)["more"] = 1
    return True


def others_opened(output: Output) -> bool:
    output.last["opened"][output.random.randrange(2)] += 1
    return True


MUTATIONS: list[tuple[Callable[[Output], bool], set[str]]] = [
    (an_at_twice, {"operations"}),
    (exchanged_places, {"operations"}),
    (an_operation_missing, {"operations"}),
    (an_operation_too_many, {"operations"}),
    (an_operation_of_another, {"operations"}),
    (a_pair_nobody_published, {"pairs"}),
    (a_pair_published_later, {"pairs"}),
    (an_old_pair, {"pairs"}),
    (a_stale_refresh, {"fresh"}),
    (a_refresh_of_the_future, {"replies"}),
    (a_label_before_its_elder, {"entered"}),
    (a_label_before_a_shown_one, {"entered"}),
    (a_child_before_its_parent, {"label_list"}),
    (a_label_of_nobody, {"entered"}),
    (a_label_twice, {"label_list"}),
    (a_label_missing, {"replies"}),
    (labels_full_with_room, {"replies"}),
    (labels_full_of_another_size, {"replies"}),
    (docs_full_with_room, {"replies"}),
    (closed_without_failure, {"closed"}),
    (closed_with_another_count, {"closed"}),
    (durable_after_failure, {"last_commit", "stays_closed"}),
    (two_failures, {"one_failure"}),
    (a_hit_more, {"replies"}),
    (another_range, {"replies"}),
    (another_sum, {"replies"}),
    (another_text, {"replies"}),
    (another_page, {"replies"}),
    (hits_in_the_other_order, {"replies"}),
    (another_content, {"replies"}),
    (held_after_release, {"replies"}),
    (too_few_labels, {"publications", "replies"}),
    (too_many_labels, {"publications", "replies"}),
    (another_merge, {"replies"}),
    (exchanged_replies, {"asked"}),
    (a_reply_missing, {"asked"}),
    (a_key_more, {"replies"}),
    (others_opened, {"opened_docs", "opened_labels"}),
]


def mutations(random: Random, ran: Ran) -> Iterator[tuple[str, bytes, set[str]]]:
    """Each change that the output allows: what it is, the wrong output, and the clauses of which one is broken."""
    for change, clauses in MUTATIONS:
        output = Output(random, ran)
        if change(output):
            yield change.__name__, output.bytes(), clauses
