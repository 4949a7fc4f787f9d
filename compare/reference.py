"""What a run of the program is to write, and which files it is to leave: docs/formats.md evaluated from scratch over plain lists, without an index."""

import json
import re
from collections import namedtuple

import files
from files import Malformed, digest, words

# Labels are paths, which are tuples of texts; leaves and counted are ordinals.
Document = namedtuple("Document", "id text labels leaves counted")

NO_FLAGS = (False, False, False)


def line_of(value):
    return json.dumps(value, ensure_ascii=False, separators=(",", ":"), sort_keys=True).encode() + b"\n"


class NotOpened(Exception):
    """The files of a directory are no store: the status, and the line that tells of it."""

    def __init__(self, status, line):
        super().__init__(status)
        self.status = status
        self.line = line


def is_under(path, other):
    return path[: len(other)] == other


def has(document, path):
    return any(is_under(label, path) for label in document.labels)


def count(documents, path):
    return sum(has(document, path) for document in documents)


def matches(query, document_words):
    if "all" in query:
        return True
    if "term" in query:
        return query["term"] in document_words
    if "words" in query:
        return words(query["words"]) <= document_words
    must, should, must_not = (query["bool"].get(key, []) for key in ("must", "should", "must_not"))
    if any(matches(inside, document_words) for inside in must_not):
        return False
    if must:
        return all(matches(inside, document_words) for inside in must)
    return any(matches(inside, document_words) for inside in should)


def number_of(name):
    return int(name.rsplit("-", 1)[1])


def signed_number(text, bits):
    """The number of a number text, where it has so many bits with sign, or None."""
    number = int(text) if re.fullmatch("0|-?[1-9][0-9]*", text) else None
    return number if number is not None and -(2 ** (bits - 1)) <= number < 2 ** (bits - 1) else None


def values(document, dim):
    """The numbers of a document in a dimension: those of its labels of two components."""
    numbers = [signed_number(label[1], 64) for label in document.labels if len(label) == 2 and label[0] == dim]
    return [number for number in numbers if number is not None]


def weights(document, dim):
    """The components of a document in a dimension that have a number, each with it, once for each label."""
    numbers = [(label[1], signed_number(label[2], 32)) for label in document.labels if len(label) == 3 and label[0] == dim]
    return [(part, number) for part, number in numbers if number is not None]


def contains(given, number):
    """Whether a number lies in a range."""
    if number == given["min"] and given.get("min_open", False) or number == given["max"] and given.get("max_open", False):
        return False
    return given["min"] <= number <= given["max"]


def tiered(ends):
    """Where segments end that ended at `ends`, once all from the first one on that has less than a third of the documents after it are one."""
    for at, (start, end) in enumerate(zip([0, *ends], ends)):
        if 3 * (end - start) < ends[-1] - end:
            return ends[:at] + ends[-1:]
    return ends


class Session:
    """The files of a store, by their names, with what was read of them and added since."""

    def __init__(self, stored, config):
        self.stored = stored
        names = ("hierarchical", "multi_valued", "require_dim_count")
        self.flags = {dim["dim"]: tuple(dim.get(name, False) for name in names) for dim in config.get("dims", [])}
        self.max_docs = config.get("max_docs", 1000000)
        self.max_labels = config.get("max_labels", 1000000)
        self.auto_merge = config.get("auto_merge", False)
        self.labels = [()]
        self.documents = []
        # where the segments end, each with its bytes and its dead documents if it has any, and how many documents and labels a search sees
        self.ends, self.bodies = [], []
        self.label_commit, self.label_parts = None, []
        self.document_commit, self.kept = None, []
        self.open()
        self.taken, self.taken_labels = len(self.documents), len(self.labels)
        self.committed_labels = len(self.labels)

    def flags_of(self, dim):
        return self.flags.get(dim, NO_FLAGS)

    # ---- opening

    def newest(self, directory):
        numbers = [number_of(name) for name in self.stored if name.startswith(directory + "/commit-")]
        return max(numbers, default=None)

    def checked(self, name, body, kept):
        if digest(body) != kept:
            raise NotOpened(7, {"fault": "damaged", "file": name, "found": digest(body).hex(), "kept": kept.hex()})

    def commit_file(self, name):
        data = self.stored[name]
        if len(data) < 32:
            raise NotOpened(7, {"at": len(data), "fault": "malformed", "file": name})
        self.checked(name, data[:-32], data[-32:])
        return data

    def segment_file(self, name, kept):
        if name not in self.stored:
            raise NotOpened(7, {"fault": "missing", "file": name})
        self.checked(name, self.stored[name], kept)
        return self.stored[name]

    def within(self, name, read, *arguments):
        try:
            return read(*arguments)
        except Malformed as fault:
            raise NotOpened(7, {"at": fault.at, "fault": "malformed", "file": name}) from None

    def open(self):
        greatest = max(map(number_of, self.stored), default=0)
        if greatest >= 2**63:
            raise NotOpened(7, {"fault": "numbers_spent", "number": greatest})
        self.next = greatest + 1
        self.open_labels()
        self.open_documents()

    def open_labels(self):
        number = self.newest("taxonomy")
        if number is None:
            return
        name = f"taxonomy/commit-{number}"
        self.label_commit = number
        self.label_parts = self.within(name, files.read_label_commit, self.commit_file(name), number)
        for part, first, size, kept in self.label_parts:
            name = f"taxonomy/segment-{part}"
            self.within(name, files.read_label_segment, self.segment_file(name, kept), self.labels, first, size)

    def open_documents(self):
        number = self.newest("index")
        if number is None:
            return
        name = f"index/commit-{number}"
        self.document_commit = number
        needs, flags, parts = self.within(name, files.read_document_commit, self.commit_file(name), number)
        for dim in sorted({**flags, **self.flags}, key=str.encode):
            if flags.get(dim, NO_FLAGS) != self.flags_of(dim):
                raise NotOpened(10, {"dim": dim, "fault": "other_config"})
        if needs > len(self.labels):
            raise NotOpened(7, {"fault": "uncovered", "has": len(self.labels), "needs": needs})
        for part, size, kept, dead in parts:
            name = f"index/segment-{part}"
            data = self.segment_file(name, kept)
            self.within(name, self.open_segment, data, needs, size, dead)
            self.kept.append((part, data, size, dead))

    def open_segment(self, data, needs, size, dead):
        documents = []
        for at, id, string, leaves in files.read_document_segment(data, size):
            for leaf_at, leaf in leaves:
                if not 0 < leaf < needs:
                    raise Malformed(leaf_at)
            labels = [self.labels[leaf] for _, leaf in leaves]
            if self.broken(labels):
                raise Malformed(at)
            documents.append(self.document_of(id, string, labels))
        written = files.document_segment(documents)
        if written != data:
            raise Malformed(next((at for at, pair in enumerate(zip(written, data)) if pair[0] != pair[1]), min(len(written), len(data))))
        self.documents += [document for place, document in enumerate(documents) if place not in dead]
        self.ends.append(len(self.documents))
        self.bodies.append((data, size, dead) if dead else None)

    # ---- adding

    def broken(self, labels):
        """What the first facet breaks that breaks a rule."""
        for facet, label in enumerate(labels):
            hierarchical, multi_valued, _ = self.flags_of(label[0])
            if len(label) == 1:
                return {"refused": "no_component", "facet": facet}
            if not hierarchical and len(label) > 2:
                return {"refused": "not_hierarchical", "facet": facet, "len": len(label) - 1}
            if not multi_valued and any(earlier[0] == label[0] for earlier in labels[:facet]):
                return {"refused": "not_multi_valued", "facet": facet}
        return None

    def document_of(self, id, string, labels):
        counted = set(labels)
        for label in labels:
            hierarchical, multi_valued, require_dim_count = self.flags_of(label[0])
            if multi_valued and (hierarchical or require_dim_count):
                counted |= {label[:end] for end in range(1 if require_dim_count else 2, len(label))}
        ordinals = {path: ordinal for ordinal, path in enumerate(self.labels)}
        return Document(id, string, labels, [ordinals[label] for label in labels], sorted(ordinals[path] for path in counted))

    def add(self, order):
        labels = [tuple(path) for path in order.get("facets", [])]
        refused = self.broken(labels)
        if refused:
            return refused
        limit = max(self.max_labels, len(self.labels))
        for label in labels:
            for end in range(1, len(label) + 1):
                if label[:end] in self.labels:
                    continue
                if len(self.labels) >= limit:
                    return {"refused": "labels_full", "size": limit}
                self.labels.append(label[:end])
        if len(self.documents) >= self.max_docs:
            return {"refused": "docs_full", "count": len(self.documents)}
        self.documents.append(self.document_of(order["id"], order.get("text", ""), labels))
        return {"at": len(self.documents) - 1}

    def flush(self):
        if len(self.documents) > (self.ends[-1] if self.ends else 0):
            self.ends.append(len(self.documents))
            self.bodies.append(None)

    def end_at(self, ends):
        """Segments end there, where the last one is a new one if it begins earlier than it did."""
        if len(ends) < len(self.ends):
            self.bodies = self.bodies[: len(ends) - 1] + [None]
        self.ends = ends

    def merge(self, order):
        self.flush()
        self.end_at(self.ends[-1:])
        return {"merged": True}

    def settle(self):
        """Puts all documents into segments, and with `auto_merge` makes these few."""
        self.flush()
        if self.auto_merge:
            self.end_at(tiered(self.ends))

    def refresh(self, order):
        self.settle()
        self.taken, self.taken_labels = len(self.documents), len(self.labels)
        return {"n": self.taken}

    # ---- searching

    def top(self, documents, path, most):
        parts = {label[len(path)] for document in documents for label in document.labels if len(label) > len(path) and is_under(label, path)}
        if not parts:
            return None
        children = sorted(((part, count(documents, path + (part,))) for part in parts), key=lambda child: (-child[1], child[0].encode()))
        _, multi_valued, require_dim_count = self.flags_of(path[0])
        if multi_valued:
            value = count(documents, path) if require_dim_count else -1
        else:
            value = sum(child[1] for child in children)
        return {"child_count": len(children), "children": [list(child) for child in children[:most]], "path": list(path), "value": value}

    def refused_ask(self, asks):
        for place, ask in enumerate(asks):
            if "specific" in ask:
                hierarchical, multi_valued, require_dim_count = self.flags_of(ask["specific"][0])
                is_kept = require_dim_count if multi_valued else hierarchical
                if len(ask["specific"]) == 1 and not is_kept:
                    return {"refused": "dim_value_not_kept", "ask": place}
            elif ask.get("n", ask.get("all")) == 0:
                return {"refused": "top_zero", "ask": place}
        return None

    def answer(self, ask, seen, documents_for):
        if "specific" in ask:
            path = tuple(ask["specific"])
            value = count(documents_for(path[0]), path) if count(seen, path) else -1
            return {"path": list(path), "value": value}
        if "top" in ask:
            path = tuple(ask["top"])
            return self.top(documents_for(path[0]), path, ask["n"])
        dims = {label[0] for document in seen for label in document.labels}
        results = [self.top(documents_for(dim), (dim,), ask["all"]) for dim in dims]
        return {"dims": sorted(filter(None, results), key=lambda result: (-result["value"], result["path"][0].encode()))}

    def refused_look(self, order):
        """Why a command that looks at a pair is rejected, whichever pair that is, or None."""
        if order["cmd"] == "sums":
            return {"refused": "top_zero", "ask": 0} if order["n"] == 0 else None
        return self.refused_ask(order.get("ask", []))

    def passing(self, order):
        """Tells whether a document passes the query and the drill of a command, all its dimensions or all besides one."""
        query = order.get("query", {"all": True})
        drill = [tuple(path) for path in order.get("drill", [])]

        def passes(document, besides=None):
            dims = {path[0] for path in drill} - {besides}
            return matches(query, words(document.text)) and all(any(has(document, path) for path in drill if path[0] == dim) for dim in dims)

        return passes

    def search(self, order):
        asks = order.get("ask", [])
        refused = self.refused_look(order)
        if refused:
            return refused
        seen = self.documents[: self.taken]
        passes = self.passing(order)

        def documents_for(dim):
            return [document for document in seen if passes(document, dim if order.get("sideways", False) else None)]

        hits = [(at, document) for at, document in enumerate(seen) if passes(document)]
        results = [self.answer(ask, seen, documents_for) for ask in asks]
        return {"n": self.taken, "hit_count": len(hits), "hits": self.listed(order, hits), "results": results}

    def listed(self, order, hits):
        """The page of these hits that a search lists, each with its text and labels if the search shows them."""
        in_order = hits[::-1] if order.get("newest", False) else hits
        page = in_order[order.get("from", 0) :][: order.get("hits", 10)]
        if not order.get("show", False):
            return [{"at": at, "id": document.id} for at, document in page]
        return [{"at": at, "id": document.id, "text": document.text, "labels": [list(label) for label in document.labels]} for at, document in page]

    def ranges(self, order):
        found = [values(document, order["dim"]) for document in filter(self.passing(order), self.documents[: self.taken])]
        counts = [[given["name"], sum(any(contains(given, number) for number in numbers) for numbers in found)] for given in order["ranges"]]
        return {"n": self.taken, "ranges": counts, "valued": sum(map(bool, found))}

    def sums(self, order):
        refused = self.refused_look(order)
        if refused:
            return refused
        totals = {}
        for document in filter(self.passing(order), self.documents[: self.taken]):
            for part, number in weights(document, order["dim"]):
                totals[part] = totals.get(part, 0) + number
        falling = sorted(totals.items(), key=lambda total: (-total[1], total[0].encode()))
        return {"n": self.taken, "sums": [list(total) for total in falling[: order["n"]]]}

    def document(self, order):
        at = order["at"]
        if at >= self.taken:
            return {"refused": "no_such_document", "count": self.taken}
        found = self.documents[at]
        return {"n": self.taken, "at": at, "id": found.id, "text": found.text, "labels": [list(label) for label in found.labels], "ordinals": found.leaves}

    def stats(self, order):
        return {"n": self.taken, "documents": self.taken, "labels": self.taken_labels}

    # ---- committing

    def commit(self, order):
        self.settle()
        put, following = {}, self.next
        label_commit, label_parts = self.label_commit, self.label_parts
        if len(self.labels) > self.committed_labels:
            first = self.committed_labels
            segment = files.label_segment(self.labels, first)
            label_parts = label_parts + [(following, first, len(self.labels) - first, digest(segment))]
            label_commit = following + 1
            put[f"taxonomy/segment-{following}"] = segment
            put[f"taxonomy/commit-{label_commit}"] = files.label_commit(label_commit, len(self.labels), label_parts)
            following += 2
        segments = [
            body or (files.document_segment(self.documents[start:end]), end - start, ())
            for start, end, body in zip([0] + self.ends, self.ends, self.bodies)
        ]
        document_commit, kept = self.document_commit, self.kept
        if segments != [of[1:] for of in kept]:
            kept, left = [], list(self.kept)
            for data, size, dead in segments:
                twin = next((place for place, of in enumerate(left) if of[1] == data), None)
                if twin is None:
                    put[f"index/segment-{following}"] = data
                    kept.append((following, data, size, dead))
                    following += 1
                else:
                    kept.append((left[twin][0], data, size, dead))
                    left = left[twin + 1 :]
            document_commit = following
            parts = [(part, size, digest(data), dead) for part, data, size, dead in kept]
            put[f"index/commit-{document_commit}"] = files.document_commit(document_commit, len(self.labels), self.flags, parts)
            following += 1
        if put and following > 2**63:
            return {"refused": "numbers_spent", "number": following - 1}
        self.next, self.committed_labels = following, len(self.labels)
        self.label_commit, self.label_parts, self.document_commit, self.kept = label_commit, label_parts, document_commit, kept
        self.stored.update(put)
        self.remove_strays()
        return {"n": len(self.documents)}

    def remove_strays(self):
        named = {f"taxonomy/commit-{self.label_commit}", f"index/commit-{self.document_commit}"}
        named |= {f"taxonomy/segment-{part[0]}" for part in self.label_parts} | {f"index/segment-{part[0]}" for part in self.kept}
        for name in set(self.stored) - named:
            del self.stored[name]


def run(stored, values):
    """The status and the output of a script, whose lines have these values, over stored files, which become those that the run leaves."""
    try:
        session = Session(stored, values[0])
    except NotOpened as fault:
        return fault.status, line_of(fault.line)
    output = b""
    for line, order in enumerate(values[1:], 2):
        reply = getattr(session, order["cmd"])(order)
        output += line_of({**reply, "line": line, "s": 1})
    return 0, output
