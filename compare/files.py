"""The files of a store, as docs/formats.md specifies them: how each is spelled, and the place of the first fault where one is none."""

import hashlib
import struct


def u32(number):
    return struct.pack(">I", number)


def u64(number):
    return struct.pack(">Q", number)


def vint(number):
    spelled = b""
    while number >= 128:
        spelled += bytes([number & 127 | 128])
        number >>= 7
    return spelled + bytes([number])


def text(string):
    spelled = string if isinstance(string, bytes) else string.encode()
    return vint(len(spelled)) + spelled


def digest(data):
    return hashlib.sha256(data).digest()


def sealed(body):
    """A commit file: its body, and the digest of it."""
    return body + digest(body)


class Malformed(Exception):
    """The bytes break a rule at this place."""

    def __init__(self, at):
        super().__init__(at)
        self.at = at


class Cursor:
    def __init__(self, data):
        self.data = data
        self.at = 0

    def take(self, count):
        if len(self.data) - self.at < count:
            raise Malformed(self.at)
        self.at += count
        return self.data[self.at - count : self.at]

    def u32(self):
        return struct.unpack(">I", self.take(4))[0]

    def u64(self):
        return struct.unpack(">Q", self.take(8))[0]

    def vint(self):
        number = 0
        for place in range(5):
            if self.at + place >= len(self.data):
                raise Malformed(self.at)
            byte = self.data[self.at + place]
            if place == 4 and byte > 15:
                raise Malformed(self.at)
            number |= (byte & 127) << 7 * place
            if byte < 128:
                if byte == 0 and place > 0:
                    raise Malformed(self.at)
                self.at += place + 1
                return number

    def text(self, most=2**32 - 1):
        start = self.at
        count = self.vint()
        left = len(self.data) - self.at
        if count > most or left < count:
            raise Malformed(start)
        try:
            return self.take(count).decode()
        except UnicodeDecodeError:
            raise Malformed(start) from None

    def expect(self, holds, at):
        if not holds:
            raise Malformed(at)

    def head(self, kind, versions=(1,)):
        self.expect(self.data[:4] == kind, 0)
        self.at = 4
        version = self.u32()
        self.expect(version in versions, 4)
        return version

    def end(self):
        self.expect(self.at == len(self.data), self.at)


# ---- labels


def label_segment(labels, first):
    """The labels from an ordinal on."""
    ordinals = {path: ordinal for ordinal, path in enumerate(labels)}
    spelled = b"FTAX" + u32(1) + u32(first) + u32(len(labels) - first)
    for path in labels[first:]:
        spelled += u32(ordinals[path[:-1]]) + text(path[-1])
    return spelled


def read_label_segment(data, labels, first, count):
    """Puts the labels of a segment behind these."""
    cursor = Cursor(data)
    cursor.head(b"FTAX")
    cursor.expect(cursor.u32() == first, 8)
    cursor.expect(cursor.u32() == count and count > 0, 12)
    known = set(labels)
    for _ in range(count):
        at = cursor.at
        parent = cursor.u32()
        cursor.expect(parent < len(labels), at)
        part = cursor.text()
        path = labels[parent] + (part,)
        cursor.expect(1 <= len(part.encode()) <= 1024 and len(path) <= 32 and path not in known, at)
        known.add(path)
        labels.append(path)
    cursor.end()


def label_commit(number, labels, parts):
    """Parts are the number, the first ordinal, the count and the digest of each segment."""
    body = b"FTCM" + u32(1) + u64(number) + u32(labels) + u32(len(parts))
    return sealed(body + b"".join(u64(n) + u32(first) + u32(count) + kept for n, first, count, kept in parts))


def commit_cursor(data, number, kind, versions=(1,)):
    """What is behind the number of a commit file, and its version."""
    cursor = Cursor(data[:-32])
    version = cursor.head(kind, versions)
    cursor.expect(cursor.u64() == number and number > 0, 8)
    return cursor, version


def read_label_commit(data, number):
    cursor, _ = commit_cursor(data, number, b"FTCM")
    labels = cursor.u32()
    cursor.expect(labels <= 1000000, 16)
    count = cursor.u32()
    cursor.expect(count > 0, 20)
    parts, start = [], 1
    for place in range(count):
        part, at = cursor.u64(), cursor.at
        cursor.expect(cursor.u32() == start, at)
        at, size = cursor.at, cursor.u32()
        cursor.expect(place < count - 1 or start + size == labels, at)
        parts.append((part, start, size, cursor.take(32)))
        start += size
    cursor.end()
    return parts


# ---- documents


def word_list(string):
    """The pieces between blanks, with a to z for A to Z."""
    for blank in "\t\r\n":
        string = string.replace(blank, " ")
    lower = {upper: upper + 32 for upper in range(ord("A"), ord("Z") + 1)}
    return [piece.translate(lower) for piece in string.split(" ") if piece]


def words(string):
    return set(word_list(string))


def term_text(path):
    spelled = [b"".join(bytes([30, byte] if byte in (30, 31) else [byte]) for byte in part.encode()) for part in path]
    return bytes([31]).join(spelled)


def document_segment(documents):
    spelled = b"FSEG" + u32(1) + u32(len(documents))
    terms = {}
    for place, document in enumerate(documents):
        spelled += text(document.id) + text(document.text)
        for ordinals in (document.leaves, document.counted):
            spelled += vint(len(ordinals)) + b"".join(map(u32, ordinals))
        of_words = {b"w" + word.encode() for word in words(document.text)}
        of_labels = {b"f" + term_text(label[:end]) for label in document.labels for end in range(1, len(label) + 1)}
        for term in of_words | of_labels:
            terms.setdefault(term, []).append(place)
    spelled += u32(len(terms))
    return spelled + b"".join(text(term) + u32(len(terms[term])) + b"".join(map(u32, terms[term])) for term in sorted(terms))


def read_document_segment(data, documents):
    """For each document its place, id and text, and its leaves with their places."""
    cursor = Cursor(data)
    cursor.head(b"FSEG")
    cursor.expect(cursor.u32() == documents and 1 <= documents <= 1000000, 8)
    records = []
    for _ in range(documents):
        at, id = cursor.at, cursor.text(256)
        cursor.expect(id != "", at)
        string = cursor.text(65536)
        count_at, count = cursor.at, cursor.vint()
        cursor.expect(count <= 256, count_at)
        leaves = [(cursor.at, cursor.u32()) for _ in range(count)]
        count_at, count = cursor.at, cursor.vint()
        cursor.expect(count <= 8192, count_at)
        read_rising(cursor, count, 2**32)
        records.append((at, id, string, leaves))
    last = None
    for _ in range(cursor.u32()):
        at, term = cursor.at, cursor.text(65568).encode()
        cursor.expect(last is None or last < term, at)
        last = term
        count_at, count = cursor.at, cursor.u32()
        cursor.expect(count > 0, count_at)
        read_rising(cursor, count, documents)
    cursor.end()
    return records


def read_rising(cursor, count, below):
    last = -1
    for _ in range(count):
        at, number = cursor.at, cursor.u32()
        cursor.expect(last < number < below, at)
        last = number


def live_bits(documents, dead):
    """A bit for each document, from the lowest of the first byte on, which is set where the document is live."""
    bits = sum(1 << place for place in range(documents) if place not in dead)
    return bits.to_bytes((documents + 7) // 8, "little")


def document_commit(number, needs, flags, parts):
    """Parts are the number, the documents, the digest and the places of the dead documents of each segment."""
    kept = sorted((dim.encode(), sum(bit for bit, is_set in zip((1, 2, 4), of) if is_set)) for dim, of in flags.items() if any(of))
    body = b"FICM" + u32(2) + u64(number) + u32(needs) + vint(len(kept))
    body += b"".join(text(dim) + bytes([bits]) for dim, bits in kept) + u32(len(parts))
    for n, documents, of, dead in parts:
        body += u64(n) + u32(documents) + of + u32(documents - len(dead)) + (live_bits(documents, dead) if dead else b"")
    return sealed(body)


def read_dead(cursor, documents, before):
    """The places of the dead documents of a segment, when the segments before it have so many live ones."""
    at, live = cursor.at, cursor.u32()
    cursor.expect(0 < live <= documents and before + live <= 1000000, at)
    if live == documents:
        return ()
    at, bits = cursor.at, cursor.take((documents + 7) // 8)
    is_set = [bits[place // 8] >> place % 8 & 1 for place in range(8 * len(bits))]
    cursor.expect(sum(is_set) == live and not any(is_set[documents:]), at)
    return tuple(place for place in range(documents) if not is_set[place])


def read_document_commit(data, number):
    cursor, version = commit_cursor(data, number, b"FICM", (1, 2))
    needs = cursor.u32()
    flags, last = {}, b""
    for _ in range(cursor.vint()):
        at, dim = cursor.at, cursor.text()
        cursor.expect(last < dim.encode() and len(dim.encode()) <= 1024, at)
        last = dim.encode()
        at, bits = cursor.at, cursor.take(1)[0]
        cursor.expect(1 <= bits <= 7, at)
        flags[dim] = tuple(bool(bits & bit) for bit in (1, 2, 4))
    at, count = cursor.at, cursor.u32()
    cursor.expect(count > 0 or version == 2, at)
    parts, total = [], 0
    for _ in range(count):
        part, at = cursor.u64(), cursor.at
        documents = cursor.u32()
        cursor.expect(version == 2 or total + documents <= 1000000, at)
        kept = cursor.take(32)
        dead = read_dead(cursor, documents, total) if version == 2 else ()
        total += documents - len(dead)
        parts.append((part, documents, kept, dead))
    cursor.end()
    return needs, flags, parts
