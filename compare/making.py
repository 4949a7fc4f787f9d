"""Scripts, damaged files and faulty lines, made at random from few names, so that they meet."""

import copy
import json

from files import digest, sealed
from shapes import NOT_JSON

DIMENSIONS = ["A", "B", "Author", "é", "Z\x1f", "a"]
# dimensions for numbers: in labels of two components, and of three
VALUED, WEIGHED = "N", "W"
# texts that are numbers, of 64 bits or of 32, and some that are nearly
NUMBERS = ["5", "-1", "10", "0", "20", "7", "007", "-0", "+1", "1.0", "2147483647", "2147483648", "-2147483648", "-2147483649", "٣", " 1", "1" + "0" * 30]
NUMBERS += ["9223372036854775807", "9223372036854775808", "-9223372036854775808", "-9223372036854775809"]
PARTS = ["a", "b", "c", "aa", "B", "\x1e", "\x1f", "x\x1fy", "ß", "𝄞", '"', "\\", "\n", "\x7f", "0", "A"]
WORDS = ["rust", "Rust", "go", "GO", "book", "É", "é", "x" * 130, "\x0b", "a,b"]
FLAGS = ("hierarchical", "multi_valued", "require_dim_count")


def some(random, most, make):
    return [make() for _ in range(random.randint(0, most))]


def path(random, deep):
    dims, parts = random.choice([DIMENSIONS[:1], DIMENSIONS[:2], DIMENSIONS, [VALUED, WEIGHED]]), random.choice([PARTS[:1], PARTS[:3], PARTS, PARTS[:2] + NUMBERS[:2]])
    return [random.choice(dims)] + some(random, deep, lambda: random.choice(parts))


def blanks_between(random, words):
    blank = random.choice([" ", "\t", "\n", "\r", "  "])
    return random.choice(["", blank]) + blank.join(words)


def query(random, levels):
    kind = random.random()
    if kind < 0.2:
        return {"all": True}
    if kind < 0.6 or levels == 1:
        word = random.choice(WORDS)
        return {"term": word.lower() if random.random() < 0.7 else word}
    if kind < 0.7:
        return {"words": blanks_between(random, some(random, 3, lambda: random.choice(WORDS)))}
    clauses = [clause for clause in ("must", "should", "must_not") if random.random() < 0.5]
    return {"bool": {clause: some(random, 3, lambda: query(random, levels - 1)) for clause in clauses}}


def dimensions(random):
    names = [dim for dim in DIMENSIONS if random.random() < 0.6]
    declared = [{"dim": dim, **{flag: random.random() < 0.7 for flag in FLAGS if random.random() < 0.6}} for dim in names]
    for dim in (VALUED, WEIGHED):
        if random.random() < 0.9:
            declared.append({"dim": dim, "multi_valued": True, "hierarchical": dim == WEIGHED or random.random() < 0.4, "require_dim_count": random.random() < 0.3})
    return declared


def config(random, dims, auto_merge=False):
    """A config line. A store that merges by itself is now and then opened without that, and another one with it."""
    value = {"cmd": "config", "dims": dims}
    if auto_merge or random.random() < 0.1:
        value["auto_merge"] = auto_merge if random.random() < 0.9 else not auto_merge
    limits = {"max_docs": [1, 3, 10, 50], "max_labels": [1, 2, 5, 10, 30], "stripes": [1, 64], "cache": [1, 65536]}
    value.update({key: random.choice(numbers) for key, numbers in limits.items() if random.random() < 0.2})
    if not dims and random.random() < 0.5:
        del value["dims"]
    return value


def numbered(random):
    """Labels that are numbers, or nearly, most of them of few."""
    few = NUMBERS[: random.choice([2, 4, 8, len(NUMBERS)])]
    labels = [[VALUED, random.choice(few)] for _ in range(random.choice([0, 1, 1, 2, 3]))]
    labels += [[WEIGHED, random.choice(PARTS[:3]), random.choice(few)] for _ in range(random.choice([0, 0, 1, 2, 3]))]
    return labels


def add(random, number):
    if random.random() < 0.1:
        return {"s": 1, "cmd": "add", "id": "twin"}
    order = {"s": 1, "cmd": "add", "id": random.choice([f"b{number}", "é", "x", "k" * 256])}
    if random.random() < 0.7:
        order["text"] = blanks_between(random, some(random, 5, lambda: random.choice(WORDS)))
    if random.random() < 0.9:
        order["facets"] = some(random, random.choice([0, 1, 2, 5]), lambda: path(random, random.choice([1, 1, 1, 2, 4])))
        for label in order["facets"]:
            if len(label) == 1 and random.random() < 0.95:
                label.append(random.choice(PARTS))
        if random.random() < 0.6:
            order["facets"] = order["facets"][: random.choice([0, 1, 5])] + numbered(random)
    return order


def ask(random):
    kind, number = random.random(), random.choice([1, 2, 5, 2**32 - 1]) if random.random() < 0.98 else 0
    if kind < 0.4:
        return {"top": path(random, 2), "n": number}
    if kind < 0.7:
        return {"specific": path(random, 2) + ["a"] * random.randint(0, 1)}
    return {"all": number}


def with_some(random, order, keys):
    """The order with some of these keys."""
    return {**order, **{key: make() for key, make in keys.items() if random.random() < 0.6}}


def matching(random):
    """What makes the keys that choose documents."""
    return {"query": lambda: query(random, 4), "drill": lambda: some(random, 3, lambda: path(random, 2))}


def search(random):
    keys = {
        **matching(random),
        "sideways": lambda: random.random() < 0.7,
        "from": lambda: random.choice([0, 1, 2, 5, 1000000]),
        "hits": lambda: random.choice([0, 1, 3, 1000000]),
        "newest": lambda: random.random() < 0.6,
        "show": lambda: random.random() < 0.6,
        "ask": lambda: some(random, 4, lambda: ask(random)),
    }
    order = with_some(random, {"s": 1, "cmd": "search"}, keys)
    if order.get("show", False) and "hits" in order:
        order["hits"] = min(order["hits"], 1000)
    return order


def bound(random):
    """An end of a range: near a number that documents have, or at the end of 64 bits."""
    near = random.choice([0, 0, 5, 10, 20, -1, 2**31, -(2**31), 2**63 - 2, -(2**63) + 1]) + random.choice([-1, 0, 0, 1])
    return max(-(2**63), min(near, 2**63 - 1))


def one_range(random):
    least, most = sorted([bound(random), bound(random)])
    if random.random() < 0.1:
        least, most = most, least
    given = {"name": random.choice(["low", "low", "high", "é", "x" * 64]), "min": least, "max": most}
    return with_some(random, given, {key: lambda: random.random() < 0.6 for key in ("min_open", "max_open")})


def ranges(random):
    given = [one_range(random) for _ in range(random.choice([1, 2, 3, 5, 64]))]
    order = {"s": 1, "cmd": "ranges", "dim": random.choice([VALUED, VALUED, VALUED, WEIGHED, *DIMENSIONS[:2]]), "ranges": given}
    return with_some(random, order, matching(random)) if random.random() < 0.4 else order


def sums(random):
    number = random.choice([1, 2, 5, 2**32 - 1]) if random.random() < 0.95 else 0
    order = {"s": 1, "cmd": "sums", "dim": random.choice([WEIGHED, WEIGHED, WEIGHED, VALUED, *DIMENSIONS[:2]]), "n": number}
    return with_some(random, order, matching(random)) if random.random() < 0.4 else order


def look(random):
    """A command that looks at what documents have."""
    return random.choice([search, search, ranges, sums])(random)


def order(random, number):
    kind = random.random()
    if kind < 0.45:
        return add(random, number)
    if kind < 0.75:
        return {"s": 1, "cmd": random.choice(["refresh", "refresh", "refresh", "commit", "commit", "stats", "merge"])}
    if kind < 0.8:
        return {"s": 1, "cmd": "document", "at": random.choice([0, 1, 2, 5, number, 2**32 - 1])}
    return look(random)


def segments(random, count):
    """So many documents, each a segment of its own, which are committed: a store of more files than one read of a folder tells."""
    orders = []
    for number in range(count):
        orders += [{"s": 1, "cmd": "add", "id": f"s{number}", "facets": [["A", random.choice(PARTS)]]}, {"s": 1, "cmd": "refresh"}]
    return orders + [{"s": 1, "cmd": "commit"}]


# ---- damage


def bent(random, data):
    """Bytes that are near to these."""
    data = bytearray(data)
    at, other = (random.randrange(len(data) or 1) for _ in range(2))
    kind, width = random.random(), random.choice([1, 1, 4, 8])
    # half of the time the last byte of a small number, as an ordinal, a place or a count
    low = [place + 3 for place in range(len(data) - 3) if not any(data[place : place + 3])]
    if low and random.random() < 0.5:
        at = random.choice(low)
    if not data or kind < 0.05:
        data += bytes(random.randrange(256) for _ in range(width))
    elif kind < 0.5:
        data[at] = random.choice([0, 1, 2, 3, 7, 8, 127, 128, 255, data[at] ^ 1, data[at] ^ 32, (data[at] + 1) % 256, (data[at] - 1) % 256])
    elif kind < 0.6:
        del data[at:]
    elif kind < 0.7:
        del data[at : at + width]
    elif kind < 0.8:
        data[at:at] = bytes(random.choice([0, 1, 2, 128, 65]) for _ in range(width))
    elif kind < 0.9:
        data[at : at + width], data[other : other + width] = data[other : other + width], data[at : at + width]
    else:
        data[at:at] = data[at : at + random.randint(1, 12)]
    return bytes(data)


def bend(random, stored):
    """Bends a file; most of the time the digests that are kept of it follow."""
    name = random.choice(sorted(stored))
    if "/commit-" in name:
        stored[name] = sealed(bent(random, stored[name][:-32])) if random.random() < 0.95 else bent(random, stored[name])
        return
    old = digest(stored[name])
    stored[name] = bent(random, stored[name])
    if random.random() < 0.95:
        for other, data in stored.items():
            if "/commit-" in other and old in data:
                stored[other] = sealed(data[:-32].replace(old, digest(stored[name])))


def damage(random, stored):
    """A bent file, one that is gone, or a stray whose number may be great."""
    kind = random.random()
    if stored and kind < 0.3:
        bend(random, stored)
    elif stored and kind < 0.5:
        del stored[random.choice(sorted(stored))]
    else:
        great = [2**40, 2**63 - 1, 2**63 - 4, 2**63 - 6, 2**63]
        number = random.choice(great) if random.random() < 0.2 else random.randint(0, 30)
        stored.setdefault(random.choice(["taxonomy/", "index/"]) + random.choice(["segment-", "pending-"]) + str(number), b"stray")


# ---- faulty lines


def chain(levels, clause):
    value = {"all": True}
    for _ in range(levels - 1):
        value = {"bool": {clause: [value]}}
    return value


EVERY = {"all": True}
PATHS = [[], ["A"] * 32, ["A"] * 33, ["A", ""], ["A", "é" * 512], ["A", "é" * 513]]
# values of a key at its limits and behind them
LIMITS = {
    "cmd": ["config", "add", "hold", "phase", "merge"],
    "s": [0, 1, 2, 64, 65, 2**64 - 1, 2**64, -1, 1.5],
    "id": ["", "x" * 256, "x" * 257, "é" * 128, "é" * 129],
    "text": ["", "x" * 65536, "x" * 65537],
    "name": ["", "x" * 64, "x" * 65, "é" * 32, "é" * 33],
    "on": ["", "x" * 64, "x" * 65, "é" * 32, "é" * 33],
    "facets": [[], [["A", "a"]] * 256, [["A", "a"]] * 257],
    "at": [0, 2**32 - 1, 2**32],
    "from": [0, 1000000, 1000001],
    "hits": [0, 1000, 1001, 1000000, 1000001],
    "newest": [True, False, None, 0, 1, "true", []],
    "show": [True, False, None, 0, 1, "true", []],
    "drill": [[], [["A"]] * 256, [["A"]] * 257],
    "ask": [[], [{"all": 1}] * 64, [{"all": 1}] * 65],
    "n": [0, 2**32 - 1, 2**32],
    "min": [0, -1, 2**63 - 1, 2**63, -(2**63), -(2**63) - 1, 0.5, "1", None],
    "max": [0, -1, 2**63 - 1, 2**63, -(2**63), -(2**63) - 1, 1e3, "1", None],
    "ranges": [[], [{"name": "a", "min": 0, "max": 1}] * 64, [{"name": "a", "min": 0, "max": 1}] * 65, [{"name": "a", "min": 0}], {"name": "a", "min": 0, "max": 1}],
    "all": [True, False, 0, 2**32 - 1, 2**32],
    "top": PATHS,
    "specific": PATHS,
    "term": ["", "x" * 65536, "x" * 65537],
    "words": ["", " ", "x" * 65536, "x" * 65537, "a " * 255, "a " * 256, "a b"],
    "query": [chain(32, "must"), chain(33, "should"), chain(42, "must_not"), chain(43, "must"), {"bool": {}}, {"bool": {"must": {}}}]
    + [{"bool": {"must": [EVERY] * 255}}, {"bool": {"should": [EVERY] * 256}}, {"bool": {"must": [EVERY] * 127, "should": [EVERY] * 128}}],
    "dims": [[{"dim": "A"}, {"dim": "A"}], [{"dim": "A"}, {"dim": "a"}], [{"dim": "A", "hierarchical": None}]],
    "dim": ["", "é" * 512, "é" * 513],
    "max_docs": [0, 1, 1000000, 1000001],
    "max_labels": [0, 1, 1000000, 1000001],
    "stripes": [0, 1, 64, 65],
    "cache": [0, 1, 65536, 65537],
    "auto_merge": [True, False, None, 0, 1, "true", []],
}
WRONG = [None, True, False, 0, 1, -1, 1.5, 1e2, 2**64, 10**30, "", "a", [], {}, [[]], [["a"]], [None], {"a": 1}, EVERY, {"all": 1}, {"term": "a"}, {"words": "a"}]
KEYS = list(LIMITS) + ["sideways", "must", "hierarchical", "min_open", "max_open", ""]

# how a number is written that has a sign, and its value; those that are no whole number of 64 bits are any that is none
SIGNED = [(b"-1", -1), (b"-9223372036854775808", -(2**63)), (b"9223372036854775807", 2**63 - 1), (b"9223372036854775808", 0.5), (b"-9223372036854775809", 0.5)]
SIGNED += [(b"-0", 0.5), (b"1.0", 0.5), (b"-1.0", 0.5), (b"1e3", 0.5), (b"1E0", 0.5), (b"18446744073709551616", 0.5), (b"-18446744073709551617", 0.5)]


def one_range_from(least):
    return {"s": 1, "cmd": "ranges", "dim": "a", "ranges": [{"name": "a", "min": least, "max": 1}]}


# lines that are no JSON, and lines that Python would read as another value than RFC 8259 with the limits of docs/formats.md gives
TEXTS = [(text, NOT_JSON) for text in (b"", b" ", b"{", b'{"cmd":"config"} x', b"{'cmd':'config'}", b'{"cmd":"config",}', b"NaN", b"Infinity", b"1e400", b"01", b"+1")]
TEXTS += [(text, NOT_JSON) for text in (b".5", b'"\xff"', b'\xef\xbb\xbf{"cmd":"config"}', b'"\\ud800"', b'"\x01"', b"[1,]", b"tru", b'"a', b'{"a" 1}', b"\x0c1", b'"\\x41"')]
TEXTS += [(text, NOT_JSON) for text in (b"- 1", b"1.", b"1e", b'{"cmd":"config","cmd":"\\q"}', b"[" * 128 + b"]" * 128)]
TEXTS += [(b"-0", 0.5), (b'{"s":-0,"cmd":"stats"}', {"s": 0.5, "cmd": "stats"}), (b'{"s":1.0,"cmd":"stats"}', {"s": 0.5, "cmd": "stats"}), (b"[" * 127 + b"]" * 127, [])]
TEXTS += [(b'{"cmd":"\\u0063onfig"}', {"cmd": "config"}), (b'{"cmd":"x","cmd":"config"}', {"cmd": "config"}), (b'{"s":1,"s":2,"cmd":"stats"}', {"s": 2, "cmd": "stats"})]
TEXTS += [(b'{"s":1,"cmd":"hold","name":"\\u0000"}', {"s": 1, "cmd": "hold", "name": "\0"}), (b'{"cmd":"phase","cmd":"phase"}', {"cmd": "phase"})]
TEXTS += [(b'{"s":1,"cmd":"ranges","dim":"a","ranges":[{"name":"a","min":%b,"max":1}]}' % number, one_range_from(value)) for number, value in SIGNED]
TEXTS += [(b'\t{"s":1 ,\r"cmd" : "stats"} \r', {"s": 1, "cmd": "stats"}), (b'{"s":1,"cmd":"add","id":"\\ud834\\udd1e"}', {"s": 1, "cmd": "add", "id": "𝄞"})]


def spots(value):
    """Each place inside a value, as the container and its key."""
    keys = list(value) if isinstance(value, dict) else range(len(value)) if isinstance(value, list) else []
    return [spot for key in keys for spot in [(value, key)] + spots(value[key])]


def wrong(random, value):
    """A value that is near to this one."""
    value = copy.deepcopy(value)
    places = spots(value) if random.random() < 0.5 else [(value, key) for key in value]
    container, key = random.choice(places)
    kind = random.random()
    if kind < 0.05:
        return copy.deepcopy(random.choice(WRONG))
    if kind < 0.5:
        container[key] = copy.deepcopy(random.choice(LIMITS.get(key, PATHS)))
    elif kind < 0.65:
        container[key] = copy.deepcopy(random.choice(WRONG))
    elif isinstance(container, list):
        container.append(container[key])
    elif kind < 0.8:
        del container[key]
    else:
        added = random.choice(KEYS)
        container[added] = copy.deepcopy(random.choice(LIMITS.get(added, WRONG)))
    return value


def faulty(random, values):
    """A text for each line, one of them wrong, and the values of the lines."""
    values = list(values)
    texts = [json.dumps(value, ensure_ascii=random.random() < 0.5).encode() for value in values]
    at = random.randrange(len(values))
    if random.random() < 0.8:
        values[at] = wrong(random, values[at])
        texts[at] = json.dumps(values[at], ensure_ascii=random.random() < 0.5).encode()
    else:
        texts[at], values[at] = random.choice(TEXTS)
    return texts, values
