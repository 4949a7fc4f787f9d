"""The first fault of a script, as docs/formats.md specifies it, given the value of each line."""

from files import word_list

MOST_SESSIONS = 64

# the commands that look at a pair, which `on` may name
LOOKS = ("search", "ranges", "sums", "document", "stats")

# stands for the value of a line that is no JSON
NOT_JSON = object()


def is_whole(value, least=0, most=2**64 - 1):
    return isinstance(value, int) and not isinstance(value, bool) and least <= value <= most


def is_signed(value):
    return is_whole(value, -(2**63), 2**63 - 1)


def is_count(value):
    return is_whole(value, 0, 2**32 - 1)


def is_text(value, least, most):
    return isinstance(value, str) and least <= len(value.encode()) <= most


def is_truth(value):
    return isinstance(value, bool)


def is_list(value, most, is_element):
    return isinstance(value, list) and len(value) <= most and all(map(is_element, value))


def is_name(value):
    return is_text(value, 1, 64)


def is_component(value):
    return is_text(value, 1, 1024)


def is_path(value):
    return is_list(value, 32, is_component) and value != []


def is_object(value, due, free=()):
    """It has the keys that are due, and no others but free ones; `due` and `free` say what each is."""
    tests = {**due, **dict(free)}
    return isinstance(value, dict) and set(due) <= set(value) <= set(tests) and all(tests[key](value[key]) for key in value)


def is_dimension(value):
    return is_object(value, {"dim": is_component}, dict.fromkeys(("hierarchical", "multi_valued", "require_dim_count"), is_truth))


def are_dimensions(value):
    return is_list(value, len(value) if isinstance(value, list) else 0, is_dimension) and len({dim["dim"] for dim in value}) == len(value)


def size_of(value):
    """The levels of a query and the number of queries in it, or None."""
    if is_object(value, {"all": lambda is_all: is_all is True}) or is_object(value, {"term": lambda term: is_text(term, 1, 65536)}):
        return 1, 1
    if is_object(value, {"words": lambda string: is_text(string, 0, 65536)}):
        count = len(word_list(value["words"]))
        return (2, 1 + count) if count else (1, 1)
    if not is_object(value, {"bool": lambda clauses: isinstance(clauses, dict)}):
        return None
    clauses = value["bool"]
    if not is_object(clauses, {}, dict.fromkeys(("must", "should", "must_not"), lambda clause: isinstance(clause, list))):
        return None
    sizes = [size_of(inside) for clause in clauses.values() for inside in clause]
    if None in sizes:
        return None
    return 1 + max((levels for levels, _ in sizes), default=0), 1 + sum(queries for _, queries in sizes)


def is_query(value):
    size = size_of(value)
    return size is not None and size[0] <= 32 and size[1] <= 256


def is_drill(value):
    return is_list(value, 256, is_path)


def is_ask(value):
    return is_object(value, {"top": is_path, "n": is_count}) or is_object(value, {"specific": is_path}) or is_object(value, {"all": is_count})


def is_range(value):
    return is_object(value, {"name": is_name, "min": is_signed, "max": is_signed}, {"min_open": is_truth, "max_open": is_truth})


def are_ranges(value):
    return is_list(value, 64, is_range) and value != []


def is_command(name):
    return lambda value: value == name


def is_config(value):
    limits = {"max_docs": 1000000, "max_labels": 1000000, "stripes": 64, "cache": 65536}
    free = {key: lambda number, most=most: is_whole(number, 1, most) for key, most in limits.items()}
    return is_object(value, {"cmd": is_command("config")}, {"dims": are_dimensions, "auto_merge": is_truth, **free})


# what the documents are whose numbers a command takes
MATCHING = {"on": is_name, "query": is_query, "drill": is_drill}

# the keys of each command besides `cmd` and `s`: those that are due, and those that may be left out
COMMANDS = {
    "add": (
        {"id": lambda id: is_text(id, 1, 256)},
        {"text": lambda string: is_text(string, 0, 65536), "facets": lambda facets: is_list(facets, 256, is_path)},
    ),
    "refresh": ({}, {}),
    "commit": ({}, {}),
    "merge": ({}, {}),
    "hold": ({"name": is_name}, {}),
    "release": ({"name": is_name}, {}),
    "stats": ({}, {"on": is_name}),
    "document": ({"at": is_count}, {"on": is_name}),
    "ranges": ({"dim": is_component, "ranges": are_ranges}, MATCHING),
    "sums": ({"dim": is_component, "n": is_count}, MATCHING),
    "search": (
        {},
        {
            **MATCHING,
            "sideways": is_truth,
            "from": lambda first: is_whole(first, 0, 1000000),
            "hits": lambda hits: is_whole(hits, 0, 1000000),
            "newest": is_truth,
            "show": is_truth,
            "ask": lambda asks: is_list(asks, 64, is_ask),
        },
    ),
}


def is_order(value):
    if not any(is_object(value, {"cmd": is_command(name), "s": is_whole, **due}, free) for name, (due, free) in COMMANDS.items()):
        return False
    return not value.get("show", False) or value.get("hits", 10) <= 1000


def is_phase(value):
    return is_object(value, {"cmd": is_command("phase")})


def nested(value):
    """How many containers stand inside one another."""
    inside = value.values() if isinstance(value, dict) else value if isinstance(value, list) else None
    return 0 if inside is None else 1 + max(map(nested, inside), default=0)


def first_fault(values):
    for line, value in enumerate(values, 1):
        if value is NOT_JSON or nested(value) > 127:
            return {"fault": "not_json", "line": line}
        if line == 1:
            if not isinstance(value, dict) or value.get("cmd") != "config":
                return {"fault": "no_config_first"}
            if not is_config(value):
                return {"fault": "bad_shape", "line": 1}
        elif not is_order(value) and not is_phase(value):
            return {"fault": "bad_shape", "line": line}
        elif not 1 <= value.get("s", 1) <= MOST_SESSIONS:
            return {"fault": "bad_session", "line": line}
    return None if values else {"fault": "no_config_first"}
