"""Scripts of several sessions with outputs that are known to be right, or wrong by one clause, and scripts with their first fault."""

from __future__ import annotations

# The lines of a script, and its first fault, or None.
BOB = '{"s":1,"cmd":"add","id":"b1","facets":[["Author","Bob"]]}'
LISA = '{"s":1,"cmd":"add","id":"b2","facets":[["Author","Lisa"]]}'
CONFIG = '{"cmd":"config"}'
REFRESH = '{"s":1,"cmd":"refresh"}'
COMMIT = '{"s":1,"cmd":"commit"}'
STATS = '{"s":1,"cmd":"stats"}'
MERGE = '{"s":1,"cmd":"merge"}'
RANGES = '{"s":1,"cmd":"ranges","dim":"price","ranges":[{"name":"low","min":0,"max":10},{"name":"mid","min":10,"max":20,"min_open":true}]}'
SUMS = '{"s":1,"cmd":"sums","dim":"genre","n":10}'
BAD_SHAPE = {"fault": "bad_shape", "line": 2}


def search(keys: str) -> str:
    return '{"s":1,"cmd":"search",%s}' % keys


def one_range(keys: str) -> str:
    return '{"s":1,"cmd":"ranges","dim":"price","ranges":[{%s}]}' % keys


READ: list[tuple[str, dict | None]] = [
    ('{"cmd":"phase"}', None),
    ('{"s":64,"cmd":"hold","name":"a"}', None),
    ('{"s":2,"cmd":"release","name":"a"}', None),
    ('{"s":1,"cmd":"hold","name":"' + "é" * 32 + '"}', None),
    ('{"s":1,"cmd":"search","on":"a"}', None),
    ('{"s":1,"cmd":"document","on":"a","at":0}', None),
    ('{"s":1,"cmd":"stats","on":"a"}', None),
    ('{"s":1,"cmd":"stats","on":"' + "a" * 64 + '"}', None),
    (MERGE, None),
    ('{"s":64,"cmd":"merge"}', None),
    ('{"s":1,"cmd":"search","query":{"words":""}}', None),
    ('{"s":1,"cmd":"search","query":{"words":"' + "a\\t" * 255 + '"}}', None),
    ('{"s":1,"cmd":"search","query":{"words":"' + "a\\t" * 256 + '"}}', {"fault": "bad_shape", "line": 2}),
    ('{"s":1,"cmd":"search","query":' + '{"bool":{"must":[' * 30 + '{"words":"a"}' + "]}}" * 30 + "}", None),
    ('{"s":1,"cmd":"search","query":' + '{"bool":{"must":[' * 31 + '{"words":" "}' + "]}}" * 31 + "}", None),
    ('{"s":1,"cmd":"search","query":' + '{"bool":{"must":[' * 31 + '{"words":"a"}' + "]}}" * 31 + "}", {"fault": "bad_shape", "line": 2}),
    ('{"s":1,"cmd":"search","query":{"words":["a"]}}', {"fault": "bad_shape", "line": 2}),
    ('{"s":1,"cmd":"phase"}', {"fault": "bad_shape", "line": 2}),
    ('{"cmd":"phase","name":"a"}', {"fault": "bad_shape", "line": 2}),
    ('{"cmd":"config"}', {"fault": "bad_shape", "line": 2}),
    ('{"cmd":"refresh"}', {"fault": "bad_shape", "line": 2}),
    ('{"s":1,"cmd":"hold"}', {"fault": "bad_shape", "line": 2}),
    ('{"s":1,"cmd":"hold","name":""}', {"fault": "bad_shape", "line": 2}),
    ('{"s":1,"cmd":"hold","name":null}', {"fault": "bad_shape", "line": 2}),
    ('{"s":1,"cmd":"hold","name":"a","on":"a"}', {"fault": "bad_shape", "line": 2}),
    ('{"s":1,"cmd":"hold","name":"' + "a" * 65 + '"}', {"fault": "bad_shape", "line": 2}),
    ('{"s":1,"cmd":"release","name":"' + "é" * 33 + '"}', {"fault": "bad_shape", "line": 2}),
    ('{"s":1,"cmd":"stats","on":""}', {"fault": "bad_shape", "line": 2}),
    ('{"s":1,"cmd":"stats","on":"' + "a" * 65 + '"}', {"fault": "bad_shape", "line": 2}),
    ('{"s":1,"cmd":"stats","name":"a"}', {"fault": "bad_shape", "line": 2}),
    ('{"s":1,"cmd":"refresh","on":"a"}', {"fault": "bad_shape", "line": 2}),
    ('{"s":1,"cmd":"commit","on":"a"}', {"fault": "bad_shape", "line": 2}),
    ('{"cmd":"merge"}', {"fault": "bad_shape", "line": 2}),
    ('{"s":1,"cmd":"merge","on":"a"}', {"fault": "bad_shape", "line": 2}),
    ('{"s":1,"cmd":"merge","n":1}', {"fault": "bad_shape", "line": 2}),
    ('{"s":1,"cmd":"merges"}', {"fault": "bad_shape", "line": 2}),
    ('{"s":65,"cmd":"merge","n":1}', {"fault": "bad_shape", "line": 2}),
    ('{"s":65,"cmd":"merge"}', {"fault": "bad_session", "line": 2}),
    ('{"s":1,"cmd":"add","id":"b","on":"a"}', {"fault": "bad_shape", "line": 2}),
    ('{"s":0,"cmd":"stats"}', {"fault": "bad_session", "line": 2}),
    ('{"s":65,"cmd":"stats"}', {"fault": "bad_session", "line": 2}),
    ('{"s":18446744073709551615,"cmd":"stats"}', {"fault": "bad_session", "line": 2}),
    ('{"s":18446744073709551616,"cmd":"stats"}', {"fault": "bad_shape", "line": 2}),
    ('{"s":-1,"cmd":"stats"}', {"fault": "bad_shape", "line": 2}),
    ('{"s":65,"cmd":"hold","name":""}', {"fault": "bad_shape", "line": 2}),
    (search('"newest":true,"show":true'), None),
    (search('"newest":false,"show":false,"hits":1000000'), None),
    (search('"newest":true,"from":1000000,"hits":1000000'), None),
    (search('"show":true,"hits":1000'), None),
    (search('"hits":1001,"show":true'), BAD_SHAPE),
    (search('"hits":1001,"show":false'), None),
    (search('"show":1'), BAD_SHAPE),
    (search('"show":"true"'), BAD_SHAPE),
    (search('"show":null'), BAD_SHAPE),
    (search('"newest":0'), BAD_SHAPE),
    (search('"newest":[]'), BAD_SHAPE),
    (search('"newest":null'), BAD_SHAPE),
    (search('"Newest":true'), BAD_SHAPE),
    ('{"s":1,"cmd":"document","at":0,"show":true}', BAD_SHAPE),
    ('{"s":1,"cmd":"stats","newest":true}', BAD_SHAPE),
    (RANGES, None),
    (SUMS, None),
    (RANGES.replace('"dim"', '"on":"a","query":{"term":"go"},"drill":[["Author"]],"dim"'), None),
    (SUMS.replace('"dim"', '"on":"a","query":{"term":"go"},"drill":[["Author"]],"dim"'), None),
    (one_range('"name":"a","min":-9223372036854775808,"max":9223372036854775807'), None),
    (one_range('"name":"a","min":1,"max":-1,"min_open":false,"max_open":true'), None),
    (SUMS.replace("10", "4294967295"), None),
    (SUMS.replace("10", "4294967296"), BAD_SHAPE),
    (SUMS.replace("10", "-1"), BAD_SHAPE),
    (SUMS.replace("10", "-0"), BAD_SHAPE),
    (SUMS.replace('"genre"', '""'), BAD_SHAPE),
    (SUMS.replace("dim", "dims"), BAD_SHAPE),
    (RANGES.replace('"dim"', '"sideways":true,"dim"'), BAD_SHAPE),
    (RANGES.replace('"dim"', '"newest":true,"dim"'), BAD_SHAPE),
    (SUMS.replace('"dim"', '"show":true,"dim"'), BAD_SHAPE),
    ('{"s":1,"cmd":"ranges","dim":"price","ranges":[]}', BAD_SHAPE),
    ('{"s":1,"cmd":"ranges","dim":"price"}', BAD_SHAPE),
    (one_range('"name":"","min":0,"max":1'), BAD_SHAPE),
    (one_range('"name":"a","min":0'), BAD_SHAPE),
    (one_range('"name":"a","min":0,"max":1,"n":1'), BAD_SHAPE),
    (one_range('"name":"a","min":0,"max":1,"min_open":1'), BAD_SHAPE),
    (one_range('"name":"a","min":0,"max":9223372036854775808'), BAD_SHAPE),
    (one_range('"name":"a","min":-9223372036854775809,"max":0'), BAD_SHAPE),
    (one_range('"name":"a","min":-0,"max":1'), BAD_SHAPE),
    (one_range('"name":"a","min":1.0,"max":1'), BAD_SHAPE),
    (one_range('"name":"a","min":0,"max":1e3'), BAD_SHAPE),
    (one_range('"name":"a","min":"0","max":1'), BAD_SHAPE),
]

# A config line, and its fault, or None.
CONFIGS: list[tuple[str, dict | None]] = [
    ('{"cmd":"config","auto_merge":true}', None),
    ('{"cmd":"config","auto_merge":false}', None),
    ('{"cmd":"config","auto_merge":1}', {"fault": "bad_shape", "line": 1}),
    ('{"cmd":"config","auto_merge":"true"}', {"fault": "bad_shape", "line": 1}),
    ('{"cmd":"config","auto_merge":null}', {"fault": "bad_shape", "line": 1}),
    ('{"cmd":"config","Auto_merge":true}', {"fault": "bad_shape", "line": 1}),
]

# Where segments end, and where they end after the merge that `auto_merge` makes of them.
TIERED: list[tuple[list[int], list[int]]] = [
    ([], []),
    ([1], [1]),
    ([1, 2], [1, 2]),
    ([1, 2, 3, 4], [1, 2, 3, 4]),
    ([1, 2, 3, 4, 5], [5]),
    ([5, 6, 7, 8, 9], [5, 6, 7, 8, 9]),
    ([5, 6, 7, 8, 9, 10], [5, 10]),
    ([5, 10, 15, 20], [5, 10, 15, 20]),
    ([5, 10, 15, 20, 21], [21]),
    ([10, 11, 15, 16], [10, 16]),
    ([1, 5], [5]),
    ([1, 4], [1, 4]),
    ([100, 101, 102], [100, 101, 102]),
    ([2, 102, 103], [103]),
]

# Command-line arguments, and what they ask for: the directory, how many documents are generated, whether it is the line mode and whether it only reads; or None
# for a usage error.
WORDS: list[tuple[list[bytes], tuple | None]] = [
    ([b"d"], (b"d", None)),
    ([b""], (b"", None)),
    ([b"-"], (b"-", None)),
    ([b"--", b"--generate"], (b"--generate", None)),
    ([b"--sessions", b"8", b"d"], (b"d", None)),
    ([b"d", b"--sessions=1"], (b"d", None)),
    ([b"--generate", b"12", b"d"], (b"d", 12)),
    ([b"d", b"--generate=1000000", b"--sessions", b"8"], (b"d", 1_000_000)),
    ([b"--generate=1", b"--", b"d"], (b"d", 1)),
    ([b"--generate=+7", b"d"], (b"d", 7)),
    ([b"--generate=007", b"d"], (b"d", 7)),
    ([b"--live", b"d"], (b"d", None, True)),
    ([b"--read", b"d", b"--live"], (b"d", None, True, True)),
    ([b"--", b"--live"], (b"--live", None)),
    ([b"--live"], None),
    ([b"--read", b"d"], None),
    ([b"--live", b"d", b"--live"], None),
    ([b"--live=true", b"d"], None),
    ([b"--live", b"--sessions", b"2", b"d"], None),
    ([b"--generate", b"12", b"--live", b"d"], None),
    ([], None),
    ([b"d", b"e"], None),
    ([b"--", b"d", b"--generate"], None),
    ([b"--generate", b"0", b"d"], None),
    ([b"--generate=1000001", b"d"], None),
    ([b"--generate", b"-1", b"d"], None),
    ([b"--generate=", b"d"], None),
    ([b"--generate", b"d"], None),
    ([b"--generate", b"12"], None),
    ([b"--generate", b"--", b"d"], None),
    ([b"--generate", b"1", b"--generate", b"1", b"d"], None),
    ([b"--sessions", b"9", b"d"], None),
    ([b"--sessions=1.0", b"d"], None),
    ([b"--gen", b"1", b"d"], None),
    ([b"-h", b"d"], None),
    ([b"---", b"d"], None),
    ([b"--=1", b"d"], None),
    ([b"\xff"], None),
]

# The lines behind the config line of a script on an empty store whose output is the only right one, and that output.
ALONE: list[tuple[str, list[str], list[str]]] = [
    (CONFIG, [], ['{"labels":[],"opened":[0,1],"order":[]}']),
    (CONFIG, ['{"cmd":"phase"}'] * 2, ['{"labels":[],"opened":[0,1],"order":[]}']),
    (
        CONFIG,
        [BOB, REFRESH, '{"s":1,"cmd":"hold","name":"a"}', LISA, REFRESH, '{"s":1,"cmd":"search","on":"a"}', '{"s":1,"cmd":"search"}']
        + ['{"s":1,"cmd":"release","name":"a"}', '{"s":1,"cmd":"search","on":"a"}'],
        [
            '{"at":0,"line":2,"s":1}',
            '{"line":3,"n":1,"s":1}',
            '{"line":4,"n":1,"s":1}',
            '{"at":1,"line":5,"s":1}',
            '{"line":6,"n":2,"s":1}',
            '{"hit_count":1,"hits":[{"at":0,"id":"b1"}],"line":7,"n":1,"results":[],"s":1}',
            '{"hit_count":2,"hits":[{"at":0,"id":"b1"},{"at":1,"id":"b2"}],"line":8,"n":2,"results":[],"s":1}',
            '{"line":9,"n":1,"s":1}',
            '{"line":10,"refused":"not_held","s":1}',
            '{"labels":[[0,"Author"],[1,"Bob"],[1,"Lisa"]],"opened":[0,1],"order":[1,1]}',
        ],
    ),
    (
        CONFIG,
        ['{"s":1,"cmd":"hold","name":"a"}', '{"s":1,"cmd":"hold","name":"a"}', '{"cmd":"phase"}', '{"s":2,"cmd":"release","name":"a"}', '{"cmd":"phase"}']
        + ['{"s":1,"cmd":"stats","on":"a"}', '{"s":1,"cmd":"document","on":"a","at":0}'],
        [
            '{"line":2,"n":0,"s":1}',
            '{"line":3,"refused":"held_already","s":1}',
            '{"line":5,"refused":"not_held","s":2}',
            '{"documents":0,"labels":1,"line":7,"n":0,"s":1}',
            '{"count":0,"line":8,"refused":"no_such_document","s":1}',
            '{"labels":[],"opened":[0,1],"order":[]}',
        ],
    ),
    (
        CONFIG,
        [BOB, REFRESH, '{"s":1,"cmd":"hold","name":"a"}', LISA, REFRESH, '{"s":1,"cmd":"search","on":"a"}', MERGE, '{"s":1,"cmd":"search","on":"a"}']
        + [REFRESH, '{"s":1,"cmd":"search"}', MERGE, '{"s":1,"cmd":"search","on":"a"}', COMMIT],
        [
            '{"at":0,"line":2,"s":1}',
            '{"line":3,"n":1,"s":1}',
            '{"line":4,"n":1,"s":1}',
            '{"at":1,"line":5,"s":1}',
            '{"line":6,"n":2,"s":1}',
            '{"hit_count":1,"hits":[{"at":0,"id":"b1"}],"line":7,"n":1,"results":[],"s":1}',
            '{"line":8,"merged":true,"s":1}',
            '{"hit_count":1,"hits":[{"at":0,"id":"b1"}],"line":9,"n":1,"results":[],"s":1}',
            '{"line":10,"n":2,"s":1}',
            '{"hit_count":2,"hits":[{"at":0,"id":"b1"},{"at":1,"id":"b2"}],"line":11,"n":2,"results":[],"s":1}',
            '{"line":12,"merged":true,"s":1}',
            '{"hit_count":1,"hits":[{"at":0,"id":"b1"}],"line":13,"n":1,"results":[],"s":1}',
            '{"line":14,"n":2,"s":1}',
            '{"labels":[[0,"Author"],[1,"Bob"],[1,"Lisa"]],"opened":[0,1],"order":[1,1]}',
        ],
    ),
    (
        '{"cmd":"config","dims":[{"dim":"price","hierarchical":true,"multi_valued":true}]}',
        ['{"s":1,"cmd":"add","id":"b1","facets":[["price","10"],["price","5"]]}', '{"s":1,"cmd":"add","id":"b2","facets":[["price","15"]]}']
        + ['{"s":1,"cmd":"add","id":"b3","facets":[["price","010"],["price","9","EUR"]]}']
        + [REFRESH, RANGES, RANGES.replace('"dim"', '"on":"a","dim"'), '{"s":1,"cmd":"sums","dim":"price","n":0}'],
        [
            '{"at":0,"line":2,"s":1}',
            '{"at":1,"line":3,"s":1}',
            '{"at":2,"line":4,"s":1}',
            '{"line":5,"n":3,"s":1}',
            '{"line":6,"n":3,"ranges":[["low",1],["mid",1]],"s":1,"valued":2}',
            '{"line":7,"refused":"not_held","s":1}',
            '{"ask":0,"line":8,"refused":"top_zero","s":1}',
            '{"labels":[[0,"price"],[1,"10"],[1,"5"],[1,"15"],[1,"010"],[1,"9"],[6,"EUR"]],"opened":[0,1],"order":[1,1,1]}',
        ],
    ),
    (
        '{"cmd":"config","dims":[{"dim":"genre","hierarchical":true,"multi_valued":true}]}',
        ['{"s":1,"cmd":"add","id":"b1","facets":[["genre","b","5"],["genre","b","1"],["genre","b","1"],["genre","e","-1"]]}']
        + ['{"s":1,"cmd":"add","id":"b2","facets":[["genre","c","2147483648"],["genre","a","-1"],["genre","4"]]}', REFRESH, SUMS, SUMS.replace("10", "2")],
        [
            '{"at":0,"line":2,"s":1}',
            '{"at":1,"line":3,"s":1}',
            '{"line":4,"n":2,"s":1}',
            '{"line":5,"n":2,"s":1,"sums":[["b",7],["a",-1],["e",-1]]}',
            '{"line":6,"n":2,"s":1,"sums":[["b",7],["a",-1]]}',
            '{"labels":[[0,"genre"],[1,"b"],[2,"5"],[2,"1"],[1,"e"],[5,"-1"],[1,"c"],[7,"2147483648"],[1,"a"],[9,"-1"],[1,"4"]],"opened":[0,1],"order":[1,1]}',
        ],
    ),
    (
        CONFIG,
        [BOB, REFRESH, LISA.replace('"facets"', '"text":"go","facets"'), REFRESH]
        + [search('"newest":true'), search('"newest":true,"hits":1,"show":true'), search('"newest":true,"from":1,"hits":1'), search('"show":true')],
        [
            '{"at":0,"line":2,"s":1}',
            '{"line":3,"n":1,"s":1}',
            '{"at":1,"line":4,"s":1}',
            '{"line":5,"n":2,"s":1}',
            '{"hit_count":2,"hits":[{"at":1,"id":"b2"},{"at":0,"id":"b1"}],"line":6,"n":2,"results":[],"s":1}',
            '{"hit_count":2,"hits":[{"at":1,"id":"b2","labels":[["Author","Lisa"]],"text":"go"}],"line":7,"n":2,"results":[],"s":1}',
            '{"hit_count":2,"hits":[{"at":0,"id":"b1"}],"line":8,"n":2,"results":[],"s":1}',
            '{"hit_count":2,"hits":[{"at":0,"id":"b1","labels":[["Author","Bob"]],"text":""},{"at":1,"id":"b2","labels":[["Author","Lisa"]],"text":"go"}]'
            + ',"line":9,"n":2,"results":[],"s":1}',
            '{"labels":[[0,"Author"],[1,"Bob"],[1,"Lisa"]],"opened":[0,1],"order":[1,1]}',
        ],
    ),
    (
        '{"cmd":"config","max_labels":3}',
        ['{"s":1,"cmd":"add","id":"b","facets":[["Author","Bob"],["Year","2010"]]}', BOB],
        [
            '{"line":2,"refused":"labels_full","s":1,"size":3}',
            '{"at":0,"line":3,"s":1}',
            '{"labels":[[0,"Author"],[1,"Bob"]],"opened":[0,1],"order":[1]}',
        ],
    ),
    (
        '{"cmd":"config","max_docs":1}',
        [BOB, BOB],
        ['{"at":0,"line":2,"s":1}', '{"count":1,"line":3,"refused":"docs_full","s":1}', '{"labels":[[0,"Author"],[1,"Bob"]],"opened":[0,1],"order":[1]}'],
    ),
]

FAILED = [BOB, COMMIT, LISA, COMMIT, COMMIT, REFRESH, STATS]
A = '{"s":%d,"cmd":"add","id":"a","facets":[["A","x"]]}'
B = '{"s":%d,"cmd":"add","id":"b","facets":[["B","y"]]}'
C = '{"s":%d,"cmd":"add","id":"c","facets":[["C","z"]]}'
SEES = '{"s":%d,"cmd":"document","at":9}'
CIRCLE = [A % 1, SEES % 1, REFRESH, A % 2, SEES % 2, '{"s":2,"cmd":"refresh"}']


def circle(first: int, second: int) -> list[str]:
    """Two sessions add, look at the last pair, of so many documents, and refresh."""
    return [
        '{"at":0,"line":2,"s":1}',
        '{"count":%d,"line":3,"refused":"no_such_document","s":1}' % first,
        '{"line":4,"n":2,"s":1}',
        '{"at":1,"line":5,"s":2}',
        '{"count":%d,"line":6,"refused":"no_such_document","s":2}' % second,
        '{"line":7,"n":2,"s":2}',
        '{"labels":[[0,"A"],[1,"x"]],"opened":[0,1],"order":[1,2]}',
    ]


TIED = [REFRESH, STATS, '{"s":2,"cmd":"refresh"}', '{"s":2,"cmd":"stats"}', A % 3, B % 3]


def tied(first: int, second: int) -> list[str]:
    """Two sessions refresh before a third one has placed a document, and see so many labels."""
    return [
        '{"line":2,"n":0,"s":1}',
        '{"documents":0,"labels":%d,"line":3,"n":0,"s":1}' % first,
        '{"line":4,"n":0,"s":2}',
        '{"documents":0,"labels":%d,"line":5,"n":0,"s":2}' % second,
        '{"at":0,"line":6,"s":3}',
        '{"at":1,"line":7,"s":3}',
        '{"labels":[[0,"A"],[1,"x"],[0,"B"],[3,"y"]],"opened":[0,1],"order":[3,3]}',
    ]


def entered_later(labels: int) -> list[str]:
    """Session 1 refreshes and adds; session 2 adds before that and sees the pair, of so many labels."""
    return [
        '{"line":2,"n":1,"s":1}',
        '{"at":1,"line":3,"s":1}',
        '{"at":0,"line":4,"s":2}',
        '{"documents":1,"labels":%d,"line":5,"n":1,"s":2}' % labels,
        '{"labels":[[0,"A"],[1,"x"],[0,"C"],[3,"z"]],"opened":[0,1],"order":[2,1]}',
    ]


def seen_by_two(labels: int) -> list[str]:
    """Sessions 1 and 3 bring a label, each behind a pair that session 2 sees with so many labels."""
    return [
        '{"line":2,"n":1,"s":1}',
        '{"at":1,"line":3,"s":1}',
        '{"at":0,"line":4,"s":2}',
        '{"documents":1,"labels":%d,"line":5,"n":1,"s":2}' % labels,
        '{"count":1,"line":6,"refused":"no_such_document","s":3}',
        '{"at":2,"line":7,"s":3}',
        '{"labels":[[0,"A"],[1,"x"],[0,"C"],[3,"z"]],"opened":[0,1],"order":[2,1,3]}',
    ]


TWO_BRING = [REFRESH, C % 1, '{"s":2,"cmd":"refresh"}', C % 2, A % 3, '{"s":3,"cmd":"stats"}']


def two_bring(labels: int) -> list[str]:
    """Sessions 1 and 2 refresh and bring a label, and session 3 sees one of their pairs."""
    return [
        '{"line":2,"n":0,"s":1}',
        '{"at":1,"line":3,"s":1}',
        '{"line":4,"n":0,"s":2}',
        '{"at":2,"line":5,"s":2}',
        '{"at":0,"line":6,"s":3}',
        '{"documents":0,"labels":%d,"line":7,"n":0,"s":3}' % labels,
        '{"labels":[[0,"A"],[1,"x"],[0,"C"],[3,"z"]],"opened":[0,1],"order":[3,1,2]}',
    ]


NEXT_PHASE = [REFRESH, A % 2, '{"cmd":"phase"}', STATS, C % 2]


def next_phase(labels: int) -> list[str]:
    """Session 1 sees in the next phase what it has published in this one; session 2 adds in both."""
    return [
        '{"line":2,"n":0,"s":1}',
        '{"at":0,"line":3,"s":2}',
        '{"documents":0,"labels":%d,"line":5,"n":0,"s":1}' % labels,
        '{"at":1,"line":6,"s":2}',
        '{"labels":[[0,"A"],[1,"x"],[0,"C"],[3,"z"]],"opened":[0,1],"order":[2,2]}',
    ]


def grown(labels: int) -> list[str]:
    """One session adds, refreshes, sees so many labels and adds again."""
    return [
        '{"at":0,"line":2,"s":1}',
        '{"line":3,"n":1,"s":1}',
        '{"documents":1,"labels":%d,"line":4,"n":1,"s":1}' % labels,
        '{"at":1,"line":5,"s":1}',
        '{"labels":[[0,"A"],[1,"x"],[0,"B"],[3,"y"]],"opened":[0,1],"order":[1,1]}',
    ]


def refreshed(labels: int) -> list[str]:
    """A refresh of a session whose labels are four beside the root."""
    return [
        '{"at":0,"line":2,"s":1}',
        '{"count":1,"line":3,"refused":"docs_full","s":1}',
        '{"line":4,"n":1,"s":1}',
        '{"documents":1,"labels":%d,"line":5,"n":1,"s":1}' % labels,
        '{"labels":[[0,"A"],[1,"x"],[0,"B"],[3,"y"]],"opened":[0,1],"order":[1]}',
    ]


def committed(last: str) -> list[str]:
    return [
        '{"at":0,"line":2,"s":1}',
        '{"line":3,"n":1,"s":1}',
        '{"at":1,"line":4,"s":1}',
        '{"count":1,"line":5,"refused":"disk","s":1}',
        last,
        '{"line":7,"n":2,"s":1}',
        '{"documents":2,"labels":4,"line":8,"n":2,"s":1}',
        '{"labels":[[0,"Author"],[1,"Bob"],[1,"Lisa"]],"opened":[0,1],"order":[1,1]}',
    ]


def told(last: str) -> list[str]:
    """Session 1 fails to commit, and session 2 is told so, and then that."""
    return ['{"count":1,"line":2,"refused":"disk","s":1}', '{"count":1,"line":3,"refused":"closed","s":2}', last, '{"labels":[],"opened":[0,1],"order":[]}']


def filled(labels: str) -> list[str]:
    """An add is refused for labels, of which there are these, and in the next phase another one fits."""
    return ['{"line":2,"refused":"labels_full","s":1,"size":3}', '{"at":0,"line":4,"s":1}', '{"labels":%s,"opened":[0,1],"order":[1]}' % labels]


def ranged(last: str) -> list[str]:
    """A document has the price 10."""
    return ['{"at":0,"line":2,"s":1}', '{"line":3,"n":1,"s":1}', last, '{"labels":[[0,"price"],[1,"10"]],"opened":[0,1],"order":[1]}']


def summed(last: str) -> list[str]:
    """No document is there."""
    return [last, '{"labels":[],"opened":[0,1],"order":[]}']


def found(hits: str) -> list[str]:
    """A search lists these hits of two documents."""
    last = '{"labels":[[0,"Author"],[1,"Bob"],[1,"Lisa"]],"opened":[0,1],"order":[1,1]}'
    reply = '{"hit_count":2,"hits":%s,"line":5,"n":2,"results":[],"s":1}' % hits
    return ['{"at":0,"line":2,"s":1}', '{"at":1,"line":3,"s":1}', '{"line":4,"n":2,"s":1}', reply, last]


NEWEST = [BOB, LISA, REFRESH, search('"newest":true')]
SHOWN = [BOB, LISA, REFRESH, search('"hits":1,"show":true')]
RANGED = ['{"s":1,"cmd":"add","id":"b1","facets":[["price","10"]]}', REFRESH, RANGES]
TOLD = [COMMIT, '{"s":2,"cmd":"commit"}', '{"s":2,"cmd":"commit"}']

# The config line and the others of a script on an empty store, an output, and the clause that it breaks, or None.
JUDGED: list[tuple[str, list[str], list[str], str | None]] = [
    (CONFIG, FAILED, committed('{"count":1,"line":6,"refused":"closed","s":1}'), None),
    (CONFIG, FAILED, committed('{"line":6,"refused":"no_memory","s":1}'), None),
    (CONFIG, FAILED, committed('{"line":6,"n":2,"s":1}'), "last_commit"),
    (CONFIG, FAILED, committed('{"count":2,"line":6,"refused":"closed","s":1}'), "closed"),
    (CONFIG, FAILED, committed('{"count":2,"line":6,"refused":"disk","s":1}'), "one_failure"),
    (CONFIG, TOLD, told('{"count":1,"line":4,"refused":"closed","s":2}'), None),
    (CONFIG, TOLD, told('{"line":4,"n":0,"s":2}'), "stays_closed"),
    # each session saw the pair that the other one published only later
    (CONFIG, CIRCLE, circle(2, 0), None),
    (CONFIG, CIRCLE, circle(0, 2), None),
    (CONFIG, CIRCLE, circle(2, 2), "places"),
    # of two refreshes with equal numbers, the one that a session saw with fewer labels came first
    (CONFIG, TIED, tied(4, 2), None),
    (CONFIG, TIED, tied(2, 4), None),
    (CONFIG, TIED, tied(4, 6), "publications"),
    # a refresh has the labels that its session had been shown
    ('{"cmd":"config","max_docs":1}', [A % 1, B % 1, REFRESH, STATS], refreshed(5), None),
    ('{"cmd":"config","max_docs":1}', [A % 1, B % 1, REFRESH, STATS], refreshed(3), "places"),
    ('{"cmd":"config","max_docs":1}', [A % 1, B % 1, REFRESH, STATS], refreshed(2), "publications"),
    # and none that its session added only later
    (CONFIG, [A % 1, REFRESH, STATS, B % 1], grown(3), None),
    (CONFIG, [A % 1, REFRESH, STATS, B % 1], grown(4), "entered"),
    (CONFIG, [REFRESH, C % 1, A % 2, '{"s":2,"cmd":"stats"}'], entered_later(3), None),
    (CONFIG, [REFRESH, C % 1, A % 2, '{"s":2,"cmd":"stats"}'], entered_later(5), "entered"),
    (CONFIG, [REFRESH, C % 1, A % 2, '{"s":2,"cmd":"stats"}', SEES % 3, C % 3], seen_by_two(3), None),
    (CONFIG, [REFRESH, C % 1, A % 2, '{"s":2,"cmd":"stats"}', SEES % 3, C % 3], seen_by_two(5), "entered"),
    (CONFIG, TWO_BRING, two_bring(1), None),
    (CONFIG, TWO_BRING, two_bring(5), None),
    (CONFIG, NEXT_PHASE, next_phase(1), None),
    (CONFIG, NEXT_PHASE, next_phase(3), None),
    (CONFIG, NEXT_PHASE, next_phase(4), "entered"),
    # an add is refused for labels only where all of them may be there
    ('{"cmd":"config","max_labels":3}', [A % 1, '{"cmd":"phase"}', C % 1], filled('[[0,"C"],[1,"z"]]'), "full"),
    # a merge shows nothing, and may run out of memory
    (CONFIG, [MERGE], ['{"line":2,"merged":true,"s":1}', '{"labels":[],"opened":[0,1],"order":[]}'], None),
    (CONFIG, [MERGE], ['{"line":2,"refused":"no_memory","s":1}', '{"labels":[],"opened":[0,1],"order":[]}'], None),
    (CONFIG, [MERGE], ['{"line":2,"merged":false,"s":1}', '{"labels":[],"opened":[0,1],"order":[]}'], "replies"),
    (CONFIG, [MERGE], ['{"line":2,"merged":true,"n":0,"s":1}', '{"labels":[],"opened":[0,1],"order":[]}'], "replies"),
    (CONFIG, [MERGE], ['{"line":2,"n":0,"s":1}', '{"labels":[],"opened":[0,1],"order":[]}'], "replies"),
    (CONFIG, [MERGE], ['{"count":1,"line":2,"refused":"closed","s":1}', '{"labels":[],"opened":[0,1],"order":[]}'], "replies"),
    # hits are listed from the last document on if that is asked for, and have their content only then
    (CONFIG, NEWEST, found('[{"at":1,"id":"b2"},{"at":0,"id":"b1"}]'), None),
    (CONFIG, NEWEST, found('[{"at":0,"id":"b1"},{"at":1,"id":"b2"}]'), "replies"),
    (CONFIG, NEWEST, found('[{"at":1,"id":"b2","labels":[["Author","Lisa"]],"text":""},{"at":0,"id":"b1"}]'), "replies"),
    (CONFIG, SHOWN, found('[{"at":0,"id":"b1","labels":[["Author","Bob"]],"text":""}]'), None),
    (CONFIG, SHOWN, found('[{"at":0,"id":"b1","text":"","labels":[["Author","Bob"]]}]'), "bytes"),
    (CONFIG, SHOWN, found('[{"at":0,"id":"b1","labels":[["Author","Lisa"]],"text":""}]'), "replies"),
    (CONFIG, SHOWN, found('[{"at":0,"id":"b1"}]'), "replies"),
    # ranges and sums are those of the pair whose number the reply tells, or there is no memory
    (CONFIG, RANGED, ranged('{"line":4,"n":1,"ranges":[["low",1],["mid",0]],"s":1,"valued":1}'), None),
    (CONFIG, RANGED, ranged('{"line":4,"n":0,"ranges":[["low",0],["mid",0]],"s":1,"valued":0}'), "pairs"),
    (CONFIG, RANGED, ranged('{"line":4,"n":1,"ranges":[["low",1],["mid",1]],"s":1,"valued":1}'), "replies"),
    (CONFIG, RANGED, ranged('{"line":4,"n":1,"ranges":[["mid",0],["low",1]],"s":1,"valued":1}'), "replies"),
    (CONFIG, RANGED, ranged('{"line":4,"n":1,"ranges":[["low",1],["mid",0]],"s":1,"valued":0}'), "replies"),
    (CONFIG, RANGED, ranged('{"line":4,"refused":"no_memory","s":1}'), None),
    (CONFIG, RANGED, ranged('{"line":4,"refused":"not_held","s":1}'), "replies"),
    (CONFIG, [SUMS], summed('{"line":2,"n":0,"s":1,"sums":[]}'), None),
    (CONFIG, [SUMS], summed('{"line":2,"n":0,"s":1,"sums":[["a",0]]}'), "replies"),
    (CONFIG, [SUMS], summed('{"ask":0,"line":2,"refused":"top_zero","s":1}'), "replies"),
    (CONFIG, [SUMS.replace("10", "0")], summed('{"ask":0,"line":2,"refused":"top_zero","s":1}'), None),
    (CONFIG, [SUMS.replace("10", "0")], summed('{"ask":1,"line":2,"refused":"top_zero","s":1}'), "replies"),
    (CONFIG, [SUMS.replace("10", "0")], summed('{"line":2,"refused":"no_memory","s":1}'), None),
    (CONFIG, [SUMS.replace('"dim"', '"on":"a","dim"').replace("10", "0")], summed('{"line":2,"refused":"not_held","s":1}'), None),
    (CONFIG, [SUMS.replace('"dim"', '"on":"a","dim"').replace("10", "0")], summed('{"ask":0,"line":2,"refused":"top_zero","s":1}'), "replies"),
    (CONFIG, [STATS], ['{"line":2,"refused":"no_memory","s":1}', '{"labels":[],"opened":[0,1],"order":[]}'], "replies"),
    (CONFIG, [COMMIT], ['{"line":2,"number":9223372036854775808,"refused":"numbers_spent","s":1}', '{"labels":[],"opened":[0,1],"order":[]}'], None),
    (CONFIG, [COMMIT], ['{"line":2,"number":9223372036854775807,"refused":"numbers_spent","s":1}', '{"labels":[],"opened":[0,1],"order":[]}'], "replies"),
    (CONFIG, [COMMIT], ['{"line":2, "n":0,"s":1}', '{"labels":[],"opened":[0,1],"order":[]}'], "bytes"),
    (CONFIG, [COMMIT], ['{"line":2,"n":0,"s":1}', '{"labels":[],"opened":[0,1]}'], "bytes"),
    (CONFIG, [COMMIT], ['{"line":2,"n":0,"s":1}', '{"labels":[],"opened":[0,1],"order":[1]}'], "operations"),
    ('{"cmd":"config","max_labels":1}', [A % 1], ['{"at":0,"line":2,"s":1}', '{"labels":[[0,"A"],[1,"x"]],"opened":[0,1],"order":[1]}'], "label_limit"),
]


def lines(texts: list[str]) -> bytes:
    return "".join(text + "\n" for text in texts).encode()
