#!/usr/bin/env python3
"""Serves a page over a store that load.py has filled: a search box, facets with counts, and pages of hits.

    examples/live/serve.py STORE [PORT]

One process of `facets` answers all requests. The page needs no script in the browser. Python's standard library is all that the server needs.
"""

import html
import os
import sys
import threading
import time
from http.server import BaseHTTPRequestHandler, ThreadingHTTPServer
from pathlib import Path
from urllib.parse import parse_qsl, quote, urlencode, urlsplit

from client import Ended, Facets
from load import CONFIG, PROGRAM

TITLE = "Debian packages"
PANELS = ("Section", "Interface", "Language", "Purpose", "Role", "Priority", "Maintainer")
STYLE = Path(__file__).with_name("style.css").read_bytes()
HITS = 10  # of a page
FEW, ALL = 6, 1_000  # labels of a panel
LAST_PAGE = 1 + 1_000_000 // HITS
HEADERS = {
    "Content-Security-Policy": "default-src 'none'; style-src 'self' 'unsafe-inline'; form-action 'self'; base-uri 'none'",
    "X-Content-Type-Options": "nosniff",
}


# ---- the process


class Index:
    """The process that answers. It is started when it is needed, and again when it has ended or the store has a newer commit."""

    def __init__(self, store):
        self.store, self.lock, self.facets, self.seen = Path(store), threading.Lock(), None, None

    def search(self, command):
        """Returns the reply. A search changes nothing, so it is asked once more if the process ends meanwhile."""
        facets = self.running()
        try:
            return facets.ask(command)
        except Ended:
            self.drop(facets)
            return self.running().ask(command)

    def running(self):
        with self.lock:
            newest = self.newest_commit()
            if self.facets is None or newest != self.seen:
                old, self.facets, self.seen = self.facets, Facets([PROGRAM, "--live", "--read", self.store], CONFIG), newest
                if old:
                    old.close()
            return self.facets

    def drop(self, facets):
        with self.lock:
            if self.facets is facets:
                self.facets = None

    def newest_commit(self):
        """Returns the time of the last change of the folder in which a commit renames a file."""
        try:
            return (self.store / "index").stat().st_mtime_ns
        except FileNotFoundError:
            return None


# ---- what a request asks for


def page_number(text):
    return min(max(int(text), 1), LAST_PAGE) if text.isdecimal() and len(text) < 8 else 1


class Asked:
    """The search of a page's address, and the addresses of the pages near it."""

    def __init__(self, query):
        pairs = parse_qsl(query)
        last = dict(pairs)
        self.words = last.get("q", "").strip()
        self.labels = list(dict.fromkeys(pair for pair in pairs if pair[0] in PANELS))
        self.page = page_number(last.get("page", ""))
        self.newest = "newest" in last
        self.whole = last.get("all", "")

    def command(self):
        asks = [{"top": [dim], "n": ALL if dim == self.whole else FEW} for dim in PANELS]
        search = {"cmd": "search", "query": {"words": self.words}, "drill": self.labels, "sideways": True, "ask": asks}
        return {**search, "from": HITS * (self.page - 1), "hits": HITS, "show": True, "newest": self.newest}

    def address(self, labels=None, page=1, newest=None, whole=None):
        """Returns the address of the same search with these changes. It is on its first page unless one is given."""
        pairs = [("q", self.words)] if self.words else []
        pairs += self.labels if labels is None else labels
        pairs += [("newest", "1")] if (self.newest if newest is None else newest) else []
        pairs += [("page", page)] if page > 1 else []
        pairs += [("all", whole)] if whole else []
        return "/?" + urlencode(pairs)

    def toggled(self, label):
        """Returns the address with the label chosen, or without it if it is chosen."""
        rest = [other for other in self.labels if other != label]
        return self.address(rest if label in self.labels else [*rest, label])


# ---- the page


class Markup(str):
    """Text that is HTML. All other text is escaped where it enters a page."""


def markup(template, **parts):
    return Markup(template.format(**{name: part if isinstance(part, Markup) else html.escape(str(part)) for name, part in parts.items()}))


def joined(pieces):
    return Markup("".join(pieces))


def page_of(asked, found, milliseconds):
    return markup(
        PAGE,
        title=TITLE,
        words=asked.words,
        kept=joined(markup('<input type="hidden" name="{dim}" value="{name}">', dim=dim, name=name) for dim, name in asked.labels),
        count=f"{found['hit_count']:,} of {found['n']:,}",
        milliseconds=f"{milliseconds:.1f}",
        chips=joined(chip_of(asked, label) for label in asked.labels),
        panels=joined(panel_of(asked, dim, result) for dim, result in zip(PANELS, found["results"]) if result),
        hits=joined(map(hit_of, found["hits"])) or Markup("<li>No package has all of this. Take off a label or a word.</li>"),
        pages=pages_of(asked, found["hit_count"]),
    )


def chip_of(asked, label):
    dim, name = label
    return markup('<li><a href="{to}" aria-label="Take off {dim}: {name}">{dim}: <b>{name}</b> ×</a></li>', to=asked.toggled(label), dim=dim, name=name)


def panel_of(asked, dim, result):
    greatest = max(count for _, count in result["children"])
    rows = joined(row_of(asked, (dim, name), count, greatest) for name, count in result["children"])
    hidden = result["child_count"] - len(result["children"])
    more = markup('<p><a href="{to}">{hidden} more</a></p>', to=asked.address(whole=dim), hidden=f"{hidden:,}") if hidden else ""
    return markup("<section><h2>{dim}</h2><ul>{rows}</ul>{more}</section>", dim=dim, rows=rows, more=more)


def row_of(asked, label, count, greatest):
    return markup(
        '<li><a href="{to}"{chosen}><i style="width:{width}%"></i><span>{name}</span><span class="count">{count}</span></a></li>',
        to=asked.toggled(label),
        chosen=Markup(' aria-current="true"') if label in asked.labels else "",
        width=round(100 * count / greatest, 1),
        name=label[1],
        count=f"{count:,}",
    )


def hit_of(hit):
    labels = joined(markup('<li title="{dim}">{name}</li>', dim=dim, name=" › ".join(names)) for dim, *names in hit["labels"] if dim != "Maintainer")
    return markup(
        '<li><h2><a href="https://packages.debian.org/{path}">{id}</a></h2><p>{text}</p><ul>{labels}</ul></li>',
        path=quote(hit["id"], safe=""),
        id=hit["id"],
        text=hit["text"].removeprefix(hit["id"]),
        labels=labels,
    )


def pages_of(asked, hit_count):
    last = max(1, -(-hit_count // HITS))
    before = markup('<a rel="prev" href="{to}">← Previous</a> ', to=asked.address(page=min(asked.page - 1, last))) if asked.page > 1 else ""
    after = markup(' <a rel="next" href="{to}">Next →</a>', to=asked.address(page=asked.page + 1)) if asked.page < last else ""
    order = markup('<a href="{to}">{name}</a>', to=asked.address(newest=not asked.newest), name="First added first" if asked.newest else "Last added first")
    here = markup("<span>Page {page} of {last}</span>", page=f"{asked.page:,}", last=f"{last:,}")
    return joined((before, here, after, " ", order))


PAGE = """<!DOCTYPE html>
<html lang="en">
<head>
<meta charset="utf-8">
<meta name="viewport" content="width=device-width, initial-scale=1">
<title>{title}</title>
<link rel="stylesheet" href="/style.css">
</head>
<body>
<a class="skip" href="#hits">Skip to the hits</a>
<header>
<h1><a href="/">{title}</a></h1>
<form role="search"><input type="search" name="q" value="{words}" aria-label="Words" placeholder="Words">{kept}<button>Search</button></form>
<p role="status"><b>{count}</b> in {milliseconds} ms</p>
</header>
<ul class="chips" aria-label="Chosen labels">{chips}</ul>
<div class="columns">
<input type="checkbox" id="filters"><label for="filters">Filters</label>
<aside aria-label="Filters">{panels}</aside>
<main id="hits"><ol>{hits}</ol><nav aria-label="Pages">{pages}</nav></main>
</div>
</body>
</html>
"""


# ---- HTTP


class Handler(BaseHTTPRequestHandler):
    def do_GET(self):
        address = urlsplit(self.path)
        if address.path == "/style.css":
            self.answer(200, "text/css", STYLE)
        elif address.path != "/":
            self.refuse(404, "There is no such page.")
        else:
            self.search(Asked(address.query))

    def search(self, asked):
        started = time.perf_counter()
        try:
            found = self.server.index.search(asked.command())
        except (Ended, OSError) as why:
            self.log_error("no answer: %s", why)
            return self.refuse(503, "The index cannot be opened. Try again later.")
        milliseconds = 1_000 * (time.perf_counter() - started)
        if "hits" not in found:
            return self.refuse(400, "This search is too long.")
        self.answer(200, "text/html; charset=utf-8", page_of(asked, found, milliseconds).encode())

    def refuse(self, status, why):
        page = markup('<!DOCTYPE html><title>{title}</title><p>{why} <a href="/">Start again</a></p>', title=TITLE, why=why)
        self.answer(status, "text/html; charset=utf-8", page.encode())

    def answer(self, status, kind, body):
        self.send_response(status)
        for name, value in {**HEADERS, "Content-Type": kind, "Content-Length": len(body)}.items():
            self.send_header(name, str(value))
        self.end_headers()
        self.wfile.write(body)

    def log_request(self, *_):
        pass


def main():
    if len(sys.argv) < 2:
        sys.exit(__doc__)
    port = int(sys.argv[2]) if len(sys.argv) > 2 else 8000
    server = ThreadingHTTPServer(("127.0.0.1", port), Handler)
    server.index = Index(sys.argv[1])
    print(f"http://127.0.0.1:{server.server_port}/", flush=True)
    try:
        server.serve_forever()
    except KeyboardInterrupt:
        pass


if __name__ == "__main__":
    main()
