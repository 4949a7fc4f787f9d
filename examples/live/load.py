#!/usr/bin/env python3
"""Fills a store with Debian's packages, as examples/packages/make_script writes them.

    apt-cache dumpavail | examples/packages/make_script | examples/live/load.py STORE
"""

import itertools
import json
import os
import sys
from pathlib import Path

from client import Facets

PROGRAM = os.environ.get("FACETS") or Path(__file__).resolve().parents[2] / "crates/facets/out/facets"
GROUP = 1_000

# The tags of Debian that become dimensions. A package has several of each.
TAGS = {"interface": "Interface", "implemented-in": "Language", "role": "Role", "use": "Purpose"}
CONFIG = {"cmd": "config", "dims": [{"dim": dim, "multi_valued": True} for dim in TAGS.values()]}


def document_of(package):
    """Returns the command that adds a package. The words of its name are searched too."""
    facets = [path for path in package["facets"] if path[0] in ("Section", "Priority", "Maintainer")]
    facets += [[TAGS[path[1]], path[2]] for path in package["facets"] if path[0] == "Tag" and len(path) == 3 and path[1] in TAGS and path[2] != "TODO"]
    return {"s": 1, "cmd": "add", "id": package["id"], "text": f"{package['id']} {package['text']}", "facets": facets}


def main():
    if len(sys.argv) < 2:
        sys.exit(__doc__)
    packages = (package for package in map(json.loads, sys.stdin) if package["cmd"] == "add")
    facets = Facets([PROGRAM, "--live", sys.argv[1]], CONFIG)
    while commands := [document_of(package) for package in itertools.islice(packages, GROUP)]:
        for command, reply in zip(commands, facets.group(commands)):
            if "at" not in reply:
                print(command["id"], reply, file=sys.stderr)
    committed = facets.ask({"cmd": "commit"})
    facets.close()
    if "n" not in committed:
        sys.exit(f"not committed: {committed}")
    print(f"{committed['n']:,} documents")


if __name__ == "__main__":
    main()
