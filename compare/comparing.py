"""Runs the program over a store and compares output, status and every file with the plain evaluation."""

from __future__ import annotations

import collections
import json
import os
import subprocess
from typing import Any

import judging
import reference
import sessions
import shapes
from stores import load, save

PROGRAM = os.environ.get("FACETS") or os.path.join(os.path.dirname(os.path.abspath(__file__)), "../crates/facets/out/facets")
# Each script takes a small part of this time.
MOST_SECONDS = 60


class Comparison:
    def __init__(self, folder: str, most_seconds: float = MOST_SECONDS):
        self.folder = os.path.join(folder, "store")
        self.most_seconds = most_seconds
        self.seen: collections.Counter = collections.Counter()
        self.differences = 0

    def differ(self, again: str, *told: Any) -> None:
        self.differences += 1
        print(f"{again}: {told[0]}", *told[1:], sep="\n  ", flush=True)

    def note(self, status: int, output: bytes) -> None:
        self.seen[f"status {status}"] += 1
        for line in output.splitlines():
            value = json.loads(line)
            kind = value.get("refused") or value.get("fault") or ("last line" if "opened" in value else "answered")
            if "file" in value:
                kind += " " + value["file"].rsplit("-", 1)[0]
            self.seen[kind] += 1

    def run(self, again: str, stored: dict[str, bytes], script: bytes, values: list) -> int:
        """Runs a script over stored files, and prints what differs after the command `again`, which repeats it. Returns the status.

        `values` are the values of the script's lines. `stored` becomes the files that the script has to leave; if more than one outcome is right, those that it
        left."""
        save(self.folder, stored)
        try:
            ran = subprocess.run([PROGRAM, self.folder], input=script, capture_output=True, check=False, timeout=self.most_seconds)
        except subprocess.TimeoutExpired:
            self.differ(again, f"not ended after {self.most_seconds} seconds")
            return -1
        left = load(self.folder)
        if judging.has_one_output(stored, values):
            return self.compare(again, stored, values, ran, left)
        self.judge(again, stored, values, ran, left)
        stored.clear()
        stored.update(left)
        return ran.returncode

    def compare(self, again: str, stored: dict[str, bytes], values: list, ran: subprocess.CompletedProcess, left: dict[str, bytes]) -> int:
        fault = shapes.first_fault(values)
        status, output = (5, reference.line_of(fault)) if fault else sessions.run(stored, values)
        self.note(status, output)
        is_left = left == stored
        if not is_left or (ran.returncode, ran.stdout, ran.stderr) != (status, output, b""):
            pairs = zip(ran.stdout.splitlines() + [b""], output.splitlines() + [b""])
            wrote, wanted = next((pair for pair in pairs if pair[0] != pair[1]), (b"", b""))
            files = "right" if is_left else "others"
            self.differ(again, f"status {ran.returncode} for {status}; the files are {files}", f"wrote  {wrote[:300]!r}", f"wanted {wanted[:300]!r}")
        return status

    def judge(self, again: str, stored: dict[str, bytes], values: list, ran: subprocess.CompletedProcess, left: dict[str, bytes]) -> None:
        verdict = judging.judge(stored, values, ran.stdout, left)
        self.seen["run of sessions beside each other" + ("" if verdict.is_decided else ", not decided")] += 1
        wrong: list = [f"status {ran.returncode}", ran.stdout[:300]] if (ran.returncode, ran.stderr) != (0, b"") else []
        wrong += verdict.breaks
        if wrong:
            self.differ(again, "sessions beside each other", *wrong[:5])
        else:
            self.note(0, ran.stdout)

    def tell(self) -> int:
        """Prints how often each thing was seen. Returns the exit status."""
        for kind, times in sorted(self.seen.items()):
            print(f"{times:9} {kind}")
        print(f"{self.differences} differ")
        return 1 if self.differences else 0
