"""Tells whether a run of sessions beside each other was right: what it wrote, by `relation`, and the files that it leaves."""

from __future__ import annotations

from typing import Any

import reference
import shapes
from relation import Answered, Checker, Opened, Verdict
from scripts import Script, script_of

# what a run with ample memory over a sound disk refuses nothing for
NEVER_REFUSED = ("no_memory", "disk", "closed")
# from this number of a file on a commit may find no number left
LATE_NUMBER = 2**62


def has_one_output(stored: dict[str, bytes], values: list[Any]) -> bool:
    """Whether there is only one right output of a script whose lines have these values, and one right store to leave."""
    if shapes.first_fault(values):
        return True
    script = script_of(values)
    try:
        reference.Session(dict(stored), script.config)
    except reference.NotOpened:
        return True
    return not script.runs_beside()


def judge(stored: dict[str, bytes], values: list[dict], output: bytes, left: dict[str, bytes]) -> Verdict:
    """Of a script without a fault, over files that open."""
    return judge_script(stored, script_of(values), output, left)


def judge_script(stored: dict[str, bytes], script: Script, output: bytes, left: dict[str, bytes]) -> Verdict:
    view = reference.Session(dict(stored), script.config)
    checker = Checker(script, Opened(list(view.labels), list(view.documents)), output)
    verdict = checker.run()
    if not verdict.breaks:
        refuse_needlessly(checker, view)
        check_files(checker, stored, left)
    return verdict


def refuse_needlessly(checker: Checker, view: reference.Session) -> None:
    never = NEVER_REFUSED if view.next >= LATE_NUMBER else (*NEVER_REFUSED, "numbers_spent")
    for a in checker.answered:
        if a.reply.get("refused") in never:
            checker.broken("refused", (a.order.line,), f"{a.raw.decode()} has no cause")


def acknowledged(checker: Checker) -> list[Answered]:
    return [a for a in checker.answered if a.order.command == "commit" and a.number("n") is not None]


def check_files(checker: Checker, stored: dict[str, bytes], left: dict[str, bytes]) -> None:
    """Without a commit that was answered with a number they are those of before; else they open as what the last of these made durable."""
    commits = acknowledged(checker)
    if not commits:
        if left != stored:
            checker.broken("files", (), "no commit was made, but the files changed")
        return
    try:
        found = reference.Session(dict(left), checker.script.config)
    except reference.NotOpened as fault:
        checker.broken("files", (), f"they do not open: {fault.line}")
        return
    check_found(checker, commits, found)
    found.remove_strays()
    if found.stored != left:
        checker.broken("files", (), f"these are left beside the store: {sorted(set(left) - set(found.stored))}")


def check_found(checker: Checker, commits: list[Answered], found: reference.Session) -> None:
    """The documents are the first of all, as many as the commit that came last has; the labels are the first of all, and those that its session was shown."""
    many = max(a.number("n") or 0 for a in commits)
    if [plain(document) for document in found.documents] != [plain(document) for document in checker.documents[:many]]:
        checker.broken("files", (), f"they open as other documents than the first {many}")
    least = max(checker.shown[id(a)] for a in commits)
    if found.labels != checker.labels[: len(found.labels)] or len(found.labels) < least:
        checker.broken("files", (), f"they open as {len(found.labels)} labels, which are not the first ones, or fewer than {least}")


def plain(document: reference.Document) -> tuple:
    return (document.id, document.text, document.labels, document.leaves)
