"""What a run of the program took."""
import os
import re
import subprocess
import sys
import tempfile
import time
from collections.abc import Callable
from pathlib import Path

COUNTER = ["valgrind", "--tool=cachegrind", "--cache-sim=no", "--cachegrind-out-file=/dev/null"]
PHASE = b'{"cmd":"phase"}\n'
PAGE = 4096


def stop_unless_done(words: list, status: int) -> None:
    if status != 0:
        sys.exit(f"{words[0]} ended with status {status}")


def timed_run(words: list, source=subprocess.DEVNULL, sink=subprocess.DEVNULL) -> tuple[float, float]:
    """The wall and processor seconds of a run."""
    start = time.perf_counter()
    child = subprocess.Popen(words, stdin=source, stdout=sink)
    _, status, usage = os.wait4(child.pid, 0)
    seconds = time.perf_counter() - start
    stop_unless_done(words, os.waitstatus_to_exitcode(status))
    return seconds, usage.ru_utime + usage.ru_stime


def script_of_phases(config: bytes, phases: list[list[bytes]]) -> tuple[bytes, list[int]]:
    """A script, and how many replies each of its phases has."""
    return config + PHASE.join(b"".join(lines) for lines in phases), [len(lines) for lines in phases]


def phase_times(words: list, script: Path, counts: list[int], look: Callable[[], None] | None = None) -> list[float]:
    """The wall seconds of each phase but the first, of a script whose phases have so many replies.

    The replies of a phase are written when all its sessions have ended. So the time of a phase is the one between the last byte of the replies before it and
    the first byte of its own; reading the script is in none of them. `look` is called at that first byte. The next phase has not begun then, where the replies
    are more than two pages."""
    times: list[float] = []
    lines, phase, begun = 0, 0, 0.0
    ends = [sum(counts[: at + 1]) for at in range(len(counts))]
    with script.open("rb") as source, subprocess.Popen(words, stdin=source, stdout=subprocess.PIPE, bufsize=0, pipesize=PAGE if look else -1) as child:
        assert child.stdout is not None
        while piece := os.read(child.stdout.fileno(), 1 << 20):
            now = time.perf_counter()
            if begun and phase < len(counts):
                times.append(now - begun)
                if look:
                    look()
            begun = 0.0
            lines += piece.count(b"\n")
            while phase < len(counts) and lines >= ends[phase]:
                phase += 1
                if lines == ends[phase - 1] and piece.endswith(b"\n"):
                    begun = time.perf_counter()
                elif phase < len(counts):
                    # the next replies came with these
                    times.append(0.0)
    stop_unless_done(words, child.returncode)
    return times


def peak_of(words: list, source=subprocess.DEVNULL, sink=subprocess.DEVNULL) -> float:
    """The peak of a run's memory in MB, as GNU time (Debian's package `time`) tells it. What `wait4` tells is at least what Python itself had."""
    with tempfile.NamedTemporaryFile("r") as told:
        done = subprocess.run(["time", "--format=%M", f"--output={told.name}", *words], stdin=source, stdout=sink)
        stop_unless_done(words, done.returncode)
        return int(told.read()) / 1024


def instructions_of(words: list, script: bytes) -> float:
    """The millions of instructions of a run over a script. It asks for valgrind, under which the program takes about 45 times as long."""
    with tempfile.TemporaryFile() as source:
        source.write(script)
        source.seek(0)
        ran = subprocess.run([*COUNTER, *words], stdin=source, stdout=subprocess.DEVNULL, stderr=subprocess.PIPE, text=True)
    if ran.returncode != 0:
        sys.exit(f"{words[0]} ended with status {ran.returncode}: {ran.stderr}")
    return int(re.search(r"I +refs: +([\d,]+)", ran.stderr)[1].replace(",", "")) / 1e6
