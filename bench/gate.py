#!/usr/bin/env python3
"""Runs the gate and says where its processor time goes: a row for each crate, with its proof, its tests and its wrong bodies.

    python3 bench/gate.py [--table] [WORD ..]

The words go to `rt ci`, whose output and status are its own. Each second it looks at the checks that run below it and adds up
their processor time, so what begins and ends between two looks is missed. With --table the rows are those of bench/RESULTS.md.
Once a minute it takes a yardstick, by which the seconds of two machines, or of two days on one, can be compared.
"""

import os
import re
import statistics
import subprocess
import sys
import threading
import time
from collections import Counter
from pathlib import Path

TICKS = os.sysconf("SC_CLK_TCK")
KINDS = ("proof", "tests", "wrong bodies")


def words_of(pid):
    try:
        return Path(f"/proc/{pid}/cmdline").read_bytes().decode(errors="replace").split("\0")
    except OSError:
        return []


def kind_of(words):
    """The crate that a check is of, and what for."""
    if not words[0].endswith("/rattle") or "--crate-name" not in words:
        return None
    crate = words[words.index("--crate-name") + 1]
    return crate, KINDS[2] if "rt-edits-" in " ".join(words) else KINDS[1] if "--test" in words else KINDS[0]


def yardstick():
    """What a million additions take, in seconds of processor time."""
    began, total = time.thread_time(), 0
    for number in range(1_000_000):
        total += number
    return time.thread_time() - began


class Watch:
    """What the processes of one session have taken, by crate and kind, and the yardsticks meanwhile."""

    def __init__(self, session):
        self.session, self.seconds, self.spent, self.yardsticks = session, {}, Counter(), [yardstick()]

    def look(self):
        for entry in os.listdir("/proc"):
            if entry.isdigit():
                self.note(entry)

    def note(self, pid):
        try:
            fields = Path(f"/proc/{pid}/stat").read_text().rpartition(")")[2].split()
        except OSError:
            return
        if int(fields[3]) != self.session:
            return
        kind = kind_of(words_of(pid) or [""])
        if kind:
            name, took = (pid, fields[19]), (int(fields[11]) + int(fields[12])) / TICKS
            self.spent[kind] += took - self.seconds.get(name, 0)
            self.seconds[name] = took

    def until(self, ended):
        looks = 0
        while not ended.wait(1):
            self.look()
            looks += 1
            if looks % 60 == 0:
                self.yardsticks.append(yardstick())

    def table(self):
        crates = sorted({crate for crate, _ in self.spent}, key=lambda crate: -sum(self.spent[crate, kind] for kind in KINDS))
        rows = [[f"`{crate}`", *(round(self.spent[crate, kind]) for kind in KINDS)] for crate in crates]
        rows.append(["all", *(round(sum(self.spent[crate, kind] for crate in crates)) for kind in KINDS)])
        heads = ["crate", *(f"{kind}, s" for kind in KINDS), "together"]
        table = [heads, ["---"] * len(heads), *([*row, sum(row[1:])] for row in rows)]
        return "\n".join("|" + "|".join(map(str, row)) + "|" for row in table)


def main():
    words = [word for word in sys.argv[1:] if word != "--table"]
    gate = subprocess.Popen(["rt", "ci", *words], start_new_session=True)
    watch, ended = Watch(gate.pid), threading.Event()
    looker = threading.Thread(target=watch.until, args=(ended,))
    looker.start()
    status = gate.wait()
    ended.set()
    looker.join()
    table = watch.table()
    print(f"yardstick: {statistics.median(watch.yardsticks):.3f} s")
    print(table if "--table" in sys.argv[1:] else re.sub(r"[|`]", " ", table))
    return status


if __name__ == "__main__":
    sys.exit(main())
