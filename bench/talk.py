#!/usr/bin/env python3
"""Measures how many commands of a control connection are served in a second of one core.

Usage: bench/talk.py [PROGRAM]

PROGRAM is crates/ftp_bench/out/ftp_bench, which `rt ci` builds. It serves few packets of 100 commands and many,
so that the set-up of a run and the greeting fall out of the difference. What counts is the processor time of the program,
its own and that of the system for it; of several such differences the best counts. It prints the line of
bench/RESULTS.md, and ends with status 1 below 500,000 commands a second.
"""

import os
import subprocess
import sys
from pathlib import Path

COMMANDS = 100
FEW, MANY, TRIES = 100, 2100, 5
GOAL = 500_000


def run(program, packets):
    """The processor time in seconds, and the peak memory in MB, of serving so many packets."""
    child = subprocess.Popen([program, "talk", str(packets)], stdout=subprocess.PIPE)
    written = child.stdout.read()
    _, status, used = os.wait4(child.pid, 0)
    child.returncode = os.waitstatus_to_exitcode(status)
    assert child.returncode == 0, f"{packets}: status {child.returncode}"
    assert int(written) == 1 + COMMANDS * packets, f"{packets}: {int(written)} lines sent"
    return used.ru_utime + used.ru_stime, used.ru_maxrss / 1024


def main():
    here = Path(__file__).resolve().parent.parent
    built = here / "crates/ftp_bench/out/ftp_bench"
    program = sys.argv[1] if len(sys.argv) > 1 else str(built)
    many = [run(program, MANY) for _ in range(TRIES)]
    few = [run(program, FEW) for _ in range(TRIES)]
    seconds = min(m[0] - f[0] for m, f in zip(many, few))
    commands = COMMANDS * (MANY - FEW)
    rate = commands / seconds
    print("| commands | seconds | commands a second | peak memory |")
    print("|---|---|---|---|")
    print(f"| {commands} | {seconds:.2f} | {rate:.0f} | {max(m[1] for m in many):.0f} MB |")
    return 0 if rate >= GOAL else 1


if __name__ == "__main__":
    sys.exit(main())
