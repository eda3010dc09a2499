#!/usr/bin/env python3
"""Times transfers of 15 MiB over memory against a plain copy of the same bytes.

Usage: bench/transfer.py [PROGRAM]

PROGRAM is crates/ftp_bench/out/ftp_bench, which `rt ci` builds. Each kind runs in few and in many rounds, so that the
set-up of a run falls out of the difference; of several such differences in seconds of the processor the best counts. It
prints the table of bench/RESULTS.md, and ends with status 1 where a download is slower than half of the copy, an upload
slower than a third of it, or an upload within a budget slower than nine tenths of one without.
"""

import resource
import subprocess
import sys
from pathlib import Path

MEBIBYTES = 15
FEW, MANY, TRIES = 2, 42, 5


def used():
    children = resource.getrusage(resource.RUSAGE_CHILDREN)
    return children.ru_utime + children.ru_stime


def seconds(program, kind, rounds):
    words = [program, kind, str(MEBIBYTES), str(rounds)]
    before = used()
    moved = subprocess.run(words, check=True, capture_output=True, text=True).stdout
    assert int(moved) == MEBIBYTES * 1048576 * rounds, f"{kind}: {moved} bytes moved"
    return used() - before


def speed(program, kind):
    best = min(
        seconds(program, kind, MANY) - seconds(program, kind, FEW) for _ in range(TRIES)
    )
    return MEBIBYTES * 1.048576 * (MANY - FEW) / best


def main():
    here = Path(__file__).resolve().parent.parent
    program = sys.argv[1] if len(sys.argv) > 1 else str(here / "crates/ftp_bench/out/ftp_bench")
    copy, retr, stor, quota = (speed(program, kind) for kind in ("copy", "retr", "stor", "quota"))
    print("| kind | MB/s | of the copy |")
    print("|---|---|---|")
    for kind, found in ("copy", copy), ("RETR", retr), ("STOR", stor), ("STOR within a budget", quota):
        print(f"| {kind} | {found:.0f} | {found / copy:.2f} |")
    print(f"\nWithin a budget: {quota / stor:.2f} of STOR.")
    return 0 if retr * 2 >= copy and stor * 3 >= copy and quota >= 0.9 * stor else 1


if __name__ == "__main__":
    sys.exit(main())
