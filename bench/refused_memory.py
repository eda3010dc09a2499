#!/usr/bin/env python3
"""Refuses each request for memory of a proved program in turn, one a run, and says how the runs end:

    python3 bench/refused_memory.py [SCRIPT ..]

It runs `ftp_script`, as `rt ci` leaves it in out/, over each SCRIPT; without one over those of bench/refused/ and examples/, a run of
`stress`, and the tests of a hub that is settled and of a client that logs in and quits. A run has to end as without a refusal; or
with status 5, no memory, having written a front of the whole output; or with the whole run's status and a transfer that ended so,
behind a front of it. A test has no status for it: it has to say that it had no memory, and of a talk, that nothing was sent behind
the replies that were due. Every other end is printed, and the script then ends with 1. What is not built is skipped, and all of it
where there is no C compiler, `cc`; that is printed too.
"""

import os
import re
import shutil
import signal
import subprocess
import sys
import tempfile
from pathlib import Path

TOP = Path(__file__).resolve().parent.parent
PROGRAM = TOP / "crates/ftp_script/out/ftp_script"
TESTS = (
    ("ftp_hub_tests", "shared::a_hub_is_settled_with_all_shares_and_receipts"),
    ("ftp_hub_tests", "shared::steps_are_missed"),
    ("ftp_hub_tests", "shared::a_receipt_at_another_place_differs"),
    ("ftp_hub_tests", "lines::a_client_logs_in_asks_for_a_port_and_quits"),
)
OUT_OF_MEMORY = 5
# How a test ends that gave an error, and one in which a comparison failed.
FAILED = 101, -signal.SIGABRT
# What a test says that had no memory: an error of a call, or a talk that ended so where its next reply was due, or behind the last.
NO_MEMORY = re.compile(rb": (Alloc(Error|Failed { .. })|OutOfMemory)\n|: the end: OutOfMemory\n  left: \[\]\n|\n  left: OutOfMemory\n")


class Refusals:
    """Runs programs behind the library that refuses."""

    def __init__(self, folder):
        self.library, self.told = Path(folder, "refused_memory.so"), Path(folder, "told")
        source = TOP / "bench/refused_memory.c"
        subprocess.run(["cc", "-O2", "-shared", "-fPIC", "-o", self.library, source], check=True)

    def run(self, command, given, number):
        """The status, what was written, what was said beside it, and how many requests there were."""
        around = dict(os.environ, LD_PRELOAD=str(self.library), FAIL_AT=str(number), FAIL_TOLD=str(self.told))
        self.told.write_bytes(b"")
        done = subprocess.run(command, input=given, capture_output=True, env=around, timeout=120, check=False)
        return done.returncode, done.stdout, done.stderr, int.from_bytes(self.told.read_bytes()[:8], sys.byteorder)

    def each(self, name, command, end_of, given=b""):
        """Prints how the runs of one command end; gives whether each ended well."""
        if not command[0].exists():
            print(f"skip  {name}: {command[0].name} is not built", flush=True)
            return True
        status, whole, said, requests = self.run(command, given, 0)
        if status or not requests:
            print(f"{name}: without a refusal: status {status}, {requests} requests, {(whole + said)[-300:]}")
            return False
        ends = {"status 5": 0, "a result memory": 0, "as without": 0, "other": 0}
        for number in range(1, requests + 1):
            code, out, said, _ = self.run(command, given, number)
            end = "as without" if (code, out) == (status, whole) else end_of(code, out, said, status, whole)
            ends[end] += 1
            if end == "other":
                print(f"{name}: request {number}: status {code}, {(out + said)[-300:]}")
        print(f"| {name} | {requests} | " + " | ".join(str(count) for count in ends.values()) + " |", flush=True)
        return ends["other"] == 0


def end_of_program(code, out, _said, status, whole):
    if code == OUT_OF_MEMORY and whole.startswith(out):
        return "status 5"
    before, told, _ = out.partition(b"? done memory")
    if code == status and told and whole.startswith(before):
        return "a result memory"
    return "other"


def end_of_test(code, _out, said, _status, _whole):
    return "status 5" if code in FAILED and NO_MEMORY.search(said) else "other"


def main():
    if not shutil.which("cc"):
        print("skip  all: there is no C compiler, cc")
        return 0
    scripts = [Path(word) for word in sys.argv[1:]]
    chosen = scripts or sorted(TOP.glob("bench/refused/*.script")) + sorted(TOP.glob("examples/*.script"))
    print("| run | requests | status 5, a front | a result `memory` | as without | other |\n|---|---|---|---|---|---|")
    with tempfile.TemporaryDirectory() as folder:
        refusals = Refusals(folder)
        well = [refusals.each(path.name, [PROGRAM, "script"], end_of_program, path.read_bytes()) for path in chosen]
        if not scripts:
            well.append(refusals.each("`stress 7 3`", [PROGRAM, "stress", "7", "3"], end_of_program))
            for crate, test in TESTS:
                well.append(refusals.each(test, [TOP / f"crates/{crate}/out/{crate}_tests", test], end_of_test))
    return 0 if all(well) else 1


if __name__ == "__main__":
    sys.exit(main())
