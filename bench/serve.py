#!/usr/bin/env python3
"""Measures the server against a plain copy by a socket, and against the servers that are installed, all in one run.

Usage: bench/serve.py [--rounds N] [--quick] [--only WORD] [COMMAND ..]

COMMAND is as for trials/clients.py. Others are vsftpd, pure-ftpd (as root, with its pure-pw on the path) and pyftpdlib;
files of theirs are in memory, in /dev/shm where that is there. Debian has vsftpd and pure-ftpd in packages of which one
puts out the other: `apt-get download pure-ftpd`, `dpkg -x` into a folder, and its usr/sbin and usr/bin on the path.

In each round all are measured one after the other, in an order that turns. It prints the table of bench/RESULTS.md: the
medians, and the medians of the ratios of the rounds, to the copy and to the best of the others. Memory is measured once, of
servers that were just started. The status is 1 where a figure is not what it should be, which is told below the table. With
--quick the amounts are small, to try the script; with --only those figures are measured whose names have the word.
"""

import argparse
import contextlib
import os
import statistics
import sys
import tempfile
from pathlib import Path

sys.dont_write_bytecode = True
sys.path.append(str(Path(__file__).resolve().parent.parent / "trials"))
import measures  # noqa: E402
import peers  # noqa: E402
import wire  # noqa: E402
from measures import Amounts, LARGE, SMALL, session_of  # noqa: E402
from programs import command, prepare  # noqa: E402

OURS, RAW = peers.Ours.name, peers.Raw.name
MEMORY = "/dev/shm" if os.access("/dev/shm", os.W_OK) else None


class Figure:
    """What is measured of each server, whether of the copy too, whether less is better, and what it should be."""

    def __init__(self, name, measure, raw=False, less=False, of_raw=None, most=None, ahead=()):
        self.name, self.measure, self.raw, self.less = name, measure, raw, less
        self.of_raw, self.most, self.ahead = of_raw, most, ahead


COPYING = "pure-ftpd", "pyftpdlib"
ALL = "vsftpd", "pure-ftpd", "pyftpdlib"
TIMED = [
    Figure("RETR of 15 MiB, MB/s", measures.retr, raw=True, of_raw=0.6, ahead=COPYING),
    Figure("STOR of 15 MiB, MB/s", measures.stor, raw=True, ahead=ALL),
    Figure("RETR of 15 MiB, eight at once, MB/s", measures.retr_eight, raw=True),
    Figure("STOR of 15 MiB, eight at once, MB/s", measures.stor_eight, raw=True),
    Figure("RETR of 1 KiB with its PASV, a second", measures.small, ahead=ALL),
    Figure("whole sessions, a second", measures.sessions, ahead=ALL),
    Figure("whole sessions of 16 clients, a second", measures.sessions_of_many, ahead=ALL),
    Figure("connect to 220, microseconds", measures.greeting, less=True, most=100),
]
IDLE = "{} idle sessions{}, {}"
AMOUNTS = "KiB of Rss each", "KiB of Pss each", "KiB more of Rss a second"
# Behind a proxy this server alone.
WHERE = "", " behind a proxy"


def idle_names(count, where):
    """What is measured of idle sessions: resident memory, that where what is shared is divided, and growth."""
    return [IDLE.format(count, where, amount) for amount in AMOUNTS]


def kept(amounts):
    for count in amounts.few, amounts.many:
        for where in WHERE:
            each, *others = idle_names(count, where)
            yield Figure(each, None, less=True, most=24)
            yield from (Figure(name, None, less=True) for name in others)


class Found:
    """What was measured: by figure and server, a value for each round, and why there is none."""

    def __init__(self):
        self.values, self.faults = {}, []

    def add(self, figure, server, value):
        self.values.setdefault((figure, server), []).append(value)

    def fault(self, figure, server, why):
        self.faults.append(f"{server}, {figure}: {type(why).__name__}: {why}")

    def median(self, figure, server):
        values = self.values.get((figure, server))
        return statistics.median(values) if values else None

    def ratio(self, figure, server, other):
        """The median of the ratios of the rounds."""
        pairs = zip(self.values.get((figure, server), ()), self.values.get((figure, other), ()))
        ratios = [one / two for one, two in pairs if two > 0]
        return statistics.median(ratios) if ratios else None

    def best(self, figure, less, names):
        """Which of the others has the best median."""
        known = [(self.median(figure, name), name) for name in names if self.median(figure, name) is not None]
        return (min(known) if less else max(known))[1] if known else None


def fill(server):
    """Stores what is downloaded."""
    with session_of(server) as session:
        session.store("STOR small", SMALL)
        for i in range(measures.SESSIONS):
            session.store(f"STOR large{i}", LARGE)


def start_all(stack, words, folder):
    """The copy, this server, and the others that are here."""
    servers = [peers.Raw(), stack.enter_context(peers.Ours(words))]
    stack.callback(servers[0].stop)
    for kind in peers.PEERS:
        if kind.is_here():
            servers.append(stack.enter_context(kind(folder_for(folder, kind.name))))
    for server in servers[1:]:
        fill(server)
    return servers


def folder_for(folder, name):
    made = Path(folder) / name
    made.mkdir(exist_ok=True)
    return made


def measure_once(found, figure, server, amounts):
    try:
        found.add(figure.name, server.name, figure.measure(server, amounts))
    except (OSError, wire.Unexpected, EOFError, ValueError) as why:
        found.fault(figure.name, server.name, why)


def run_rounds(found, asked, words, folder, amounts):
    with contextlib.ExitStack() as stack:
        servers = start_all(stack, words, folder)
        for turn in range(asked.rounds):
            for figure in TIMED:
                if asked.only in figure.name:
                    order = [server for server in servers if figure.raw or server.name != RAW]
                    place = turn % len(order)
                    for server in order[place:] + order[:place]:
                        measure_once(found, figure, server, amounts)


def measure_memory(found, heads, start, count, amounts):
    """The three figures of a server that was just started."""
    kind, *handed = start
    try:
        with kind(*handed) as server:
            for head, value in zip(heads, measures.idle(server, count, amounts)):
                found.add(head, kind.name, value)
    except (OSError, wire.Unexpected, EOFError, ValueError) as why:
        found.fault(heads[0], kind.name, why)


def run_memory(found, words, folder, amounts):
    starts = [(peers.Ours, words)]
    starts += [(kind, folder_for(folder, kind.name)) for kind in peers.PEERS if kind.is_here()]
    for count in amounts.few, amounts.many:
        for start in starts:
            measure_memory(found, idle_names(count, WHERE[0]), start, count, amounts)
        measure_memory(found, idle_names(count, WHERE[1]), (peers.Ours, words, "proxy"), count, amounts)


def shown(value):
    if value is None:
        return ""
    return f"{value:.0f}" if abs(value) >= 100 else f"{value:.1f}" if abs(value) >= 10 else f"{value:.2f}"


def row(found, figure, others):
    best = found.best(figure.name, figure.less, others)
    cells = [figure.name] + [shown(found.median(figure.name, name)) for name in (RAW, OURS, *others)]
    ratio = found.ratio(figure.name, OURS, best) if best else None
    return cells + [shown(found.ratio(figure.name, OURS, RAW)), f"{shown(ratio)} ({best})" if best else ""]


def print_table(found, figures, others):
    heads = ["figure", RAW, OURS, *others, "of raw", "of the best other"]
    print("| " + " | ".join(heads) + " |")
    print("|" + "---|" * len(heads))
    for figure in figures:
        if found.median(figure.name, OURS) is not None:
            print("| " + " | ".join(row(found, figure, others)) + " |")


def shortfalls(found, figure):
    """Where a figure is not what it should be."""
    own = found.median(figure.name, OURS)
    if own is None:
        return
    of_raw = found.ratio(figure.name, OURS, RAW)
    if figure.of_raw and of_raw is not None and of_raw < figure.of_raw:
        yield f"{figure.name}: {of_raw:.2f} of the copy, not {figure.of_raw}"
    if figure.most and own > figure.most:
        yield f"{figure.name}: {own:.1f}, not at most {figure.most}"
    for name in figure.ahead:
        ratio = found.ratio(figure.name, OURS, name)
        if ratio is not None and ratio <= 1:
            yield f"{figure.name}: {ratio:.2f} of {name}, not ahead of it"


def machine():
    with open("/proc/cpuinfo") as lines:
        model = next((line.split(": ")[1].strip() for line in lines if line.startswith("model name")), "")
    return f"machine: {os.cpu_count()} processors, {model}, load {os.getloadavg()[0]:.1f}"


def main():
    parser = argparse.ArgumentParser(description="the server against others")
    parser.add_argument("--rounds", type=int, default=5, metavar="N")
    parser.add_argument("--quick", action="store_true")
    parser.add_argument("--only", default="", metavar="WORD")
    parser.add_argument("command", nargs=argparse.REMAINDER)
    asked = parser.parse_args()
    words, amounts, found = command(asked.command), Amounts(asked.quick), Found()
    prepare()
    print(machine())
    with tempfile.TemporaryDirectory(dir=MEMORY) as folder:
        os.chmod(folder, 0o755)
        if any(asked.only in figure.name for figure in TIMED):
            run_rounds(found, asked, words, folder, amounts)
        if any(asked.only in figure.name for figure in kept(amounts)):
            run_memory(found, words, folder, amounts)
    figures = [*TIMED, *kept(amounts)]
    others = [kind.name for kind in peers.PEERS if kind.is_here()]
    print(f"{asked.rounds} rounds, {machine().rsplit(', ', 1)[1]} behind them\n")
    print_table(found, figures, others)
    short = [line for figure in figures for line in shortfalls(found, figure)]
    print("".join(f"\nnot measured: {line}" for line in found.faults) + "".join(f"\nnot reached: {line}" for line in short))
    return 1 if short or any(line.startswith(OURS) for line in found.faults) else 0


if __name__ == "__main__":
    sys.exit(main())
