#!/usr/bin/env python3
"""Measures the server whose journal is a checkpoint and a tail against the same server without: memory, pauses and speed.

Usage: bench/checkpoint.py [--rounds N] [--quick] [--only WORD] [COMMAND ..]

COMMAND is as for trials/clients.py; EVERY is 1,000. It prints three tables: what is resident after few commands and after many,
of one session and of many; how long one session waits for the reply to a NOOP, while another sends commands without a pause and
as many are open as descriptors allow, up to the server's own limit; and how many things are done in a second, the medians of the
rounds and of their ratios. The status is 1 where a figure is not what it should be, which is told below the tables. With --quick the
amounts are small, to try the script; WORD is `memory`, `pauses` or `speed`.
"""

import argparse
import gc
import os
import resource
import signal
import statistics
import sys
import time
from pathlib import Path

sys.dont_write_bytecode = True
sys.path.append(str(Path(__file__).resolve().parent.parent / "trials"))
import measures  # noqa: E402
import wire  # noqa: E402
from measures import memory, session_of  # noqa: E402
from programs import Server, command, prepare  # noqa: E402

EVERY = 1000
# What is asked for: at most so much of the memory after few commands, and at least so much of the speed without a checkpoint.
MOST_GROWTH, LEAST_SPEED = 1.10, 0.95
LINES, CODES = b"NOOP\r\nTYPE I\r\nCWD /\r\nPASV\r\n", (b"200", b"200", b"250", b"227")
# What the server takes of descriptors for itself with its passive ports, for a session, and in a whole table of ours.
OWN, EACH, SPARE = 120, 3, 50
MOST_SESSIONS = 10_000
WITH, WITHOUT = f"EVERY {EVERY}", "without"


class Amounts:
    """How many commands and sessions there are, and how many NOOPs are waited for."""

    def __init__(self, quick):
        self.few, self.many = (2_000, 40_000) if quick else (20_000, 2_000_000)
        self.sessions = 50 if quick else 1000
        self.open, self.probes = (100, 500) if quick else (MOST_SESSIONS, 50_000)
        self.commands = 2_000 if quick else 50_000
        self.settles = 1 if quick else 5
        self.of_sessions = measures.Amounts(quick)


def opened(server, count):
    """So many sessions, each of an address of its own, that are logged in."""
    return [session_of(server, f"127.0.{1 + i // 250}.{1 + i % 250}") for i in range(count)]


def run_lines(session, times):
    """Sends the lines so many times at once."""
    session.control.sendall(LINES * times)


def take_replies(session, times):
    for code in CODES * times:
        line = session.lines.readline()
        if not line.startswith(code):
            raise wire.Unexpected(f"{code.decode()} is due, and came {line!r}")


def run_commands(sessions, count):
    """So many commands in all, each session's in turn."""
    times = 50 if len(sessions) == 1 else 5
    for _ in range(count // (len(CODES) * times * len(sessions))):
        for session in sessions:
            run_lines(session, times)
        for session in sessions:
            take_replies(session, times)


def resident(words, every, count, few, many, settles):
    """KiB that are resident after few commands and after many of so many sessions."""
    with Server(words, "pooled", every=every) as server:
        sessions = opened(server, count)
        run_commands(sessions, few)
        time.sleep(settles)
        first = memory(server.process.pid, "Rss")
        run_commands(sessions, many - few)
        time.sleep(settles)
        last = memory(server.process.pid, "Rss")
        for session in sessions:
            session.close()
    return first, last


def print_memory(words, amounts, short):
    few, many = amounts.few, amounts.many
    print(f"| sessions | | KiB after {few} commands | commands | KiB after them | of the first |")
    print("|---|---|---|---|---|---|")
    for count, every, last in (1, EVERY, many), (amounts.sessions, EVERY, many), (1, None, many // 10):
        one, two = resident(words, every, count, few, last, amounts.settles)
        print(f"| {count} | {WITH if every else WITHOUT} | {one} | {last} | {two} | {two / one:.2f} |", flush=True)
        if every and two > one * MOST_GROWTH:
            short.append(f"memory of {count} sessions: {two / one:.2f} of what it was, not {MOST_GROWTH}")
    print()


def without_a_pause(server):
    """A process that sends commands for as long as it is let."""
    child = os.fork()
    if child == 0:
        try:
            session = session_of(server, "127.0.0.2")
            while True:
                run_lines(session, 25)
                take_replies(session, 25)
        finally:
            os._exit(1)
    return child


def waits(session, count):
    """How many milliseconds each of so many NOOPs took, the shortest first."""
    took = []
    for _ in range(count):
        begin = time.perf_counter()
        session.tell("NOOP", 200)
        took.append((time.perf_counter() - begin) * 1000)
    return sorted(took)


def live(amounts):
    """As many sessions as descriptors allow, of the server and of this process, up to the server's limit."""
    _, most = resource.getrlimit(resource.RLIMIT_NOFILE)
    return min(amounts.open, MOST_SESSIONS - 2, (most - OWN) // EACH, most - SPARE)


def print_pauses(words, amounts):
    print("| sessions | | ms in the middle | a thousandth takes longer than | the longest |")
    print("|---|---|---|---|---|")
    for every in EVERY, 1, None:
        with Server(words, "pooled", every=every) as server:
            sessions = opened(server, live(amounts))
            child = without_a_pause(server)
            gc.disable()
            took = waits(sessions[-1], amounts.probes)
            gc.enable()
            os.kill(child, signal.SIGKILL)
            os.waitpid(child, 0)
            for session in sessions:
                session.close()
        figures = took[len(took) // 2], took[len(took) * 999 // 1000], took[-1]
        cells = " | ".join(f"{figure:.3f}" for figure in figures)
        print(f"| {len(sessions)} | {f'EVERY {every}' if every else WITHOUT} | {cells} |", flush=True)
    print()


def commands_of_one(server, amounts):
    with session_of(server) as session:
        begin = time.perf_counter()
        run_commands([session], amounts.commands)
        return amounts.commands / (time.perf_counter() - begin)


def commands_of_many(server, amounts):
    """Of sixteen processes, each with a session."""

    def work(session):
        run_commands([session], amounts.commands // 8)

    seconds = measures.together(measures.CLIENTS, lambda i: session_of(server, f"127.0.0.{2 + i}"), work)
    return measures.CLIENTS * (amounts.commands // 8) / seconds


SPEEDS = {
    "commands of a session, a second": commands_of_one,
    "commands of 16 sessions, a second": commands_of_many,
    "RETR of 1 KiB with its PASV, a second": lambda server, amounts: measures.small(server, amounts.of_sessions),
    "whole sessions, a second": lambda server, amounts: measures.sessions(server, amounts.of_sessions),
    "whole sessions of 16 clients, a second": lambda server, amounts: measures.sessions_of_many(server, amounts.of_sessions),
}


def run_rounds(words, rounds, amounts):
    """Of each figure the values of the rounds, with a checkpoint and without; which goes first turns."""
    found = {name: {EVERY: [], None: []} for name in SPEEDS}
    with Server(words, "pooled", every=EVERY) as keeping, Server(words, "pooled") as whole:
        for server in keeping, whole:
            with session_of(server) as session:
                session.store("STOR small", measures.SMALL)
        for turn in range(rounds):
            for name, measure in SPEEDS.items():
                for server in (keeping, whole) if turn % 2 else (whole, keeping):
                    found[name][server.every].append(measure(server, amounts))
    return found


def print_speed(words, rounds, amounts, short):
    print(f"| figure | {WITH} | {WITHOUT} | ratio |")
    print("|---|---|---|---|")
    for name, values in run_rounds(words, rounds, amounts).items():
        ratio = statistics.median(one / two for one, two in zip(values[EVERY], values[None]))
        print(f"| {name} | {statistics.median(values[EVERY]):.0f} | {statistics.median(values[None]):.0f} | {ratio:.2f} |")
        if ratio < LEAST_SPEED:
            short.append(f"{name}: {ratio:.2f} of the speed without, not {LEAST_SPEED}")
    print()


def main():
    parser = argparse.ArgumentParser(description="the server with a checkpoint against the same without")
    parser.add_argument("--rounds", type=int, default=5, metavar="N")
    parser.add_argument("--quick", action="store_true")
    parser.add_argument("--only", default="", metavar="WORD")
    parser.add_argument("command", nargs=argparse.REMAINDER)
    asked = parser.parse_args()
    words, amounts, short = command(asked.command), Amounts(asked.quick), []
    prepare()
    print(f"{os.cpu_count()} processors, load {os.getloadavg()[0]:.1f}\n")
    if asked.only in "memory":
        print_memory(words, amounts, short)
    if asked.only in "pauses":
        print_pauses(words, amounts)
    if asked.only in "speed":
        print_speed(words, asked.rounds, amounts, short)
    print(f"load {os.getloadavg()[0]:.1f} behind them")
    print("".join(f"not reached: {line}\n" for line in short), end="")
    return 1 if short else 0


if __name__ == "__main__":
    sys.exit(main())
