#!/usr/bin/env python3
"""Has the server print the log of what it decides while clients use it, and looks into that log. trials/run calls it.

Usage: trials/recorded.py [--front] [--only WORD] [COMMAND ..]

COMMAND is as that of trials/clients.py, without `record`. Each server's log is read by a reader of its own (trials/journal.py):
sessions that are known have each of their lines, notices and transfers there, once and in order, and with an entry less, or with two
of a session in the other order, that is seen. Where `ftp_check` is built, or FTP_CHECK names it, it has to find each log right.
"""

import os
import random
import shlex
import subprocess
import sys
import time
from pathlib import Path

sys.dont_write_bytecode = True
import aborts  # noqa: E402
import journal  # noqa: E402
import operations  # noqa: E402
import sessions  # noqa: E402
from cases import Place, Skipped, begin, body, same  # noqa: E402
from programs import TOP, Server  # noqa: E402
from wire import Session, Unexpected  # noqa: E402

CHECK = TOP / "crates" / "ftp_check" / "out" / "ftp_check"
# So many sessions at once, each with so many lines beside its transfers.
COUNT, RESTS = 16, 40
QUIET, LONGEST = 1, 30
LESS = 60


def length(i):
    return 300001 + 1000 * i


def own_session(place, i):
    """A session of a user of its own."""
    with Session(place.door, place.source).login(f"user-{i}") as session:
        session.store(f"STOR own-{i}", body(length(i), i))
        for offset in *range(1, RESTS), 0:
            session.tell(f"REST {offset}", 350)
        same(session.fetch(f"RETR own-{i}"), body(length(i), i))
        session.quit()


def has_own(entries):
    for i in range(COUNT):
        rests = [f"rest {offset}" for offset in (*range(1, RESTS), 0)]
        lines = [f"user user-{i}", "pass", "pasv", f"stor own-{i}", *rests, "pasv", f"retr own-{i}", "quit"]
        notices = ["login 0", f"put {length(i)}", f"got {length(i)}", "logout 0"]
        journal.has_session(entries, f"user-{i}", lines, notices)


def recorded(server):
    """The log, once nothing is written any more."""
    end, text = time.monotonic() + LONGEST, None
    while time.monotonic() < end:
        before, text = text, server.text()
        if text == before:
            return text
        time.sleep(QUIET)
    raise Unexpected("the log does not end")


def is_read(server):
    entries = journal.read(recorded(server), server.process.args[-3:])
    journal.holds_together(entries)
    has_own(entries)


def is_seen(entries, what):
    try:
        has_own(entries)
        journal.holds_together(entries)
    except Unexpected:
        return
    raise Unexpected(f"{what} is not seen")


def a_loss_is_seen(server):
    """The log without one entry of the sessions that are known, and with two of them in the other order, is not taken for whole."""
    entries = journal.read(recorded(server), server.process.args[-3:])
    own = {journal.sessions_of(entries, f"user-{i}")[0] for i in range(COUNT)}
    places = [k for k, entry in enumerate(entries) if any(entry.is_of(one) for one in own)]
    drawn = random.Random(1)
    for k in drawn.sample(places, LESS):
        is_seen(entries[:k] + entries[k + 1 :], f"that entry {k} is gone")
    for k in drawn.sample(places, LESS):
        later = [j for j in places if j > k and entries[j].event[1] == entries[k].event[1]]
        if later:
            other = list(entries)
            other[k], other[later[0]] = other[later[0]], other[k]
            is_seen(other, f"that entries {k} and {later[0]} have changed places")


def is_right(server):
    """The program that checks logs says so."""
    check = shlex.split(os.environ.get("FTP_CHECK", "")) or [str(CHECK)]
    if not Path(check[0]).exists():
        raise Skipped("ftp_check is not built")
    text = recorded(server)
    done = subprocess.run([*check, "check"], input=text.encode("latin-1"), capture_output=True, timeout=600, check=False)
    count = len(journal.read(text, server.process.args[-3:]))
    same(str((done.returncode, done.stdout.decode("latin-1"))), str((0, f"right {count}\n")), "what ftp_check says")


def run(tally, words, mode, clients):
    """A server in a mode, under the cases of trials/clients.py; in proxy mode plain sockets alone."""
    name = f"recorded {mode}"
    with Server([*words, "record"], mode) as server, Place(server.door()) as place:
        sessions.run(tally, name, place)
        aborts.run(tally, name, place)
        if mode != "proxy":
            operations.run(tally, name, place, clients=clients)
        tally.case(f"{name} own sessions", sessions.at_once, lambda i: own_session(place, i), COUNT)
        tally.case(f"{name} log is read", is_read, server)
        tally.case(f"{name} log shows a loss", a_loss_is_seen, server)
        tally.case(f"{name} log is right", is_right, server)
        tally.runs_on(name, server)


def main():
    words, tally = begin("a server that prints its log, under the FTP clients of this machine")
    for mode in ["pooled"] if tally.is_front else ["legacy", "pooled", "proxy"]:
        tally.group(f"recorded {mode}", run, words, mode, ["curl"] if tally.is_front else operations.CLIENTS)
    return tally.end()


if __name__ == "__main__":
    sys.exit(main())
