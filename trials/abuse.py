#!/usr/bin/env python3
"""Abuses the server in each of its modes, and looks whether anybody else notices.

Usage: trials/abuse.py [--only WORD] [COMMAND ..]

COMMAND is as for trials/clients.py. Each abuse loses its own session at most: while it goes on and behind it a witness of
another address stores, fetches and lists all the time, and each byte is compared; a session of the abuser's own address
that was there before goes on; and the address can come again. It prints a line a case, and the sum; the status is 1 where
a case failed. The abuses that last a minute go on beside the others.
"""

import os
import sys
import threading
import time

sys.dont_write_bytecode = True
import abuses  # noqa: E402
import wire  # noqa: E402
from cases import begin, body, holds, same  # noqa: E402
from programs import Server  # noqa: E402
from witness import Witness  # noqa: E402

ABUSER, WITNESS = "127.0.0.3", "127.0.0.2"
# A server with so few descriptors has no more than some dozen sessions.
FEW = 160
# So many sessions have a thread each. One without work ends within a minute; of those four stay.
CROWD, RESTING = 200, 4


class Begun:
    """An abuse that goes on in a thread of its own."""

    def __init__(self, abuse, handed):
        self.fault = None
        self.thread = threading.Thread(target=self.work, args=(abuse, handed), daemon=True)
        self.thread.start()

    def work(self, abuse, handed):
        try:
            abuse(handed)
        except Exception as fault:  # told to whoever waits for it
            self.fault = fault

    def wait(self):
        self.thread.join()
        if self.fault is not None:
            raise self.fault


def moves_a_file(session, name):
    data = body(50000)
    session.store(f"STOR {name}", data)
    same(session.fetch(f"RETR {name}"), data)


def nobody_notices(run, handed, witness):
    """Runs an abuse, and looks what has become of the others."""
    with handed.session() as neighbour:
        run()
        witness.goes_on()
        moves_a_file(neighbour, "of-a-neighbour")
    with handed.session() as again:
        moves_a_file(again, "of-one-who-comes-again")


def sentence(mode, abuse):
    return f"{mode} a client {abuse.__name__.replace('_', ' ')}"


def run_mode(tally, words, mode, kind=Server):
    with kind(words, mode) as server, Witness(server.door(), WITNESS) as witness:
        slow = [abuse for abuse, modes in abuses.SLOW.items() if mode in modes and tally.only in sentence(mode, abuse)]
        # Each of the slow ones has an address of its own, whose ports are its own.
        places = {abuse: abuses.Abuse(server, f"127.0.1.{n}") for n, abuse in enumerate(slow, 1)}
        begun = {abuse: Begun(abuse, place) for abuse, place in places.items()}
        quick = abuses.Abuse(server, ABUSER)
        for abuse, modes in abuses.QUICK.items():
            if mode in modes:
                tally.case(sentence(mode, abuse), nobody_notices, lambda abuse=abuse: abuse(quick), quick, witness)
        for abuse, one in begun.items():
            tally.case(sentence(mode, abuse), nobody_notices, one.wait, places[abuse], witness)
        tally.runs_on(mode, server)


def takes_all_descriptors(server):
    """Connections until no more are greeted. A session that was there answers, and all is well behind their end."""
    door, streams = server.door(), []
    with wire.Session(door, WITNESS).login() as session:
        try:
            for _ in range(FEW):
                streams.append(door.dial(ABUSER))
                streams[-1].settimeout(1)
            greeted = sum(is_greeted(stream) for stream in streams)
            holds(0 < greeted < FEW, f"{greeted} of {FEW} are greeted")
            session.tell("NOOP", 200)
        finally:
            for stream in streams:
                stream.close()
        moves_a_file(session, "of-one-who-stayed")
    with wire.Session(door, ABUSER).login() as session:
        moves_a_file(session, "of-one-who-came-later")


def is_greeted(stream):
    try:
        return stream.recv(4) == b"220 "
    except OSError:
        return False


def threads(server):
    return len(os.listdir(f"/proc/{server.process.pid}/task"))


def leaves_no_threads(server):
    """The threads of many sessions at a time end, once these have."""
    door, before = server.door(), threads(server)
    sessions = [wire.Session(door, ABUSER).login() for _ in range(CROWD)]
    holds(threads(server) >= CROWD, f"{threads(server)} threads serve {CROWD} sessions")
    for session in sessions:
        session.quit()
    end = time.monotonic() + abuses.LIMIT + abuses.SLACK
    while threads(server) > before + RESTING and time.monotonic() < end:
        time.sleep(1)
    holds(threads(server) <= before + RESTING, f"{threads(server)} threads are left, of {before} before")
    with wire.Session(door, ABUSER).login() as session:
        moves_a_file(session, "of-one-who-came-later")


def run_crowd(tally, words, mode, kind=Server):
    name = f"{mode} a client leaves no threads"
    if tally.only in name:
        with kind(words, mode) as server:
            tally.case(name, leaves_no_threads, server)


def run_few(tally, words, mode, kind=Server):
    name = f"{mode} a client takes all descriptors"
    if tally.only in name:
        with kind(words, mode, ports=10, descriptors=FEW) as server:
            tally.case(name, takes_all_descriptors, server)


def run(tally, words, kind=Server):
    for mode in abuses.EVERY:
        tally.group(f"{mode} abused", run_mode, words, mode, kind)
        tally.group(f"{mode} with few descriptors", run_few, words, mode, kind)
    tally.group("a crowd", run_crowd, words, "pooled", kind)


def main():
    words, tally = begin("abuses of the server")
    run(tally, words)
    return tally.end()


if __name__ == "__main__":
    sys.exit(main())
