"""Who goes on while others abuse a server: a session that stores, fetches and lists all the time, each byte compared."""

import threading
import time

import wire
from cases import body, holds, same

PATIENCE = 60
# How many whole turns have to come behind an abuse.
TURNS = 3
PAUSE = 0.05


class Witness:
    """A session in a thread of its own, of this client address."""

    def __init__(self, door, source):
        self.door, self.source, self.name = door, source, f"of-witness-{source}"
        self.begin()

    def begin(self):
        self.turns, self.fault, self.ended = 0, None, False
        self.session = wire.Session(self.door, self.source).login()
        self.thread = threading.Thread(target=self.work)
        self.thread.start()

    def end(self):
        self.ended = True
        self.thread.join()
        self.session.close()

    def __enter__(self):
        return self

    def __exit__(self, *_):
        self.end()

    def work(self):
        try:
            while not self.ended:
                self.turn(body(150000 + self.turns % 100, self.turns))
                self.turns += 1
                time.sleep(PAUSE)
        except Exception as fault:  # told to whoever asks for it
            self.fault = fault

    def turn(self, data):
        self.session.store(f"STOR {self.name}", data)
        same(self.session.fetch(f"RETR {self.name}"), data, "the witness's bytes")
        names = self.session.fetch("NLST").decode().split()
        holds(self.name in names, f"the witness does not find its file in {names}")

    def goes_on(self):
        """Waits for some more whole turns. Who lost its session is told of once, and then has another."""
        due, end = self.turns + TURNS, time.monotonic() + PATIENCE
        while self.turns < due and self.fault is None and time.monotonic() < end:
            time.sleep(0.01)
        come, fault = self.turns, self.fault
        if fault is not None:
            self.end()
            self.begin()
            raise wire.Unexpected(f"the witness lost its session: {type(fault).__name__}: {fault}")
        holds(come >= due, f"the witness came to turn {come} of {due} in {PATIENCE} seconds")
