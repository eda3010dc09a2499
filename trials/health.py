"""The cases with health checks of HAProxy, which trials/clients.py runs: it asks twice a second whether a server is there."""

import os
import socket
import threading
import time
from pathlib import Path

import wire
from abuses import SIGNATURE
from cases import Skipped, body, holds, same
from programs import HEADER_2, HOST, Proxy, Server

# It asks as it passes connections on: behind a header of version 2, which is local.
CHECKED = f"{HEADER_2} check inter 500ms"
LOCAL = SIGNATURE + b"\x20"
LASTING = 60
# So many checks come in that time at least, where the machine has much else to do.
LEAST = 60
# How long it takes a server to be done with what it closes.
SETTLING = 5


class Beside:
    """A listener that HAProxy asks beside the server, and that keeps what it is asked."""

    def __init__(self):
        self.asked = []
        self.listener = socket.create_server((HOST, 0))
        self.port = self.listener.getsockname()[1]
        threading.Thread(target=self.work, daemon=True).start()

    def __enter__(self):
        return self

    def __exit__(self, *_):
        self.listener.close()

    def work(self):
        try:
            while True:
                stream, _ = self.listener.accept()
                with stream:
                    self.asked.append(front(stream))
        except OSError:
            pass


def front(stream):
    try:
        return stream.recv(wire.PIECE)
    except OSError as why:
        return str(why).encode()


def held(server):
    """How many descriptors and how many threads a server has."""
    place = Path("/proc", str(server.process.pid))
    if not place.exists():
        raise Skipped("there is no /proc")
    return tuple(len(os.listdir(place / folder)) for folder in ("fd", "task"))


def leave_nothing(server):
    """A minute of checks leaves a server the descriptors and the threads that it had, and its sessions go on meanwhile."""
    with wire.Session(server.door()).login() as session:
        session.store("STOR kept", body(10000))
        time.sleep(SETTLING)
        before = held(server)
        with Beside() as beside, Proxy([server, beside], CHECKED):
            time.sleep(LASTING)
            asked = list(beside.asked)
        time.sleep(SETTLING)
        after = held(server)
        holds(all(now <= then for now, then in zip(after, before)), f"{before} descriptors and threads before the checks, and {after} behind them")
        local = sum(it.startswith(LOCAL) for it in asked)
        holds(local >= LEAST, f"{local} checks came, and {asked[:3]}")
        same(session.fetch("RETR kept"), body(10000))
        session.quit()


def is_closed(server):
    """What begins as a check does is closed without a word, also where the balancer stays."""
    for rest in b"\0\0\0", b"\x11\0\x0c" + bytes(12):
        with wire.Door(HOST, server.port).dial() as stream:
            stream.sendall(LOCAL + rest)
            same(stream.recv(1), b"", "those behind a header that is local")


def run(tally, words, kind=Server):
    with kind(words, "proxy") as server:
        tally.case("health checks, one whose balancer stays", is_closed, server)
        tally.case("health checks leave nothing behind", leave_nothing, server)
        tally.runs_on("health checks", server)
