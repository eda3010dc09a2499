"""The figures of bench/serve.py. Each function measures a server once."""

import os
import statistics
import time

import wire
from peers import LENGTH, Raw

SESSIONS = 8
CLIENTS = 16
KIB = 1024
SMALL = b"x" * KIB
LARGE = bytes(range(256)) * (LENGTH // 256)
# How long after the last login memory is looked at, and how long its growth, in seconds.
SETTLES, GROWS = 5, 20


class Amounts:
    """How often the small things are done in a round."""

    def __init__(self, quick):
        self.transfers, self.downloads, self.sessions, self.greetings = (1, 20, 10, 20) if quick else (4, 400, 200, 400)
        self.few, self.many = (20, 50) if quick else (200, 1000)
        self.settles, self.grows = (1, 2) if quick else (SETTLES, GROWS)


def megabytes(length, seconds):
    return length / 1e6 / seconds


def session_of(server, source="127.0.0.1"):
    """A session that is logged in, and moves files as they are."""
    session = wire.Session(server.door(), source).login("ftp", "x")
    session.tell("TYPE I", 200)
    return session


def take(stream, block):
    """Reads up to the end, and says how many bytes came."""
    length = 0
    while got := stream.recv_into(block):
        length += got
    stream.close()
    return length


def check(length):
    if length != LENGTH:
        raise wire.Unexpected(f"{length} bytes of {LENGTH}")


class Transfer:
    """A transfer of a file that is ready to go: a session that is logged in, with its data connection, or a plain copy."""

    def __init__(self, server, name):
        self.block = bytearray(wire.PIECE)
        self.name = name
        self.session = None if isinstance(server, Raw) else session_of(server)
        self.stream = server.dial() if self.session is None else self.session.link()

    def retr(self):
        self.tell(f"RETR {self.name}", b"R")
        check(take(self.stream, self.block))
        if self.session:
            self.session.expect(125, 150)
            self.session.expect(226)

    def stor(self):
        self.tell(f"STOR {self.name}", b"S")
        if self.session:
            self.session.expect(125, 150)
        self.stream.sendall(LARGE)
        if self.session:
            self.stream.close()
            self.session.expect(226)
        else:
            self.stream.shutdown(1)
            self.stream.recv(1)

    def tell(self, line, word):
        if self.session:
            self.session.send(line)
        else:
            self.stream.sendall(word)

    def close(self):
        self.stream.close()
        if self.session:
            self.session.close()


def timed(server, word, name, amounts):
    """The median speed of some transfers one behind the other."""
    speeds = []
    for _ in range(amounts.transfers):
        transfer = Transfer(server, name)
        begin = time.perf_counter()
        getattr(transfer, word)()
        speeds.append(megabytes(LENGTH, time.perf_counter() - begin))
        transfer.close()
    return statistics.median(speeds)


def together(count, prepare, work):
    """Has processes prepare, starts them at one moment, and says how long it took until the last was ready."""
    ready, begun, done = os.pipe(), os.pipe(), os.pipe()
    children = []
    for i in range(count):
        child = os.fork()
        if child == 0:
            run_child(i, prepare, work, ready[1], begun[0], done[1])
        children.append(child)
    os.close(ready[1])
    os.close(done[1])
    come = all(os.read(ready[0], 1) for _ in range(count))
    begin = time.perf_counter()
    os.write(begun[1], b"." * count)
    ended = come and all(os.read(done[0], 1) for _ in range(count))
    seconds = time.perf_counter() - begin
    for child in children:
        os.waitpid(child, 0)
    for descriptor in ready[0], *begun, done[0]:
        os.close(descriptor)
    if not ended:
        raise wire.Unexpected("one of several at once has failed")
    return seconds


def run_child(i, prepare, work, ready, begun, done):
    status = 1
    try:
        made = prepare(i)
        os.write(ready, b".")
        os.read(begun, 1)
        work(made)
        os.write(done, b".")
        status = 0
    finally:
        os._exit(status)


def eight(server, word, name):
    seconds = together(SESSIONS, lambda i: Transfer(server, f"{name}{i}"), lambda made: getattr(made, word)())
    return megabytes(LENGTH * SESSIONS, seconds)


def retr(server, amounts):
    return timed(server, "retr", "large0", amounts)


def stor(server, amounts):
    return timed(server, "stor", "new0", amounts)


def retr_eight(server, _):
    return eight(server, "retr", "large")


def stor_eight(server, _):
    return eight(server, "stor", "new")


def small(server, amounts):
    """Downloads of a KiB a second, each with its PASV."""
    with session_of(server) as session:
        begin = time.perf_counter()
        for _ in range(amounts.downloads):
            session.fetch("RETR small")
        return amounts.downloads / (time.perf_counter() - begin)


def whole_sessions(server, count):
    """From the connection to the reply to QUIT, with a login and a download of a KiB."""
    for _ in range(count):
        with session_of(server) as session:
            session.fetch("RETR small")
            session.quit()


def sessions(server, amounts):
    begin = time.perf_counter()
    whole_sessions(server, amounts.sessions)
    return amounts.sessions / (time.perf_counter() - begin)


def sessions_of_many(server, amounts):
    each = max(1, amounts.sessions // 4)
    return CLIENTS * each / together(CLIENTS, lambda _: None, lambda _: whole_sessions(server, each))


def greeting(server, amounts):
    """The median of microseconds from the call to the greeting."""
    took = []
    for _ in range(amounts.greetings):
        begin = time.perf_counter()
        with wire.Session(server.door()):
            took.append(time.perf_counter() - begin)
    return statistics.median(took) * 1e6


def tree(process):
    """A process with all that it started."""
    parents = {}
    for entry in os.listdir("/proc"):
        if entry.isdigit():
            try:
                with open(f"/proc/{entry}/stat") as stat:
                    parents[int(entry)] = int(stat.read().rsplit(") ", 1)[1].split()[1])
            except OSError:
                continue
    found = [process]
    for one in found:
        found += [child for child, parent in parents.items() if parent == one]
    return found


def memory(process, field):
    """What a process and all that it started have in memory, in KiB: `Rss`, or `Pss`, which divides what they share."""
    total = 0
    for one in tree(process):
        try:
            with open(f"/proc/{one}/smaps_rollup") as rollup:
                total += sum(int(line.split()[1]) for line in rollup if line.startswith(f"{field}:"))
        except OSError:
            continue
    return total


def idle(server, count, amounts):
    """KiB a session of `Rss` and of `Pss`, and KiB a second by which `Rss` grows while all are idle."""
    process = server.process.pid
    session_of(server).close()
    time.sleep(amounts.settles)
    before = [memory(process, field) for field in ("Rss", "Pss")]
    open_ones = [session_of(server, f"127.0.{1 + i // 250}.{1 + i % 250}") for i in range(count)]
    time.sleep(amounts.settles)
    behind = [memory(process, field) for field in ("Rss", "Pss")]
    time.sleep(amounts.grows)
    growth = (memory(process, "Rss") - behind[0]) / amounts.grows
    for one in open_ones:
        one.close()
    return *((after - first) / count for first, after in zip(before, behind)), growth
