"""The cases on an ABOR while a transfer runs, which trials/clients.py runs (RFC 959, section 4.1.3)."""

import socket
import time

import wire
from cases import body, holds, same

# More than fits between a server and a client that does not read.
LENGTH = 12 * 1024 * 1024
WITHIN = 1
# Within what time small things are done on a busy machine, and how long a connection may wait to be taken in, in seconds.
SOON, TAKEN_IN = 5, 0.1
# Telnet's commands: interpret as process, data mark (RFC 854).
IAC, IP, DM = b"\xff", b"\xf4", b"\xf2"


def plainly(control):
    control.sendall(b"ABOR\r\n")


def behind_a_synch(control):
    """As inetutils sends it: the interrupt, the data mark as urgent data, and then the line."""
    control.sendall(IAC + IP + IAC)
    control.send(DM, socket.MSG_OOB)
    control.sendall(b"ABOR\r\n")


def behind_an_urgent_byte(control):
    """As tnftp sends it: the byte before the data mark is the urgent one."""
    control.sendall(IAC + IP)
    control.send(IAC, socket.MSG_OOB)
    control.sendall(DM + b"ABOR\r\n")


def with_an_urgent_end(control):
    """As Python's ftplib sends it: the LF of the line is the urgent byte."""
    control.send(b"ABOR\r\n", socket.MSG_OOB)


# The ways that a relay passes on, which takes no urgent byte.
RELAYED = plainly, behind_a_synch, behind_an_urgent_byte
WAYS = *RELAYED, with_an_urgent_end


def is_stopped(session, send):
    began = time.monotonic()
    send(session.control)
    session.expect(426)
    session.expect(226)
    took = time.monotonic() - began
    holds(took < WITHIN, f"the replies took {took:.1f} seconds")


def taken(stream):
    """What a connection still gives up to its end, in order or by a reset."""
    got = b""
    with stream:
        try:
            while piece := stream.recv(wire.PIECE):
                got += piece
        except ConnectionError:
            pass
    return got


def download(place, name, send):
    data = body(LENGTH)
    place.put(name, data)
    with place.session() as session:
        stream = session.link()
        session.tell(f"RETR {name}", 150)
        time.sleep(0.3)
        is_stopped(session, send)
        got = taken(stream)
        holds(len(got) < LENGTH, "the whole file has come")
        same(got, data[: len(got)], "the front of the file")
        same(session.fetch(f"RETR {name}"), data, "what the next transfer gives")
        session.store(f"STOR {name}", b"")


def upload(place, name, send):
    with place.session() as session:
        stream = session.link()
        session.tell(f"STOR {name}", 150)
        stream.sendall(b"x" * 100000)
        time.sleep(0.3)
        is_stopped(session, send)
        stream.close()
        got = session.fetch(f"RETR {name}")
        same(got, b"x" * len(got), "what is stored")
        session.store(f"STOR {name}", b"whole")
        same(session.fetch(f"RETR {name}"), b"whole")


def two_aborts(place, name):
    """The first finds a transfer, the second nothing."""
    place.put(name, body(LENGTH))
    with place.session() as session:
        stream = session.link()
        session.tell(f"RETR {name}", 150)
        is_stopped(session, plainly)
        session.tell("ABOR", 226)
        taken(stream)
        session.store(f"STOR {name}", b"")


# What comes at once behind the line of a small download, and the replies to both behind the 150.
BEHIND = [("NOOP", [200, 226]), ("ABOR", [226, 426]), ("QUIT", [221])]


def small_downloads(place, name):
    """Another line comes with that of the download: the file comes whole and soon, but where the line stops it."""
    data = body(4096)
    place.put(name, data)
    for line, due in BEHIND:
        with place.session() as session:
            stream = session.link()
            time.sleep(TAKEN_IN)
            session.send(f"RETR {name}\r\n{line}\r\n".encode())
            began = time.monotonic()
            session.expect(150)
            got = taken(stream)
            codes = sorted(session.reply()[0] for _ in due)
            took = time.monotonic() - began
            holds(took < SOON, f"with {line} it took {took:.1f} seconds")
            # An ABOR may find that the download has ended.
            holds(codes in (due, [226, 226] if line == "ABOR" else due), f"with {line} it is answered {codes}")
            same(got, data[: len(got)] if 426 in codes else data, f"what comes with {line}")


def run(tally, mode, place, ways=WAYS):
    for send in ways:
        how = send.__name__.replace("_", " ")
        tally.case(f"{mode} abort of a download {how}", download, place, place.name(), send)
        tally.case(f"{mode} abort of an upload {how}", upload, place, place.name(), send)
    tally.case(f"{mode} two aborts", two_aborts, place, place.name())
    tally.case(f"{mode} small downloads with another line", small_downloads, place, place.name())
