"""The cases by Python's ftplib and by plain sockets, which trials/clients.py runs."""

import ftplib
import io
import socket
import threading
import time

import wire
from cases import LENGTH, MANY, PART, body, holds, same
from programs import Server

LARGEST = 16777216
LONGEST = 8192
# None, around a transfer's piece, and around what is read and written at once.
LENGTHS = 0, 1, 4096, 4097, 8191, 8192, 8193, 131071, 131072, 131073, 1048576
# Commands of RFC 959 and of those after it that the server has not.
MISSING = """ACCT ADAT ALLO AUTH CCC CDUP CONF DELE ENC EPRT EPSV FEAT HELP HOST LANG LPRT LPSV MDTM MIC MKD MLST MODE OPTS
PBSZ PORT PROT PWD REIN RMD RNFR RNTO SITE SIZE SMNT STAT STRU SYST XCUP XMKD XPWD XRMD""".split()


def client(place):
    """Python's ftplib, logged in."""
    made = ftplib.FTP(timeout=wire.PATIENCE, source_address=(place.source, 0))
    made.connect(place.door.ip, place.door.port)
    made.login("ann", "secret")
    return made


def fetched(ftp, name, offset=None):
    got = io.BytesIO()
    ftp.retrbinary(f"RETR {name}", got.write, rest=offset)
    return got.getvalue()


def ftplib_upload(place, name):
    with client(place) as ftp:
        ftp.storbinary(f"STOR {name}", io.BytesIO(place.bytes))
    same(place.stored(name), place.bytes)


def ftplib_download(place, name):
    place.put(name, place.bytes)
    with client(place) as ftp:
        same(fetched(ftp, name), place.bytes)


def ftplib_resumed_upload(place, name):
    place.put(name, place.bytes[:PART])
    with client(place) as ftp:
        ftp.storbinary(f"STOR {name}", io.BytesIO(place.bytes[PART:]), rest=PART)
    same(place.stored(name), place.bytes)


def ftplib_resumed_download(place, name):
    place.put(name, place.bytes)
    with client(place) as ftp:
        same(fetched(ftp, name, PART), place.bytes[PART:])
        same(fetched(ftp, name), place.bytes, "what comes without an offset behind it")


def ftplib_append(place, name):
    with client(place) as ftp:
        for part in place.bytes[:PART], place.bytes[PART:]:
            ftp.storbinary(f"APPE {name}", io.BytesIO(part))
    same(place.stored(name), place.bytes)


def ftplib_lists(place, name):
    place.put(name, place.bytes)
    lines = []
    with client(place) as ftp:
        ftp.dir(lines.append)
        names = ftp.nlst()
        facts = dict(ftp.mlsd())
    holds(place.long_line(name, LENGTH) in lines, f"no line of {name} in {lines}")
    holds(names == sorted(names) == sorted(facts), f"other names in {names} than in {facts}")
    same(str(facts[name]), str(place.facts(name, LENGTH)))


class Sent(io.BytesIO):
    """What is uploaded; where that is nothing it is not closed at once."""

    def read(self, *count):
        if not self.getbuffer().nbytes:
            time.sleep(wire.PASSED_ON)
        return super().read(*count)


def ftplib_lengths(place, name):
    with client(place) as ftp:
        for length in LENGTHS:
            ftp.storbinary(f"STOR {name}", Sent(body(length, length)))
            same(fetched(ftp, name), body(length, length), f"those of {length} bytes")


def at_once(run, count):
    """Runs this in so many threads, and tells the first fault of one."""
    faults = []

    def guarded(i):
        try:
            run(i)
        except Exception as fault:  # told in the thread that waits
            faults.append(fault)

    threads = [threading.Thread(target=guarded, args=(i,)) for i in range(count)]
    for thread in threads:
        thread.start()
    for thread in threads:
        thread.join()
    if faults:
        raise faults[0]


def ftplib_many(place, name):
    """Many sessions at once, each of which stores and fetches its own files."""

    def one(i):
        with client(place) as ftp:
            for turn in range(4):
                data = body(50000 + 1000 * i + turn, i)
                ftp.storbinary(f"STOR {name}-{i}", io.BytesIO(data))
                same(fetched(ftp, f"{name}-{i}"), data)

    at_once(one, MANY)


def plain_empty(place, _):
    """The first case of a server: its storage is empty."""
    with place.session() as session:
        for word in "LIST", "NLST", "MLSD":
            same(session.fetch(word), b"", f"those of {word}")


def plain_listings(place, _):
    """The second: two files, each line of each listing."""
    place.put("b", b"two")
    place.put("a", body(1234567))
    with place.session() as session:
        same(session.fetch("NLST"), b"a\r\nb\r\n")
        lines = [place.facts_line("a", 1234567), place.facts_line("b", 3), ""]
        same(session.fetch("MLSD"), "\r\n".join(lines).encode())
        lines = [place.long_line("a", 1234567), place.long_line("b", 3), ""]
        same(session.fetch("LIST -la"), "\r\n".join(lines).encode())


def plain_stou(place, _):
    with place.session() as session:
        names = {session.store("STOU", place.bytes) for _ in range(3)}
    holds(len(names) == 3, f"a name came again in {names}")
    for name in names:
        same(place.stored(name), place.bytes)


def plain_offsets(place, name):
    place.put(name, place.bytes)
    with place.session() as session:
        for offset in 1, 8192, 131072, LENGTH - 1, LENGTH, LENGTH + 1:
            same(session.fetch(f"RETR {name}", offset), place.bytes[offset:], f"those from {offset} on")


def plain_missing(place, _):
    """What is no command is answered so, before a login and behind it; PORT is one that is switched off."""
    missing = [word for word in MISSING if word not in place.extra_words]
    with wire.Session(place.door, place.source) as session:
        for word in missing:
            code, text = session.ask(f"{word} x")
            holds(code == (530 if word == "PORT" else 500), f"{word} is answered {code} {text} before a login")
    with place.session() as session:
        for word in missing:
            code, text = session.ask(f"{word} x")
            holds(code in (500, 502), f"{word} is answered {code} {text}")
        holds(session.ask("NOOP") == (200, "Successfully did nothing"), "no NOOP behind them")


def plain_pieces(place, _):
    """Lines that come all at once, and a line that comes byte by byte."""
    with wire.Session(place.door, place.source) as session:
        session.send(b"USER ann\r\nPASS secret\r\nTYPE I\r\nNOOP\r\n")
        for code in 331, 230, 200, 200:
            session.expect(code)
        for byte in b"noop\r\n":
            session.send(bytes([byte]))
        session.expect(200)
        session.send(b"NOOP\r\nQUIT\r\nNOOP\r\n")
        session.expect(200)
        session.expect(221)
        holds(session.reply()[0] == 0, "a reply behind that to QUIT")


def plain_long_line(place, _):
    """The longest line is a line, and one that is longer ends its session."""
    with place.session() as session:
        session.send(b"NOPE " + b"x" * (LONGEST - 6) + b"\n")
        same(session.expect(500), "Command not implemented")
        session.send(b"NOPE " + b"x" * (LONGEST - 5) + b"\n")
        same(session.expect(500), "Command line too long")
        holds(session.reply()[0] == 0, "a reply behind that to a line which is too long")


def plain_largest(place, name):
    """The largest file is stored, and what would be larger is refused and keeps what fitted."""
    data = body(LARGEST)
    with place.session() as session:
        session.store(f"STOR {name}", data)
        same(session.fetch(f"RETR {name}"), data)
        with session.link() as stream:
            session.tell(f"APPE {name}", 150)
            stream.sendall(b"x")
            stream.shutdown(socket.SHUT_WR)
            session.expect(552)
        same(session.fetch(f"RETR {name}"), data)
        session.store(f"STOR {name}", b"")


def plain_replaced_download(place, name):
    """A download sends the file as it was when it began, also if another takes its place meanwhile."""
    data = body(LARGEST)
    with place.session() as session, place.session() as other:
        session.store(f"STOR {name}", data)
        stream = session.link()
        session.tell(f"RETR {name}", 150)
        got = stream.recv(1)
        other.store(f"STOR {name}", place.bytes)
        got += wire.drained(stream)
        session.expect(226)
        same(got, data, "those of the file that was replaced")
        same(session.fetch(f"RETR {name}"), place.bytes, "those of the file in its place")


def plain_two_transfers(place, name):
    """While a transfer runs lines are answered, a second one waits for the end of the first, and a third is refused."""
    place.put(name, place.bytes)
    with place.session() as session:
        first = session.link()
        session.tell(f"STOR {name}-2", 150)
        first.sendall(b"x")
        session.tell("NOOP", 200)
        # A PASV that is decided before the connection that came gives it up.
        time.sleep(wire.PASSED_ON)
        second = session.link()
        session.tell(f"RETR {name}", 150)
        session.tell("NLST", 425)
        first.sendall(b"y")
        first.close()
        session.expect(226)
        same(wire.drained(second), place.bytes)
        session.expect(226)
        same(session.fetch(f"RETR {name}-2"), b"xy")


FTPLIB = [
    ftplib_upload,
    ftplib_download,
    ftplib_resumed_upload,
    ftplib_resumed_download,
    ftplib_append,
    ftplib_lists,
    ftplib_lengths,
    ftplib_many,
]
PLAIN = [
    plain_empty,
    plain_listings,
    plain_stou,
    plain_offsets,
    plain_missing,
    plain_pieces,
    plain_long_line,
    plain_two_transfers,
]
# Those of a storage in memory.
IN_MEMORY = [plain_largest, plain_replaced_download]


def run(tally, mode, place, more=IN_MEMORY):
    """The cases by plain sockets, which send headers themselves where they have to; those by ftplib cannot."""
    for case in PLAIN + more + (FTPLIB if place.door.proxied is None else []):
        tally.case(f"{mode} {case.__name__.replace('_', ' ')}", case, place, place.name())


def share_a_port(server):
    """Two addresses are granted the only port at the same time, and each connection finds its own session."""
    first, second = (wire.Session(server.door(), f"127.0.0.{n}").login() for n in (2, 3))
    with first, second:
        for session in first, second:
            session.store("STOR " + session.source, session.source.encode() * 10000)
        for session in first, second:
            session.tell("PASV", 227)
        streams = [server.door().dial(session.source, server.first) for session in (second, first)]
        for session, stream in zip((second, first), streams):
            session.tell("RETR " + session.source, 150)
            same(wire.drained(stream), session.source.encode() * 10000)
            session.expect(226)


def fill_the_range(server):
    """An address whose sessions hold every port is told so, others are not, and a port is free again at once."""
    first, second, other = (wire.Session(server.door(), f"127.0.0.{n}").login() for n in (4, 4, 5))
    with first, second, other:
        first.tell("PASV", 227)
        same(second.tell("PASV", 425), "Could not allocate passive port")
        other.tell("PASV", 227)
        first.tell("ABOR", 226)
        second.tell("PASV", 227)


def run_addresses(tally, words, mode, kind=Server):
    """The cases on who is granted which port, with a server that has one."""
    with kind(words, mode, ports=1) as server:
        tally.case(f"{mode} two addresses on one port", share_a_port, server)
        tally.case(f"{mode} an address that holds every port", fill_the_range, server)
