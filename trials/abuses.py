"""What clients do to a server, each as a function of its door, of the abuser's address, and of the server's mode."""

import random
import socket
import time

import wire
from cases import body, holds, same

LARGE = 15 * 1024 * 1024
# More lines than fit in all buffers between, with their replies.
UNREAD = 64 * 1024 * 1024
MANY = 1000
# How many sessions one client may have at a time.
MOST = 500
STRANGER = "127.0.0.9"
# A wait of the server is a minute at most; then the transfer or the session is over.
LIMIT = 60
# What it may take longer where the machine has much else to do.
SLACK = 30
# What a server may gather before it sends: a piece of a transfer, all that is gathered, and a byte less than a piece.
UNSENT = 8192, 131072, 8191
# How long a server may take to attach a connection.
ATTACHED = 0.3
# A listener of one session waits 16 seconds; its session looks at it once in ten.
LISTENER = 26


class Abuse:
    """Where a server is abused, and from which address."""

    def __init__(self, server, source):
        self.server, self.source, self.door = server, source, server.door()

    def session(self, source=None):
        return wire.Session(self.door, source or self.source).login()

    def stored(self, name, data):
        with self.session() as session:
            session.store(f"STOR {name}", data)
            session.quit()


def ended(stream):
    """Whether a connection has ended, in order or by a reset, within the time that its reads have."""
    try:
        while stream.recv(wire.PIECE):
            pass
    except TimeoutError:
        return False
    except OSError:
        pass
    return True


def never_reads_data(abuse):
    """The transfer ends behind a wait, is told as lost, and its session goes on."""
    abuse.stored("large", body(LARGE))
    with abuse.session() as session, session.link():
        session.tell("RETR large", 150)
        session.tell("NOOP", 200)
        session.control.settimeout(LIMIT + SLACK)
        session.expect(426)
        session.tell("NOOP", 200)


def never_reads_replies(abuse):
    """Once nothing more is taken, the session ends behind a wait, with replies that nobody took."""
    # Its reply is the longest for its length.
    lines = b"REST 18446744073709551615\r\n" * 1000
    with abuse.door.dial(abuse.source) as stream:
        stream.sendall(b"USER ann\r\nPASS secret\r\n")
        stream.settimeout(1)
        taken, length = time.monotonic(), 0
        while length < UNREAD and time.monotonic() < taken + LIMIT + SLACK:
            try:
                length += stream.send(lines)
                taken = time.monotonic()
            except TimeoutError:
                pass
            except OSError:
                return
    raise wire.Unexpected(f"the session goes on behind {length} bytes, though nobody takes its replies")


def never_connects(abuse):
    """Sessions take all ports of their own address, and are told so; nothing is kept behind their ends."""
    sessions = [abuse.session() for _ in range(abuse.server.last - abuse.server.first + 1)]
    try:
        for session in sessions:
            session.tell("PASV", 227)
            session.tell("LIST", 150)
            session.tell("NOOP", 200)
        with abuse.session() as session:
            session.tell("PASV", 425)
    finally:
        for session in sessions:
            session.close()
    with abuse.session() as session:
        session.tell("PASV", 227)


def never_connects_to_its_listener(abuse):
    """The listener of a session is closed behind a wait, the transfer is cancelled, and the session goes on."""
    with abuse.session() as session:
        port = session.passive()
        session.tell("LIST", 150)
        session.control.settimeout(LISTENER + SLACK)
        session.expect(426)
        try:
            abuse.door.dial(abuse.source, port).close()
        except OSError:
            pass
        else:
            raise wire.Unexpected(f"port {port} still listens")
        session.store("STOR once", b"more")
        same(session.fetch("RETR once"), b"more")


def a_byte_a_second(abuse):
    """A line and an upload that take their time are served."""
    with abuse.session() as session:
        for byte in b"NOOP\r\n":
            session.send(bytes([byte]))
            time.sleep(1)
        session.expect(200)
        with session.link() as stream:
            session.tell("STOR slowly", 150)
            for byte in b"a byte a second":
                stream.sendall(bytes([byte]))
                time.sleep(1)
        session.expect(226)
        same(session.fetch("RETR slowly"), b"a byte a second")


def opens_many(abuse):
    """A thousand connections at once: as many are greeted as one client may have, and the others are told 421 and closed."""
    streams, greeted = [], 0
    try:
        for _ in range(MANY):
            streams.append(abuse.door.dial(abuse.source))
        for stream in streams:
            first = stream.recv(4)
            holds(first in (b"220 ", b"421 "), f"the first bytes are {first}")
            greeted += first == b"220 "
            holds(first == b"220 " or ended(stream), "a connection too many goes on")
        holds(MOST // 2 < greeted <= MOST, f"{greeted} are greeted")
    finally:
        for stream in streams:
            stream.close()
    comes_again(abuse)


def comes_again(abuse):
    """Once sessions have ended, others of their client are served."""
    for _ in range(SLACK * 10):
        try:
            abuse.session().quit()
            return
        except wire.Unexpected:
            time.sleep(0.1)
    raise wire.Unexpected("nobody of its address is served again")


def asks_for_ports_in_a_loop(abuse):
    """A session that asks for more ports than there are has one at a time, and none behind its end."""
    with abuse.session() as session:
        for _ in range(3 * (abuse.server.last - abuse.server.first + 1)):
            session.tell("PASV", 227)
        with abuse.session(STRANGER) as other:
            other.store("STOR beside", b"others have ports")
        session.store("STOR own", b"and so has it")
        session.tell("PASV", 227)
        session.quit()
    # A port is drawn a few times: with most of them free there is one for each.
    sessions = [abuse.session(STRANGER) for _ in range((abuse.server.last - abuse.server.first + 1) // 10)]
    try:
        for session in sessions:
            session.tell("PASV", 227)
    finally:
        for session in sessions:
            session.close()


# ABOR behind IAC IP, IAC DM, as parts that go out in one go each, the last byte of a part as urgent data where it is so:
# with IAC before DM so, as tnftp and inetutils have it; with the first IAC; with DM (RFC 854); with none.
INTERRUPTS = (
    ((b"\xff\xf4\xff", True), (b"\xf2ABOR\r\n", False)),
    ((b"\xff", True), (b"\xf4\xff\xf2ABOR\r\n", False)),
    ((b"\xff\xf4\xff\xf2", True), (b"ABOR\r\n", False)),
    ((b"\xff\xf4\xff\xf2ABOR\r\n", False),),
    ((b"AB", False), (b"\xff\xf1", True), (b"OR\r\n", False)),
)


def sends_urgent_bytes(abuse):
    """ABOR behind Telnet commands and urgent data is answered within a second, in a transfer too, and the session goes on."""
    with abuse.session() as session:
        session.control.settimeout(1)
        for parts in INTERRUPTS * 4:
            for part, urgent in parts:
                session.control.send(part, socket.MSG_OOB if urgent else 0)
            session.expect(226)
            session.tell("NOOP", 200)
        # IAC NOP by itself asks for nothing, and a reply that comes later is not kept back by it.
        session.control.sendall(b"\xff\xf1")
        session.control.settimeout(wire.PATIENCE)
        moves(session, "behind-urgent-bytes")


def moves(session, name):
    session.store(f"STOR {name}", body(50000))
    same(session.fetch(f"RETR {name}"), body(50000))


def stores_one_name_twice(abuse):
    """A path that is written to refuses a second upload until the first has ended; meanwhile it is read as it is."""
    with abuse.session() as first, abuse.session() as second:
        with first.link() as stream:
            first.tell("STOR twice", 150)
            stream.sendall(b"x" * 8192)
            while second_upload(second) != 450:
                time.sleep(0.05)
            stream.sendall(b"y" * 8192)
        first.expect(226)
        same(second.fetch("RETR twice"), b"x" * 8192 + b"y" * 8192)
        second.store("STOR twice", b"once more")
        same(first.fetch("RETR twice"), b"once more")


def second_upload(session):
    """The code that an upload of nothing to the same path ends with. Before the first has begun it is 226."""
    with session.link():
        session.tell("STOR twice", 150)
        time.sleep(wire.PASSED_ON)
    return session.reply()[0]


def resets_downloads(abuse):
    """Downloads that are reset are told as lost, and their session goes on."""
    abuse.stored("large", body(LARGE))
    with abuse.session() as session:
        for _ in range(10):
            stream = session.link()
            session.tell("RETR large", 150)
            stream.recv(100000)
            wire.reset(stream)
            session.expect(426)
        same(session.fetch("RETR large", LARGE - 1000), body(LARGE)[-1000:])


def resets_its_data_connection_early(abuse):
    """A connection that was reset before a byte left is told as lost, however little was to go, and its session goes on."""
    with abuse.session() as session:
        for length in UNSENT:
            session.store("STOR unsent", body(length))
            stream = session.link()
            # Until it is attached, its header read.
            time.sleep(ATTACHED)
            wire.reset(stream)
            time.sleep(ATTACHED)
            session.tell("RETR unsent", 150)
            session.expect(426)
            same(session.fetch("RETR unsent"), body(length))


def resets_uploads(abuse):
    """What a reset leaves of an upload is a part from its front."""
    with abuse.session() as session:
        for turn in range(10):
            data = body(500000, turn)
            stream = session.link()
            session.tell("STOR broken", 150)
            stream.sendall(data)
            wire.reset(stream)
            session.expect(426)
            got = session.fetch("RETR broken")
            same(got, data[: len(got)], "the part of an upload")


def resets_sessions(abuse):
    """Control connections that are reset while a transfer runs."""
    abuse.stored("large", body(LARGE))
    for _ in range(20):
        session = abuse.session()
        stream = session.link()
        session.tell("RETR large", 150)
        stream.recv(100000)
        session.lines.close()
        wire.reset(session.control)
        wire.reset(stream)


def beside_a_stranger(abuse, take):
    """A session of another address asks for ports, and a stranger comes first to each and is turned away."""
    other = abuse.source.rsplit(".", 1)[0] + ".77"
    with abuse.session(other) as session:
        session.store("STOR its-own", body(100000))
        for _ in range(10):
            port = session.passive()
            with abuse.door.dial(abuse.source, port) as stranger:
                holds(ended(stranger), "a stranger is not turned away")
            take(session, port)


def connects_to_the_ports_of_others(abuse):
    """The session's own connection finds it all the same."""

    def take(session, port):
        with session.door.dial(session.source, port) as stream:
            session.tell("RETR its-own", 150)
            same(wire.drained(stream), body(100000), "what its own connection gets")
            session.expect(226)

    beside_a_stranger(abuse, take)


def connects_to_the_listeners_of_others(abuse):
    """A stranger who comes first to the listener of a session gets nothing; the session asks for another."""

    def take(session, _):
        session.tell("RETR its-own", 425)
        same(session.fetch("RETR its-own"), body(100000), "what its next connection gets")

    beside_a_stranger(abuse, take)


def knocks_at_all_ports(abuse):
    """Connections to every port that the address holds no hold of."""
    ports = range(abuse.server.first, abuse.server.last + 1)
    for port in ports:
        with abuse.door.dial(abuse.source, port) as stream:
            stream.sendall(b"GET / HTTP/1.0\r\n\r\n")
            holds(ended(stream), f"port {port} keeps who has no session")


def quits_behind_a_download(abuse):
    """QUIT in one piece with a RETR: the whole file, or nothing of it where its connection had not come yet."""
    data = body(2000000)
    abuse.stored("parting", data)
    for _ in range(20):
        with abuse.session() as session:
            stream = session.link()
            session.send(b"RETR parting\r\nQUIT\r\n")
            session.expect(150)
            got = wire.drained(stream)
            holds(got in (data, b""), f"{len(got)} of {len(data)} bytes")
            codes = [session.reply()[0] for _ in range(3)]
            holds(221 in codes and codes[-1] == 0, f"replies {codes}")


def sends_garbage(abuse):
    """Bytes of every kind: refused line by line, or the end of the session, and of no other."""
    draw = random.Random(7)
    pieces = [draw.randbytes(2000) for _ in range(20)]
    pieces += [b"\0" * 100000, b"x" * 100000, b"\r\n" * 5000, b"USER \xc3\x28\r\n", b"RETR " + b"/" * 8000 + b"\n"]
    pieces += [b"\xff\xf4\xff\xf2ABOR\r\n", b"GET / HTTP/1.1\r\nHost: x\r\n\r\n"]
    pieces += [b"\x16\x03\x01\x02\x00\x01\x00\x01\xfc\x03\x03" + draw.randbytes(500)]
    pieces += [b"PASS\r\nPASS x\r\nPASV\r\nREST -1\r\nREST 99999999999999999999999\r\nPORT 1,2,3\r\nSTOR\r\n"]
    for piece in pieces:
        with wire.Session(abuse.door, abuse.source) as session:
            try:
                session.send(piece)
                session.control.shutdown(socket.SHUT_WR)
            except OSError:
                pass
            holds(ended(session.control), f"a session goes on behind its end and {piece[:20]}")


LINES = "PASV", "ABOR", "REST 5", "RETR kept", "RETR none", "NLST", "CWD /", "TYPE I", "USER x", "PASS x"


def changes_its_mind(abuse):
    """Lines in any order, drawn: every line has a reply, and at the end all is as it was."""
    draw = random.Random(11)
    with abuse.session() as session:
        session.store("STOR kept", body(10000))
        for _ in range(300):
            session.ask(draw.choice(LINES))
        session.ask("ABOR")
    with abuse.session() as session:
        same(session.fetch("RETR kept"), body(10000))


# What a header of version 2 begins with.
SIGNATURE = b"\r\n\r\n\0\r\nQUIT\n"


def headers():
    """What is no header of a client that a proxy passes on; the last is longer than any."""
    yield from (b"", b"\n", b"\r\n", b"GET / HTTP/1.1\r\n", b"PROXY\r\n", b"PROXY UNKNOWN\r\n", b"PROXY TCP4 1.2.3.4\r\n")
    yield from (b"PROXY TCP4 1.2.3.4 1.2.3.4 1 99999\r\n", b"PROXY TCP4 01.2.3.4 1.2.3.4 1 2\r\n")
    yield from (b"PROXY TCP4 1.2.3.4 1.2.3.4 1 2\n", b"PROXY TCP6 ::1 ::1 1 2\r\n")
    # Of version 2: those of health checks, without addresses and with some; other families; a field too long; a cut one.
    for rest in (b"\x20\0\0\0", b"\x20\x11\0\x0c" + b"x" * 12, b"\x21\0\0\0", b"\x21\x12\0\x0c" + b"x" * 12):
        yield SIGNATURE + rest
    yield from (SIGNATURE + b"\x21\x21\0\x24" + b"x" * 36, SIGNATURE + b"\x21\x11\0\x0e" + b"x" * 14)
    yield from (SIGNATURE + b"\x31\x11\0\x0c" + b"x" * 12, SIGNATURE + b"\x21\x11\xff\xff" + b"x" * 300, b"x" * 300)


def sends_no_header(abuse):
    """Connections whose header names no client are closed, without a word."""
    door = wire.Door(abuse.door.ip, abuse.door.port)
    for line in list(headers()) * 5:
        with door.dial() as stream:
            try:
                stream.sendall(line)
                stream.shutdown(socket.SHUT_WR)
            except OSError:
                pass
            holds(ended(stream), f"a connection goes on behind {line[:40]}")


def is_silent_before_its_header(abuse):
    """Connections that say nothing are closed behind a wait, and stop nobody meanwhile."""
    door = wire.Door(abuse.door.ip, abuse.door.port)
    streams = [door.dial() for _ in range(50)]
    try:
        for stream in streams:
            stream.settimeout(LIMIT + SLACK)
            holds(ended(stream), "a connection without a header goes on")
    finally:
        for stream in streams:
            stream.close()


def comes_by_another_proxy(abuse):
    """A data connection that came by another proxy than its session is turned away."""
    called, control = abuse.door.proxied
    with abuse.session() as session:
        port = session.passive()
        stream = wire.connect((abuse.door.ip, abuse.door.port), "127.0.0.88")
        with stream:
            stream.sendall(f"PROXY TCP4 {abuse.source} {called} 4000 {port}\r\n".encode())
            holds(ended(stream), "it is not turned away")
        session.store("STOR by-its-own", b"proxy")


# Those that take half a minute and more, and those that do not; in which modes.
EVERY = "legacy", "pooled", "proxy"
SHARED = "pooled", "proxy"
SLOW = {
    never_reads_data: EVERY,
    never_reads_replies: EVERY,
    a_byte_a_second: EVERY,
    never_connects_to_its_listener: ("legacy",),
    is_silent_before_its_header: ("proxy",),
}
QUICK = {
    never_connects: SHARED,
    opens_many: EVERY,
    asks_for_ports_in_a_loop: ("legacy",),
    sends_urgent_bytes: EVERY,
    stores_one_name_twice: EVERY,
    resets_downloads: EVERY,
    resets_its_data_connection_early: EVERY,
    resets_uploads: EVERY,
    resets_sessions: EVERY,
    connects_to_the_ports_of_others: SHARED,
    connects_to_the_listeners_of_others: ("legacy",),
    knocks_at_all_ports: SHARED,
    quits_behind_a_download: EVERY,
    sends_garbage: EVERY,
    changes_its_mind: EVERY,
    sends_no_header: ("proxy",),
    comes_by_another_proxy: ("proxy",),
}
