"""A client of plain sockets, for what clients with manners do not do: any line, at any time, from any loopback address."""

import socket
import time

PATIENCE = 30
PIECE = 262144
# How long an upload of nothing stays open: HAProxy resets what its client closes before it is passed on.
PASSED_ON = 0.05


class Unexpected(Exception):
    """A reply, or bytes, other than what is due."""


class Door:
    """Where a server is called.

    Where headers are to be sent ahead of connections, as a proxy sends them, `proxied` is the address and the port that
    clients call at that proxy.
    """

    def __init__(self, ip, port, proxied=None):
        self.ip, self.port, self.proxied = ip, port, proxied

    def dial(self, source="127.0.0.1", port=None):
        """A connection of the client with this address to a port, or to that of control connections."""
        if self.proxied is None:
            return connect((self.ip, self.port if port is None else port), source)
        called, control = self.proxied
        stream = connect((self.ip, self.port), "127.0.0.1")
        own = stream.getsockname()[1]
        stream.sendall(f"PROXY TCP4 {source} {called} {own} {control if port is None else port}\r\n".encode())
        return stream


def connect(to, source):
    stream = socket.create_connection(to, timeout=PATIENCE, source_address=(source, 0))
    stream.setsockopt(socket.IPPROTO_TCP, socket.TCP_NODELAY, 1)
    return stream


def drained(stream):
    """All that comes up to the end of a connection, which is closed then."""
    pieces = []
    with stream:
        while piece := stream.recv(PIECE):
            pieces.append(piece)
    return b"".join(pieces)


def reset(stream):
    """Ends a connection by a reset in place of an orderly end."""
    stream.setsockopt(socket.SOL_SOCKET, socket.SO_LINGER, b"\1\0\0\0\0\0\0\0")
    stream.close()


class Session:
    """A control connection, greeted."""

    def __init__(self, door, source="127.0.0.1"):
        self.door, self.source = door, source
        self.control = door.dial(source)
        self.lines = self.control.makefile("rb")
        self.greeting = self.expect(220)

    def __enter__(self):
        return self

    def __exit__(self, *_):
        self.close()

    def send(self, line):
        self.control.sendall(line if isinstance(line, bytes) else line.encode() + b"\r\n")

    def reply(self):
        """The next reply: its code and its text. Where the connection has ended the code is 0."""
        line = self.lines.readline()
        while line[3:4] == b"-":
            code, line = line[:3], self.lines.readline()
            while not line.startswith(code + b" "):
                line = self.lines.readline()
        return (int(line[:3]), line[4:].decode("latin-1").rstrip("\r\n")) if line else (0, "")

    def expect(self, *codes):
        code, text = self.reply()
        if code not in codes:
            raise Unexpected(f"{' or '.join(map(str, codes))} is due, and came {code} {text}")
        return text

    def ask(self, line):
        self.send(line)
        return self.reply()

    def tell(self, line, *codes):
        """Sends a line, whose reply has one of these codes."""
        self.send(line)
        return self.expect(*codes)

    def login(self, name="ann", password="secret"):
        self.tell(f"USER {name}", 331)
        self.tell(f"PASS {password}", 230)
        return self

    def passive(self):
        """The port of a PASV."""
        shown = self.tell("PASV", 227)
        numbers = shown[shown.index("(") + 1 : shown.index(")")].split(",")
        return int(numbers[4]) * 256 + int(numbers[5])

    def link(self):
        """A data connection to the port of a PASV."""
        return self.door.dial(self.source, self.passive())

    def fetch(self, line, offset=0):
        """The bytes of a RETR or of a listing, from an offset on."""
        stream = self.link()
        if offset:
            self.tell(f"REST {offset}", 350)
        self.tell(line, 125, 150)
        got = drained(stream)
        self.expect(226)
        return got

    def store(self, line, data, offset=0):
        """Uploads, by STOR, APPE or STOU."""
        with self.link() as stream:
            if offset:
                self.tell(f"REST {offset}", 350)
            shown = self.tell(line, 125, 150)
            stream.sendall(data)
            if not data:
                time.sleep(PASSED_ON)
        self.expect(226)
        return shown

    def quit(self):
        self.tell("QUIT", 221)
        self.close()

    def close(self):
        self.lines.close()
        self.control.close()
