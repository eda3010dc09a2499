"""Programs that the scripts start, each in a group of its own, and stop."""

import os
import random
import resource
import shlex
import signal
import socket
import subprocess
import sys
import tempfile
import time
from pathlib import Path

import wire

TOP = Path(__file__).resolve().parent.parent
BUILT = TOP / "crates" / "{name}" / "out" / "{name}"
HAPROXY = TOP / "examples" / "haproxy.cfg"
# What HAProxy sends ahead of connections: a header of version 2, or of version 1.
HEADER_2, HEADER_1 = "send-proxy-v2", "send-proxy"
HOST = "127.0.0.1"
# Ports that the system gives to nobody by itself.
LOWEST, HIGHEST = 10000, 32000
OPENING = 120


def command(words, name="ftp_serve"):
    """The server's command: these words, else those of FTP_SERVE, or of FTP_GATEWAY, else the program that `rt ci` builds."""
    return list(words) or shlex.split(os.environ.get(name.upper(), "")) or [str(BUILT).format(name=name)]


def is_free(port):
    with socket.socket() as probe:
        try:
            probe.bind((HOST, port))
        except OSError:
            return False
    return True


def free_ports(count):
    """The first of so many ports in a row to which nothing is bound."""
    for _ in range(1000):
        first = random.randrange(LOWEST, HIGHEST - count)
        if all(is_free(port) for port in range(first, first + count)):
            return first
    raise OSError("no ports are free")


def prepare():
    """Raises the limit of descriptors of this process and of what it starts, and lets it stop them where it is ended."""
    _, most = resource.getrlimit(resource.RLIMIT_NOFILE)
    resource.setrlimit(resource.RLIMIT_NOFILE, (most, most))
    signal.signal(signal.SIGTERM, lambda *_: sys.exit(128 + signal.SIGTERM))


class Program:
    """A program that runs, with what it says in a file."""

    def __init__(self, words, descriptors=None, **environment):
        self.said = tempfile.TemporaryFile()
        self.process = subprocess.Popen(
            words,
            stdin=subprocess.DEVNULL,
            stdout=self.said,
            stderr=subprocess.STDOUT,
            env={**os.environ, **environment},
            start_new_session=True,
            preexec_fn=descriptors and (lambda: resource.setrlimit(resource.RLIMIT_NOFILE, (descriptors, descriptors))),
        )

    def __enter__(self):
        return self

    def __exit__(self, *_):
        self.stop()

    def text(self):
        """What it has said. The place in the file is that at which it goes on, and is left alone."""
        file = self.said.fileno()
        return os.pread(file, os.fstat(file).st_size, 0).decode("latin-1")

    def is_running(self):
        return self.process.poll() is None

    def wait_for(self, port, at=HOST):
        """Waits until it listens at a port."""
        end = time.monotonic() + OPENING
        while time.monotonic() < end and self.is_running():
            try:
                socket.create_connection((at, port), timeout=1).close()
                return self
            except OSError:
                time.sleep(0.05)
        self.stop()
        raise OSError(f"{self.process.args[0]} does not listen: {self.text()}")

    def stop(self):
        """Ends its group."""
        for sign in signal.SIGTERM, signal.SIGKILL:
            try:
                os.killpg(self.process.pid, sign)
                self.process.wait(5)
                return
            except ProcessLookupError:
                self.process.wait()
                return
            except subprocess.TimeoutExpired:
                pass


class Server(Program):
    """The server in one of its modes, with a number of passive ports, where it is asked for by loopback.

    In the mode `proxy` its clients call a proxy, at the `control` port there and at the same passive ports. Where `every` is
    given, so many entries are kept behind a checkpoint.
    """

    def __init__(self, words, mode, ports=100, descriptors=None, called=None, at=HOST, port=None, every=None):
        self.mode, self.every = mode, every
        self.at, self.port = at.strip("[]"), port or free_ports(1)
        self.control, self.first, self.last = called or self.range(ports)
        super().__init__(self.words(words, at), descriptors)
        self.wait_for(self.port, self.at)

    def words(self, command, at):
        """The command line of the program."""
        word = f"proxy:{self.control}" if self.mode == "proxy" else self.mode
        kept = [] if self.every is None else [str(self.every)]
        return [*command, f"{at}:{self.port}", word, str(self.first), str(self.last), *kept]

    def range(self, ports):
        first = free_ports(ports + 1)
        return first, first + 1, first + ports

    def door(self):
        return wire.Door(HOST, self.port, (HOST, self.control) if self.mode == "proxy" else None)


class Proxy(Program):
    """HAProxy as examples/haproxy.cfg has it, in front of two servers, or of one in the place of both.

    `header` is what it sends ahead of connections, in the words of its setting; `more` are files of further settings.
    """

    def __init__(self, servers, header=HEADER_2, more=()):
        first = servers[0]
        self.port = first.control
        at = [f"{HOST}:{server.port}" for server in (servers * 2)[:2]]
        super().__init__(
            ["haproxy", "-db", *(word for file in [HAPROXY, *more] for word in ("-f", str(file)))],
            FTP_ADDRESS=HOST,
            FTP_HEADER=header,
            FTP_CONTROL=str(first.control),
            FTP_PASSIVE=f"{first.first}-{first.last}",
            FTP_SERVER_1=at[0],
            FTP_SERVER_2=at[1],
        )
        self.wait_for(self.port)

    def door(self):
        return wire.Door(HOST, self.port)
