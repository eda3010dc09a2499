"""The servers that bench/serve.py measures: this one, those that are installed, and a plain copy by a socket."""

import os
import pwd
import shutil
import signal
import socket
import subprocess
import sys
from pathlib import Path

import wire
from programs import HOST, Program, Server, free_ports

LENGTH = 15 * 1024 * 1024
PORTS = 400
# The password `x` in the cheapest form that pure-ftpd takes: in its own a login takes seconds.
HASH = "$1$ftp$SwrFMKxBvRSRm.bpza9YJ1"

VSFTPD = """\
listen=YES
listen_address={host}
listen_port={port}
pasv_min_port={first}
pasv_max_port={last}
background=NO
run_as_launching_user=YES
one_process_model=YES
seccomp_sandbox=NO
isolate=NO
isolate_network=NO
anonymous_enable=YES
anon_root={folder}
write_enable=YES
anon_upload_enable=YES
anon_other_write_enable=YES
anon_umask=022
connect_from_port_20=NO
xferlog_enable=NO
max_clients=0
max_per_ip=0
"""

PYFTPDLIB = """\
import logging
from pyftpdlib.authorizers import DummyAuthorizer
from pyftpdlib.handlers import FTPHandler
from pyftpdlib.servers import FTPServer
logging.basicConfig(level=logging.ERROR)
FTPHandler.authorizer = DummyAuthorizer()
FTPHandler.authorizer.add_user("ftp", "x", {folder!r}, perm="elradfmw")
FTPHandler.passive_ports = range({first}, {last} + 1)
server = FTPServer(({host!r}, {port}), FTPHandler, backlog=4096)
server.max_cons, server.max_cons_per_ip = 4096, 0
server.serve_forever()
"""


class Peer(Program):
    """Another server, whose files are in a folder in memory; everybody is `ftp` with the password `x`."""

    def __init__(self, folder):
        self.port = free_ports(PORTS + 1)
        self.first, self.last = self.port + 1, self.port + PORTS
        self.place = Path(folder)
        self.words = {"host": HOST, "port": self.port, "first": self.first, "last": self.last, "folder": str(folder)}
        super().__init__(self.command())
        self.wait_for(self.port)

    def door(self):
        return wire.Door(HOST, self.port)


class Vsftpd(Peer):
    """One process a connection and no sandbox, which is how it is fastest."""

    name = "vsftpd"

    @staticmethod
    def is_here():
        return shutil.which("vsftpd") is not None

    def command(self):
        settings = self.place.with_name(f"{self.place.name}.vsftpd")
        settings.write_text(VSFTPD.format(**self.words))
        return ["vsftpd", str(settings)]


class PureFtpd(Peer):
    """It takes root to start, and one user of a list of its own."""

    name = "pure-ftpd"

    @staticmethod
    def is_here():
        return shutil.which("pure-ftpd") is not None and shutil.which("pure-pw") is not None and os.geteuid() == 0

    def command(self):
        listed, made = (self.place.with_name(f"{self.place.name}.{end}") for end in ("passwd", "pdb"))
        nobody = pwd.getpwnam("nobody")
        os.chown(self.place, nobody.pw_uid, nobody.pw_gid)
        listed.write_text(f"ftp:{HASH}:{nobody.pw_uid}:{nobody.pw_gid}::{self.place}/./::::::::::::\n")
        subprocess.run(["pure-pw", "mkdb", str(made), "-f", str(listed)], check=True)
        at = f"{HOST},{self.port}"
        pid = self.place.with_name(f"{self.place.name}.pid")
        many = ["-c", "1100", "-C", "1100", "-p", f"{self.first}:{self.last}"]
        return ["pure-ftpd", "-4", "-A", "-E", "-H", "-f", "none", "-g", str(pid), "-S", at, "-l", f"puredb:{made}", *many]


class Pyftpdlib(Peer):
    """Python's own server library, which sends files by the system's call for that."""

    name = "pyftpdlib"

    @staticmethod
    def python():
        for python in sys.executable, "/usr/bin/python3":
            if subprocess.run([python, "-c", "import pyftpdlib"], capture_output=True, check=False).returncode == 0:
                return python
        return None

    @staticmethod
    def is_here():
        return Pyftpdlib.python() is not None

    def command(self):
        return [self.python(), "-c", PYFTPDLIB.format(**self.words)]


class Ours(Server):
    """The server of this repository."""

    name = "ftp_serve"

    def __init__(self, words, mode="pooled"):
        super().__init__(words, mode)


def send_all(stream, block):
    """The bytes of a file from one block that stays in the processor's caches."""
    left = LENGTH
    while left:
        left -= stream.send(block[: min(left, len(block))])


def serve_copy(stream):
    """One connection of the plain copy: it is sent a file, or sends one and is told its end."""
    block = memoryview(bytearray(wire.PIECE))
    with stream:
        if stream.recv(1) == b"R":
            send_all(stream, block)
            return
        while stream.recv_into(block):
            pass
        stream.sendall(b".")


class Raw:
    """A plain copy by a socket on loopback, a process for each connection."""

    name = "raw"

    def __init__(self):
        self.door = socket.create_server((HOST, 0), backlog=64)
        self.port = self.door.getsockname()[1]
        self.process = os.fork()
        if self.process == 0:
            self.serve()

    def serve(self):
        signal.signal(signal.SIGCHLD, signal.SIG_IGN)
        signal.signal(signal.SIGTERM, signal.SIG_DFL)
        while True:
            stream, _ = self.door.accept()
            if os.fork() == 0:
                try:
                    serve_copy(stream)
                finally:
                    os._exit(0)
            stream.close()

    def stop(self):
        os.kill(self.process, signal.SIGTERM)
        os.waitpid(self.process, 0)
        self.door.close()

    def dial(self):
        return wire.connect((HOST, self.port), HOST)


PEERS = Vsftpd, PureFtpd, Pyftpdlib
