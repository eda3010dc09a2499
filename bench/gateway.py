#!/usr/bin/env python3
"""Measures the gateway beside vsftpd and pure-ftpd, all over the same directory, all in one run.

Usage: bench/gateway.py [--rounds N] [--cost N] [--quick] [--only WORD] [COMMAND ..]

COMMAND is as for trials/gateway.py. The others are measured where they are on the path; bench/serve.py says how to have both.
It takes root: vsftpd checks passwords by PAM, so it is started where /etc/passwd and /etc/shadow are files of its own, which
nobody else sees. All have one user, whose password costs all the same: the gateway's rounds are those of --cost, 10,000 without
it, and those of the crypt of the others are found by the time that the gateway takes.

In each round all are measured one behind the other, in an order that turns, over files that the page cache has. It prints the
medians, and the medians of the ratios of the rounds; the status is 1 where a figure is not what it should be. With --quick the
amounts are small, to try the script.
"""

import argparse
import contextlib
import itertools
import os
import pwd
import shutil
import statistics
import subprocess
import sys
import tempfile
import time
import warnings
from pathlib import Path

sys.dont_write_bytecode = True
sys.path.append(str(Path(__file__).resolve().parent.parent / "trials"))
import peers  # noqa: E402
import wire  # noqa: E402
from gateways import Gateway, hash_of, user_line  # noqa: E402
from measures import together  # noqa: E402
from programs import command, prepare  # noqa: E402

with warnings.catch_warnings():
    warnings.simplefilter("ignore", DeprecationWarning)
    import crypt

USER, PASSWORD = "bench", "x"
LENGTH, KIB, CLIENTS = 64 << 20, 1024, 4
PATIENCE = 600
FAULTS = OSError, wire.Unexpected, EOFError, ValueError, subprocess.SubprocessError

VSFTPD = """\
listen=YES
listen_address={host}
listen_port={port}
pasv_min_port={first}
pasv_max_port={last}
background=NO
anonymous_enable=NO
local_enable=YES
local_root={folder}
chroot_local_user=YES
allow_writeable_chroot=YES
secure_chroot_dir={empty}
write_enable=YES
seccomp_sandbox=NO
isolate=NO
isolate_network=NO
connect_from_port_20=NO
xferlog_enable=NO
max_clients=0
max_per_ip=0
"""
# Accounts of its own for the program that follows.
OWN_ACCOUNTS = 'mount --bind "$1" /etc/passwd && mount --bind "$2" /etc/shadow && shift 2 && exec "$@"'


class Amounts:
    def __init__(self, quick):
        self.transfers, self.downloads, self.sessions, self.names = (1, 20, 8, 1000) if quick else (4, 400, 100, 100_000)


class Ours(Gateway):
    """The gateway, whose home is the directory."""

    name = "ftp_gateway"

    def __init__(self, words, folder, cost):
        users = [user_line(USER, folder, secret=hash_of(PASSWORD, cost))]
        super().__init__(words, "pooled", home=folder, users=users)


class Vsftpd(peers.Peer):
    """As a machine has it: a process for each session, which becomes the user, and the user's password in /etc/shadow."""

    name = "vsftpd"

    def __init__(self, folder, hashed):
        self.hashed = hashed
        super().__init__(folder)

    def command(self):
        room = self.place.parent
        empty, settings, accounts, shadow = (room / name for name in ("empty", "vsftpd.conf", "passwd", "shadow"))
        empty.mkdir(exist_ok=True)
        empty.chmod(0o555)
        settings.write_text(VSFTPD.format(**self.words, empty=empty))
        nobody = pwd.getpwnam("nobody")
        accounts.write_text(Path("/etc/passwd").read_text() + f"{USER}:x:{nobody.pw_uid}:{nobody.pw_gid}::{self.place}:/bin/sh\n")
        shadow.write_text(Path("/etc/shadow").read_text() + f"{USER}:{self.hashed}:19000:0:99999:7:::\n")
        return ["unshare", "-m", "sh", "-c", OWN_ACCOUNTS, "sh", str(accounts), str(shadow), "vsftpd", str(settings)]


class PureFtpd(peers.PureFtpd):
    """With a list of users of its own, of which one has this hash."""

    def __init__(self, folder, hashed):
        self.hashed = hashed
        super().__init__(folder)

    def command(self):
        words = [*super().command(), "-L", "1000000:10"]
        nobody = pwd.getpwnam("nobody")
        listed, made = (self.place.with_name(f"{self.place.name}.{end}") for end in ("passwd", "pdb"))
        listed.write_text(f"{USER}:{self.hashed}:{nobody.pw_uid}:{nobody.pw_gid}::{self.place}/./::::::::::::\n")
        subprocess.run(["pure-pw", "mkdb", str(made), "-f", str(listed)], check=True)
        return words


def session_of(server):
    session = wire.Session(server.door())
    session.control.settimeout(PATIENCE)
    session.login(USER, PASSWORD)
    session.tell("TYPE I", 200)
    return session


def taken(session, line):
    """How many bytes a download has."""
    length, block = 0, bytearray(wire.PIECE)
    with session.link() as stream:
        stream.settimeout(PATIENCE)
        session.tell(line, 125, 150)
        while got := stream.recv_into(block):
            length += got
    session.expect(226)
    return length


def rate(server, amounts, move):
    """MB a second: the median of some transfers one behind the other."""
    speeds = []
    with session_of(server) as session:
        for _ in range(amounts.transfers):
            begun = time.perf_counter()
            move(session)
            speeds.append(LENGTH / 1e6 / (time.perf_counter() - begun))
    return statistics.median(speeds)


def fetch_large(session):
    length = taken(session, "RETR large")
    if length != LENGTH:
        raise wire.Unexpected(f"{length} bytes of {LENGTH}")


def retr(server, amounts):
    return rate(server, amounts, fetch_large)


def stor(server, amounts, names=("stored",)):
    """Of uploads to these names in turn."""
    data = bytes(range(256)) * (LENGTH // 256)
    turns = itertools.cycle(names)
    made = rate(server, amounts, lambda session: session.store(f"STOR {next(turns)}", data))
    for name in names:
        stored = server.directory / name
        if stored.read_bytes() != data:
            raise wire.Unexpected("other bytes are stored")
        stored.unlink()
    return made


def stor_anew(server, amounts):
    return stor(server, amounts, [f"stored-{number}" for number in range(amounts.transfers)])


def small(server, amounts):
    with session_of(server) as session:
        begun = time.perf_counter()
        for _ in range(amounts.downloads):
            if taken(session, "RETR small") != KIB:
                raise wire.Unexpected("another length")
        return amounts.downloads / (time.perf_counter() - begun)


def whole_sessions(server, count):
    for _ in range(count):
        with session_of(server) as session:
            taken(session, "RETR small")
            session.quit()


def sessions(server, amounts):
    begun = time.perf_counter()
    whole_sessions(server, amounts.sessions)
    return amounts.sessions / (time.perf_counter() - begun)


def sessions_of_many(server, amounts):
    each = amounts.sessions // CLIENTS
    seconds = together(CLIENTS, lambda _: None, lambda _: whole_sessions(server, each))
    return CLIENTS * each / seconds


def listing(server, amounts):
    with session_of(server) as session:
        session.tell("CWD names", 250)
        begun = time.perf_counter()
        length = taken(session, "LIST")
        seconds = time.perf_counter() - begun
    if length < amounts.names * len("name-00000\r\n"):
        raise wire.Unexpected(f"a listing of {length} bytes")
    return seconds


class Figure:
    """What is measured, and its ratios to others that it should reach: at least, or of what less is better, at most."""

    def __init__(self, name, measure, due=(), less=False):
        self.name, self.measure, self.due, self.less = name, measure, dict(due), less

    def is_reached(self, ratio, due):
        return ratio <= due if self.less else ratio >= due


FIGURES = [
    Figure("RETR of 64 MiB, MB/s", retr, [("vsftpd", 0.8), ("pure-ftpd", 1)]),
    Figure("STOR of 64 MiB over a file, MB/s", stor, [("pure-ftpd", 1)]),
    Figure("STOR of 64 MiB under a new name, MB/s", stor_anew, [("pure-ftpd", 1)]),
    Figure("RETR of 1 KiB with its PASV, a second", small, [("pure-ftpd", 1)]),
    Figure("whole sessions, a second", sessions, [("pure-ftpd", 1)]),
    Figure(f"whole sessions of {CLIENTS} clients, a second", sessions_of_many, [("pure-ftpd", 1)]),
    Figure("LIST of all names, seconds", listing, [("vsftpd", 2)], less=True),
]


def lay_out(folder, amounts):
    """A large file, a small one, and a directory of names, which everybody may read and write."""
    (folder / "large").write_bytes(os.urandom(1 << 20) * (LENGTH >> 20))
    (folder / "small").write_bytes(bytes(KIB))
    names = folder / "names"
    names.mkdir()
    for i in range(amounts.names):
        os.close(os.open(names / f"name-{i:05}", os.O_CREAT | os.O_WRONLY, 0o644))
    folder.chmod(0o777)


def login_seconds(server):
    """How long a password takes, of which the rest of a session is taken off."""
    took = []
    for _ in range(9):
        with wire.Session(server.door()) as session:
            session.tell(f"USER {USER}", 331)
            begun = time.perf_counter()
            session.tell(f"PASS {PASSWORD}", 230)
            middle = time.perf_counter()
            session.tell("NOOP", 200)
            took.append(2 * middle - begun - time.perf_counter())
    return statistics.median(took)


def hash_that_takes(seconds):
    """A hash of crypt with so many rounds that it takes as long."""
    tries = 20_000
    begun = time.process_time()
    crypt.crypt(PASSWORD, f"$6$rounds={tries}$saltsalt")
    each = (time.process_time() - begun) / tries
    rounds = max(1000, round(seconds / each))
    return crypt.crypt(PASSWORD, f"$6$rounds={rounds}$saltsalt"), rounds


def start_all(stack, words, folder, cost):
    ours = stack.enter_context(Ours(words, folder, cost))
    seconds = login_seconds(ours)
    hashed, rounds = hash_that_takes(seconds)
    print(f"A password takes {1000 * seconds:.1f} ms: {cost} rounds of PBKDF2, {rounds} of crypt.\n")
    servers = [ours]
    if shutil.which("vsftpd") and os.geteuid() == 0:
        servers.append(stack.enter_context(Vsftpd(folder, hashed)))
    if PureFtpd.is_here():
        servers.append(stack.enter_context(PureFtpd(folder, hashed)))
        folder.chmod(0o777)
    for server in servers:
        server.directory = folder
    return servers


def run_rounds(servers, figures, rounds, amounts):
    """The values of each figure and server, a list of a value for each round; and what could not be measured."""
    values, faults = {}, []
    for turn in range(rounds + 1):
        for figure in figures:
            place = turn % len(servers)
            for server in servers[place:] + servers[:place]:
                try:
                    value = figure.measure(server, amounts)
                except FAULTS as why:
                    faults.append(f"{server.name}, {figure.name}: {type(why).__name__}: {why}")
                    continue
                if turn:  # the first round warms the page cache
                    values.setdefault((figure.name, server.name), []).append(value)
    return values, faults


def shown(value):
    return "" if value is None else f"{value:.0f}" if value >= 100 else f"{value:.2f}"


def print_table(servers, figures, values):
    """The medians, and the ratios to the others; gives those that are not reached."""
    names = [server.name for server in servers]
    print("| | " + " | ".join(names + [f"to {name}" for name in names[1:]]) + " |")
    print("|---" * (2 * len(names)) + "|")
    short = []
    for figure in figures:
        all_values = [values.get((figure.name, name), []) for name in names]
        medians = [statistics.median(of_one) if of_one else None for of_one in all_values]
        ratios = [statistics.median([a / b for a, b in zip(all_values[0], other)] or [0]) for other in all_values[1:]]
        print(f"| {figure.name} | " + " | ".join(map(shown, medians + ratios)) + " |")
        for name, ratio in zip(names[1:], ratios):
            if name in figure.due and not figure.is_reached(ratio, figure.due[name]):
                short.append(f"{figure.name}: {ratio:.2f} of {name}, and {figure.due[name]} is due")
    return short


def main():
    parser = argparse.ArgumentParser(description="the gateway beside other servers")
    parser.add_argument("--rounds", type=int, default=5)
    parser.add_argument("--cost", type=int, default=10_000)
    parser.add_argument("--quick", action="store_true")
    parser.add_argument("--only", default="", metavar="WORD")
    parser.add_argument("command", nargs=argparse.REMAINDER)
    asked = parser.parse_args()
    prepare()
    amounts = Amounts(asked.quick)
    figures = [figure for figure in FIGURES if asked.only in figure.name]
    with tempfile.TemporaryDirectory(prefix="celuviamo-bench-") as room, contextlib.ExitStack() as stack:
        Path(room).chmod(0o755)
        folder = Path(room) / "files"
        folder.mkdir()
        lay_out(folder, amounts)
        servers = start_all(stack, command(asked.command, "ftp_gateway"), folder, asked.cost)
        values, faults = run_rounds(servers, figures, asked.rounds, amounts)
        short = print_table(servers, figures, values)
    print("".join(f"\nnot measured: {line}" for line in faults) + "".join(f"\nnot reached: {line}" for line in short))
    return 1 if short or faults else 0


if __name__ == "__main__":
    sys.exit(main())
