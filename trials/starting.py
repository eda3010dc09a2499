"""The cases on how the server starts or does not, and on what it takes of descriptors, which trials/clients.py runs."""

import os
import socket
import subprocess
import time

import wire
from cases import Skipped, body, holds, same
from programs import HOST, OPENING, Server, free_ports

USAGE = 64
# What is no command: the port comes in the place of {port}.
NO_COMMANDS = [
    "",
    "{at}",
    "{at} pooled 50000",
    "{at} pooled 50000 50099 x",
    "{at} pooled 50000 50099 0",
    "{at} pooled 50000 50099 010",
    "{at} pooled 50000 50099 +1",
    "{at} pooled 50000 50099 18446744073709551616",
    "{at} pooled 50000 50099 1 1",
    "{at} shared 50000 50099",
    "{at} POOLED 50000 50099",
    "{at} proxy 50000 50099",
    "{at} proxy: 50000 50099",
    "{at} proxy:65536 50000 50099",
    "{at} proxy:021 50000 50099",
    "{at} pooled 050000 50099",
    "{at} pooled 50000 65536",
    "{at} pooled -1 50099",
    "{at} pooled +1 50099",
    "--help --version",
]
# Why it does not serve, in the order in which that is looked at.
REFUSED = [
    ("nowhere pooled 50099 50000", "empty passive port range"),
    ("{at} legacy 2 1", "empty passive port range"),
    ("{at} pooled 0 9", "passive port 0"),
    ("{at} proxy:2121 0 9", "passive port 0"),
    ("localhost:{port} legacy 50000 50099", "could not parse address"),
    ("127.0.0.1 legacy 50000 50099", "could not parse address"),
    ("127.0.0.1:65536 legacy 50000 50099", "could not parse address"),
    ("127.0.0.1:021 legacy 50000 50099", "could not parse address"),
    ("::1:{port} legacy 50000 50099", "could not parse address"),
    ("[::1]:{port} pooled 50000 50099", "IPv6 outside legacy mode"),
    ("[::1]:{port} proxy:2121 50000 50099", "IPv6 outside legacy mode"),
]


def ended(command, line, **more):
    """Runs the program, which is to end: its status and what it writes to standard output."""
    port = free_ports(1)
    words = line.format(port=port, at=f"{HOST}:{port}", **more).split()
    done = subprocess.run([*command, *words], capture_output=True, stdin=subprocess.DEVNULL, timeout=OPENING, check=False)
    return done.returncode, done.stdout.decode("latin-1")


def refuses_what_is_no_command(command):
    for line in NO_COMMANDS:
        holds(ended(command, line) == (USAGE, ""), f"{line!r} is answered {ended(command, line)}")


def says_why_it_does_not_serve(command):
    for line, why in REFUSED:
        same(str(ended(command, line)), str((1, f"server error: {why}\n")), f"the answers to {line!r}")


def tells_of_itself(command):
    status, text = ended(command, "--help")
    holds(status == 0 and "ADDRESS MODE LO HI" in text, f"--help is answered {status} {text}")
    status, text = ended(command, "--version")
    holds(status == 0 and text.startswith("ftp_serve ") and text.count("\n") == 1, f"--version is answered {status} {text}")


def ends_where_a_port_is_taken(command):
    """The control port in every mode, and in pooled mode a single passive port."""
    first = free_ports(3)
    with socket.create_server((HOST, first + 1)):
        for mode in "legacy", "pooled", "proxy:2121":
            answer = ended(command, "{host}:{taken} {mode} 50000 50000", host=HOST, taken=first + 1, mode=mode)
            same(str(answer), str((1, "server error: io error\n")))
        answer = ended(command, "{at} pooled {first} {last}", first=first, last=first + 2)
        same(str(answer), str((1, "server error: io error\n")))


def shows_no_port_at_ipv6(command, kind=Server):
    """In legacy mode a session comes by IPv6, and has no address of version 4 to show."""
    try:
        with socket.create_server(("::1", 0), family=socket.AF_INET6) as probe:
            port = probe.getsockname()[1]
    except OSError as why:
        raise Skipped(f"no IPv6 here: {why}") from why
    with kind(command, "legacy", at="[::1]", port=port):
        with wire.Session(wire.Door("::1", port), "::1").login() as session:
            same(session.tell("PASV", 425), "No data connection established")
            session.tell("NOOP", 200)
            session.quit()


def keeps_a_checkpoint(command, mode):
    """Sessions go on over many checkpoints: what one stores the other finds, and replies, ports and transfers are as ever."""
    for every in 1, 7, 2**64 - 1:
        with Server(command, mode, every=every) as server:
            one, two = (wire.Session(server.door(), f"127.0.0.{10 + i}").login(f"user-{i}") for i in range(2))
            for turn in range(10):
                stored = body(1000 * turn + 1, turn)
                one.store(f"STOR {turn}", stored)
                link = one.link()
                one.tell("NOOP", 200)
                same(two.fetch(f"RETR {turn}"), stored, f"what the other fetches in turn {turn} with {every}")
                one.tell(f"RETR {turn}", 150)
                same(wire.drained(link), stored, f"what is fetched in turn {turn} with {every}")
                one.expect(226)
                two.tell("RETR none", 425)
            same(str(len(two.fetch("NLST").splitlines())), "10", f"the files with {every}")
            one.quit()
            two.quit()


def descriptors(server, due=None):
    """How many the server has; waits until there are as many as are due, where that is said."""
    end = time.monotonic() + 20
    while True:
        found = len(os.listdir(f"/proc/{server.process.pid}/fd"))
        if due is None or found == due or time.monotonic() > end:
            return found
        time.sleep(0.05)


def takes_three_descriptors_a_session(command, mode):
    """Three a session, at most three a transfer, in pooled mode one a passive port; and all come back."""
    count, ports = 10, 50
    with Server(command, mode, ports=ports) as server:
        first = descriptors(server, ports + 7 if mode == "pooled" else 7)
        sessions = [wire.Session(server.door(), f"127.0.0.{10 + i}").login() for i in range(count)]
        with_sessions = descriptors(server, first + 3 * count)
        if with_sessions == first:
            raise Skipped("it is another process that serves")
        same(str(first), str(ports + 7 if mode == "pooled" else 7), "the descriptors at the start")
        same(str(with_sessions - first), str(3 * count), "those of the sessions")
        sessions[0].store("STOR large", body(15 << 20))
        streams = [session.link() for session in sessions]
        for session in sessions:
            session.tell("RETR large", 150)
        at_work = descriptors(server, with_sessions + 3 * count) - with_sessions
        holds(count <= at_work <= 3 * count, f"{at_work} descriptors of {count} transfers")
        for stream in streams:
            stream.close()
        same(str(descriptors(server, with_sessions)), str(with_sessions), "those behind the transfers")
        for session in sessions:
            session.close()
        same(str(descriptors(server, first)), str(first), "those behind the sessions")


CASES = [
    refuses_what_is_no_command,
    says_why_it_does_not_serve,
    tells_of_itself,
    ends_where_a_port_is_taken,
    shows_no_port_at_ipv6,
]


def run(tally, command):
    for case in CASES:
        tally.case(f"the program {case.__name__.replace('_', ' ')}", case, command)
    for mode in "legacy", "pooled", "proxy":
        name = f"{mode} the program takes three descriptors a session"
        tally.case(name, takes_three_descriptors_a_session, command, mode)
        tally.case(f"{mode} the program keeps a checkpoint", keeps_a_checkpoint, command, mode)
