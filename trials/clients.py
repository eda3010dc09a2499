#!/usr/bin/env python3
"""Has the FTP clients of this machine talk to the server, in each of its modes. trials/run calls it.

Usage: trials/clients.py [--front] [--only WORD] [COMMAND ..]

COMMAND starts the server, with the words ADDRESS MODE LO HI behind it. Without one it is FTP_SERVE of the environment, or
else crates/ftp_serve/out/ftp_serve, which `rt ci` builds. It prints a line a case: `pass`, `FAIL` with the reason, or
`skip` where a program is not installed; and at last the sum. The status is 1 where a case failed. With --only those cases
are run whose names have the word. With --front it is a minute of them: how the program starts, and in pooled mode curl and ftplib.

What a client stores is read back by plain sockets, and what it fetches was stored by them; both are compared byte for byte.
"""

import shutil
import sys

sys.dont_write_bytecode = True
import aborts  # noqa: E402
import balanced  # noqa: E402
import health  # noqa: E402
import interrupts  # noqa: E402
import operations  # noqa: E402
import sessions  # noqa: E402
import starting  # noqa: E402
from cases import Place, begin  # noqa: E402
from programs import HEADER_1, HEADER_2, Proxy, Server  # noqa: E402


def run_direct(tally, words, mode, clients=operations.CLIENTS):
    """In proxy mode plain sockets alone, which send the headers themselves."""
    with Server(words, mode) as server, Place(server.door()) as place:
        sessions.run(tally, mode, place)
        aborts.run(tally, mode, place)
        if mode != "proxy":
            operations.run(tally, mode, place, clients=clients)
            interrupts.run(tally, mode, place)
        tally.runs_on(mode, server)


# What the cases behind HAProxy are called, by the header that it sends.
VERSIONS = {HEADER_2: "", HEADER_1: ", version 1"}


def run_proxied(tally, name, words, header):
    """A server behind HAProxy."""
    with Server(words, "proxy") as server, Proxy([server], header) as proxy, Place(proxy.door()) as place:
        sessions.run(tally, name, place)
        aborts.run(tally, name, place, aborts.RELAYED)
        operations.run(tally, name, place)
        interrupts.run(tally, name, place, interrupts.RELAYED)
        tally.runs_on(name, server)


def main():
    words, tally = begin("the FTP clients of this machine against the server")
    tally.group("the program", starting.run, words)
    if tally.is_front:
        tally.group("pooled", run_direct, words, "pooled", ["curl"])
        return tally.end()
    for mode in "legacy", "pooled", "proxy":
        tally.group(mode, run_direct, words, mode)
    for mode in "pooled", "proxy":
        tally.group(f"{mode} with one port", sessions.run_addresses, words, mode)
    if shutil.which("haproxy"):
        for header, version in VERSIONS.items():
            tally.group(f"haproxy{version}", run_proxied, f"haproxy{version}", words, header)
            tally.group(f"two servers{version}", balanced.run, f"two servers{version}", words, header)
        tally.group("health checks", health.run, words)
    else:
        tally.skip("haproxy", "it is not installed")
    return tally.end()


if __name__ == "__main__":
    sys.exit(main())
