#!/usr/bin/env python3
"""Has the FTP clients of this machine use the gateway over a real directory, in each of its modes.

Usage: trials/gateway.py [--front] [--only WORD] [COMMAND ..]

COMMAND is the program, without its words; without one it is FTP_GATEWAY of the environment, or else
crates/ftp_gateway/out/ftp_gateway, which `rt ci` builds. What clients move is compared byte for byte with the files of the
directory. It prints a line a case, as trials/clients.py does, and the sum; the status is 1 where a case failed. With --only
those cases are run whose names have the word; --front is half a minute of them. Some cases mount a file system or become
another user, and are skipped where they may not.

An unproved build is slow, so some amounts are words of the environment: GATEWAY_NAMES (of a large directory, 100,000),
GATEWAY_MIB (of a large file, 20), GATEWAY_ROUNDS (of a password's hash, 1) and GATEWAY_SLOW_ROUNDS (of one that takes long).
"""

import shutil
import sys

sys.dont_write_bytecode = True
import abuse  # noqa: E402
import aborts  # noqa: E402
import disks  # noqa: E402
import endings  # noqa: E402
import health  # noqa: E402
import homes  # noqa: E402
import interrupts  # noqa: E402
import listings  # noqa: E402
import logged  # noqa: E402
import operations  # noqa: E402
import packaged  # noqa: E402
import places  # noqa: E402
import sessions  # noqa: E402
import sharing  # noqa: E402
import tasks  # noqa: E402
import whole  # noqa: E402
from cases import begin  # noqa: E402
from gateways import Gateway, HomePlace  # noqa: E402
from programs import HEADER_1, HEADER_2, Proxy  # noqa: E402

MODES = "legacy", "pooled", "proxy"
# What half a minute has: who is let in and where to, that what is there stays, and that the gateway hears.
FRONT = [homes.lets_in_by_the_right_password_alone, homes.keeps_a_reader_from_writing, homes.stays_below_the_root, places.follows_no_link]

FRONT_ENDINGS = [
    endings.says_what_is_wrong_with_its_files,
    endings.takes_in_users_anew,
    endings.keeps_a_budget,
    endings.ends_at_once_without_work,
]


def run_clients(tally, name, gateway, door, relayed=False):
    """Each case of trials/clients.py, and the tasks, on the directory of a gateway."""
    with HomePlace(door, gateway.home) as place:
        sessions.run(tally, name, place, more=[])
        aborts.run(tally, name, place, aborts.RELAYED if relayed else aborts.WAYS)
        if door.proxied is None:
            operations.run(tally, name, place, has_words=True)
            interrupts.run(tally, name, place, interrupts.RELAYED if relayed else interrupts.CLIENTS)
            tasks.run(tally, name, place)
    tally.runs_on(name, gateway)


def run_direct(tally, words, mode):
    with Gateway(words, mode) as gateway:
        run_clients(tally, mode, gateway, gateway.door())


def run_proxied(tally, words, name, header):
    with Gateway(words, "proxy") as gateway, Proxy([gateway], header) as proxy:
        run_clients(tally, name, gateway, proxy.door(), relayed=True)


def run_front(tally, words):
    with Gateway(words) as gateway, HomePlace(gateway.door(), gateway.home) as place:
        operations.run(tally, "pooled", place, clients=["curl"], has_words=True)
        tasks.run(tally, "pooled", place, clients=["ftplib"])
    for case in FRONT:
        tally.case(f"pooled the gateway {case.__name__.replace('_', ' ')}", case, words, "pooled")
    tally.case("the gateway is tried with one command", packaged.is_tried_with_one_command, words, "pooled")
    endings.run(tally, words, "pooled", FRONT_ENDINGS)
    return tally.end()


def run_behind_haproxy(tally, words):
    if shutil.which("haproxy"):
        for header, name in (HEADER_2, "haproxy"), (HEADER_1, "haproxy, version 1"):
            tally.group(name, run_proxied, words, name, header)
        tally.group("two gateways", sharing.run, words)
        tally.group("TLS", sharing.run_tls, words)
        tally.group("health checks", health.run, words, Gateway)
    else:
        tally.skip("haproxy", "it is not installed")


def main():
    words, tally = begin("the FTP clients of this machine against the gateway", "ftp_gateway")
    if tally.is_front:
        return run_front(tally, words)
    packaged.run(tally, words)
    endings.run(tally, words, "pooled", endings.STARTS)
    for mode in MODES:
        tally.group(mode, run_direct, words, mode)
        if mode != "legacy":
            tally.group(f"{mode} with one port", sessions.run_addresses, words, mode, Gateway)
        for cases in homes, places, listings, disks, endings, whole, logged:
            tally.group(f"{mode} {cases.__name__}", cases.run, words, mode)
    run_behind_haproxy(tally, words)
    abuse.run(tally, words, Gateway)
    return tally.end()


if __name__ == "__main__":
    sys.exit(main())
