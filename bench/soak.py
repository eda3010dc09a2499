#!/usr/bin/env python3
"""Has ten clients work with the gateway for a long time, and looks whether it keeps more and more of anything.

Usage: bench/soak.py [--minutes N] [--settles N] [--pause SECONDS] [COMMAND ..]

COMMAND is as for trials/gateway.py; without --minutes it is an hour. Each client has an address and a directory of its own, and does
one thing after the other, drawn by chance: uploads of all lengths, with offsets and at ends of files, downloads whole and in part,
listings, transfers that it cuts off or aborts, looks at files, renames and deletes, directories that come and go, sessions that it
leaves, and wrong passwords. It knows what its files are due to hold, and each byte that comes is compared. In some minutes the users
are read anew, where the program knows the word. With --pause each client does nothing for so long on the average between two things:
ten clients that rest for a second each do some ten things a second.

Every ten seconds it notes the resident memory, the descriptors and the threads of the gateway. It prints a line a minute, and says
at last of each of the three whether it was flat from minute --settles on, which is the tenth: whether the median of the last third
is at most so much above that of the first third behind it; and how much of a processor the gateway and the clients took. The
status is 1 where one of the three was not flat, or a client found anything wrong.
"""

import argparse
import os
import random
import socket
import statistics
import sys
import threading
import time
from pathlib import Path

sys.dont_write_bytecode = True
sys.path.append(str(Path(__file__).resolve().parent.parent / "trials"))
import wire  # noqa: E402
from gateways import WRITER, Gateway  # noqa: E402
from programs import command, prepare  # noqa: E402

CLIENTS, FILES = 10, 8
LENGTHS = 0, 1, 1000, 8192, 8193, 131072, 300001, 2_000_000
SAMPLED = 10
# What is still flat: a part of what was there, and some more.
SLACK = {"Rss in KiB": (0.05, 2048), "descriptors": (0, CLIENTS * 6), "threads": (0, CLIENTS * 2)}


class Client(threading.Thread):
    """A client of an address and a directory of its own, who knows what its files hold."""

    def __init__(self, door, number, until, pause):
        super().__init__(daemon=True)
        self.door, self.until, self.pause = door, until, pause
        self.source, self.folder = f"127.0.2.{number + 1}", f"client-{number}"
        self.random = random.Random(number)
        self.files, self.done, self.faults = {}, 0, []
        self.session = None

    def run(self):
        while time.monotonic() < self.until:
            work = self.random.choice(WORK)
            try:
                work(self)
                self.done += 1
            except Exception as why:  # told at the end; the client goes on
                self.faults.append(f"{self.folder}, {work.__name__}: {type(why).__name__}: {why}")
                self.leave()
            time.sleep(self.random.uniform(0, 2 * self.pause))
        self.leave()

    def leave(self):
        if self.session is not None:
            self.session.close()
            self.session = None

    def at_work(self):
        """The session, opened where there is none."""
        if self.session is None:
            self.session = wire.Session(self.door, self.source).login()
            self.session.tell("TYPE I", 200)
            self.session.tell(f"CWD {self.folder}", 250)
        return self.session

    def data(self):
        return self.random.randbytes(self.random.choice(LENGTHS))

    def name(self):
        return f"file {self.random.randrange(FILES)}"

    def known(self):
        """The name of a file that is there, which is made where there is none."""
        if not self.files:
            upload(self)
        return self.random.choice(sorted(self.files))

    def compare(self, got, due, what):
        if got != due:
            raise wire.Unexpected(f"{what}: {len(got)} bytes, and {len(due)} others are due")


def upload(client):
    name, data = client.name(), client.data()
    client.at_work().store(f"STOR {name}", data)
    client.files[name] = data


def upload_from(client):
    """What stands before the offset stays, and what stands behind it goes."""
    name, data = client.known(), client.data()
    offset = client.random.randrange(len(client.files[name]) + 1)
    client.at_work().store(f"STOR {name}", data, offset)
    client.files[name] = client.files[name][:offset] + data


def append(client):
    name, data = client.known(), client.data()
    if len(client.files[name]) < 8_000_000:
        client.at_work().store(f"APPE {name}", data)
        client.files[name] += data


def download(client):
    name = client.known()
    client.compare(client.at_work().fetch(f"RETR {name}"), client.files[name], name)


def download_from(client):
    name = client.known()
    offset = client.random.randrange(len(client.files[name]) + 1)
    client.compare(client.at_work().fetch(f"RETR {name}", offset), client.files[name][offset:], f"{name} from {offset} on")


def listings(client):
    for word in "NLST", "LIST", "MLSD":
        lines = client.at_work().fetch(word).decode().splitlines()
        if len(lines) != len(client.files):
            raise wire.Unexpected(f"{word} has {len(lines)} lines of {len(client.files)} files")


def missing(client):
    """A file that is not there."""
    session = client.at_work()
    with session.link():
        session.tell("RETR none", 550)


def looks(client):
    name, session = client.known(), client.at_work()
    shown = session.tell(f"SIZE {name}", 213)
    if int(shown) != len(client.files[name]):
        raise wire.Unexpected(f"{name} has {shown} bytes, and {len(client.files[name])} are due")
    session.tell(f"MDTM {name}", 213)
    session.tell(f"MLST {name}", 250)


def renames(client):
    """Also over another file, which is gone then."""
    name, to = client.known(), client.name()
    session = client.at_work()
    session.tell(f"RNFR {name}", 350)
    session.tell(f"RNTO {to}", 250)
    client.files[to] = client.files.pop(name)


def deletes(client):
    name = client.known()
    client.at_work().tell(f"DELE {name}", 250)
    del client.files[name]


def directories(client):
    session = client.at_work()
    session.tell("MKD below", 257)
    session.tell("CWD below", 250)
    session.tell("CDUP", 250)
    session.tell("RMD below", 250)
    session.tell("PWD", 257)


def cut_off(client):
    """A download whose connection is reset in its midst."""
    name, session = client.known(), client.at_work()
    stream = session.link()
    session.tell(f"RETR {name}", 150)
    wire.reset(stream)
    session.expect(226, 426)


def aborted(client):
    """A download is aborted once its first byte came: a connection that no transfer has yet might be taken for the next one."""
    upload(client)
    name = max(client.files, key=lambda name: len(client.files[name]))
    session = client.at_work()
    stream = session.link()
    session.tell(f"RETR {name}", 150)
    if client.files[name]:
        client.compare(stream.recv(1), client.files[name][:1], "the first byte")
    session.send("ABOR")
    session.expect(226, 426)
    session.expect(226)
    stream.close()


def left_upload(client):
    """An upload that is cut off: what came of it stands, and is not known here, so the file is stored again."""
    session, name = client.at_work(), client.name()
    stream = session.link()
    session.tell(f"STOR {name}", 150)
    stream.sendall(client.data())
    wire.reset(stream)
    session.expect(226, 426)
    data = client.data()
    session.store(f"STOR {name}", data)
    client.files[name] = data


def quits(client):
    client.at_work().quit()
    client.session = None


def vanishes(client):
    """A session that is left by a reset."""
    session = client.at_work()
    session.control.setsockopt(socket.SOL_SOCKET, socket.SO_LINGER, b"\1\0\0\0\0\0\0\0")
    client.leave()


def wrong_password(client):
    with wire.Session(client.door, client.source) as session:
        session.tell(f"USER {WRITER}", 331)
        session.tell("PASS wrong", 530)


def pause(client):
    time.sleep(client.random.random())


WORK = [upload, upload, upload_from, append, download, download, download_from, listings, missing, cut_off, aborted, left_upload]
WORK += [looks, renames, deletes, directories]
WORK += [quits, vanishes, wrong_password, pause]


def sample(pid):
    """Resident memory, descriptors and threads."""
    status = Path(f"/proc/{pid}/status").read_text()
    rss = int(status.partition("VmRSS:")[2].split()[0])
    return {
        "Rss in KiB": rss,
        "descriptors": len(os.listdir(f"/proc/{pid}/fd")),
        "threads": len(os.listdir(f"/proc/{pid}/task")),
    }


def processor_time(pid):
    """The seconds of a processor that a process took."""
    fields = Path(f"/proc/{pid}/stat").read_text().rpartition(")")[2].split()
    return (int(fields[11]) + int(fields[12])) / os.sysconf("SC_CLK_TCK")


def watch(gateway, clients, begun, until):
    """Notes and prints; gives the samples, each with its minute."""
    samples, told = [], 0
    while time.monotonic() < until and gateway.is_running():
        time.sleep(min(SAMPLED, max(0.1, until - time.monotonic())))
        minute = (time.monotonic() - begun) / 60
        samples.append((minute, sample(gateway.process.pid)))
        if minute >= told + 1:
            told = int(minute)
            figures = ", ".join(f"{value} {what}" for what, value in samples[-1][1].items())
            print(f"minute {told}: {sum(c.done for c in clients)} done, {sum(len(c.faults) for c in clients)} faults; {figures}", flush=True)
            if told % 7 == 3:
                gateway.tells("reload")
    return samples


def growth(samples, what, settles):
    """The medians of the first and of the last third behind the minute from which on it should be flat."""
    values = [value[what] for minute, value in samples if minute >= settles]
    third = max(1, len(values) // 3)
    return statistics.median(values[:third]), statistics.median(values[-third:])


def judge(samples, settles):
    """Prints of each what it was, and says whether all were flat."""
    if sum(minute >= settles for minute, _ in samples) < 6:
        print(f"too short to say whether anything grows: it takes a minute behind minute {settles:g}")
        return False
    flat = True
    for what, (part, more) in SLACK.items():
        first, last = growth(samples, what, settles)
        is_flat = last <= first * (1 + part) + more
        flat = flat and is_flat
        print(f"{what}: {first:.0f} at first, {last:.0f} at last: {'flat' if is_flat else 'it grows'}")
    return flat


def main():
    parser = argparse.ArgumentParser(description="ten clients and the gateway for a long time")
    parser.add_argument("--minutes", type=float, default=60)
    parser.add_argument("--settles", type=float, default=10)
    parser.add_argument("--pause", type=float, default=0)
    parser.add_argument("command", nargs=argparse.REMAINDER)
    asked = parser.parse_args()
    prepare()
    with Gateway(command(asked.command, "ftp_gateway")) as gateway:
        begun = time.monotonic()
        until = begun + 60 * asked.minutes
        for number in range(CLIENTS):
            (gateway.home / f"client-{number}").mkdir()
        clients = [Client(gateway.door(), number, until, asked.pause) for number in range(CLIENTS)]
        for client in clients:
            client.start()
        samples = watch(gateway, clients, begun, until)
        for client in clients:
            client.join(60)
        flat = judge(samples, asked.settles)
        if gateway.is_running():
            took = time.monotonic() - begun
            parts = processor_time(gateway.process.pid) / took, time.process_time() / took
            print(f"the gateway took {parts[0]:.3f} of a processor, the clients {parts[1]:.3f}")
        faults = [fault for client in clients for fault in client.faults]
        if not gateway.is_running():
            faults.append(f"the gateway has ended: {gateway.text()}")
    print("\n".join(faults[:20]))
    print(f"{sum(client.done for client in clients)} done, {len(faults)} faults")
    return 0 if flat and not faults else 1


if __name__ == "__main__":
    sys.exit(main())
