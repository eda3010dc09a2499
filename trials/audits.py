"""The cases on audits of scripts.

    trials/audits.py [COMMAND ..]

COMMAND is the program that runs scripts; without one it is FTP_SCRIPT of the environment, or else crates/ftp_script/out/ftp_script,
which `rt ci` builds. Each script is run twice: once for its log, and once for its audit. What each user moved, and how often it
came and went, is added up here from the decisions of the log, and has to be what the audit says, byte for byte. Each case prints a
line; the status is 1 if one failed.
"""

import os
import random
import re
import shlex
import subprocess
import sys
from collections import defaultdict
from pathlib import Path

TOP = Path(__file__).resolve().parent.parent
PROGRAM = TOP / "crates" / "ftp_script" / "out" / "ftp_script"
PATIENCE = 60
SUMS = "got_files", "got_bytes", "put_files", "put_bytes", "logins", "logouts"


class Differs(Exception):
    """The audit says something else than the log."""


def run(program, word, script):
    done = subprocess.run([*program, word], input=script, capture_output=True, timeout=PATIENCE)
    return done.returncode, done.stdout


def plain(text):
    """The bytes that a text of a line stands for."""
    return re.sub(rb"\\x(..)", lambda hex: bytes([int(hex[1], 16)]), text)


def spelled(name):
    return b"".join(bytes([b]) if 32 <= b < 127 and b != 92 else b"\\x%02x" % b for b in name)


class Book:
    """What a printed log tells of its users, by what was decided; of the notifications it looks at their names alone."""

    def __init__(self):
        self.sums = defaultdict(lambda: dict.fromkeys(SUMS, 0))
        self.named, self.names, self.let_in, self.live, self.decisions = set(), {}, set(), set(), set()

    def owner(self, session):
        return self.names.get(session, b"unknown") if session in self.let_in else b"unknown"

    def add(self, session, key, count=1):
        self.sums[self.owner(session)][key] += count

    def end(self, session):
        self.add(session, "logouts")
        self.live.discard(session)

    def decided(self, event, answer, decision, actions):
        word, fields = event
        what = decision[0]
        session = fields.split(b" ")[0]
        self.decisions.add(what)
        if what == b"opened":
            self.live.add(session)
        elif what == b"needpass":
            self.names[session] = plain(fields.split(b" ", 1)[1])
        elif what == b"loggedin":
            self.let_in.add(session)
            self.add(session, "logins")
        elif what in (b"quit", b"closed", b"timedout"):
            self.end(session)
        elif what == b"stopped":
            for each in list(self.live):
                self.end(each)
        for action in actions:
            kind, *rest = action.split(b" ")
            if kind == b"completed" and rest[1] == b"delivered" and what == b"finished":
                self.moved(rest[0].split(b".")[0], answer)
            elif kind == b"notify":
                text = plain(action.split(b" ", 8)[8])
                self.named.add(text[: int(rest[5])])

    def moved(self, session, answer):
        result, count = answer[1], int(answer[2])
        for kind, of in (b"sent", "got"), (b"written", "put"):
            if result == kind:
                self.add(session, of + "_files")
                self.add(session, of + "_bytes", count)

    def report(self):
        lines = []
        for name in sorted(self.named):
            sums = self.sums[name]
            counts = [sums[key] for key in SUMS]
            lines.append(b"got %d %d put %d %d in %d out %d %s\n" % (*counts, spelled(name)))
        return b"".join(lines)


def read(log):
    """The book of a printed log, its number of entries, and the last line where that names a bad one."""
    book, entries, bad, entry = Book(), 0, b"", None

    def close():
        if entry:
            book.decided(*entry)

    for line in log.split(b"\n"):
        mark, _, rest = line.partition(b" ")
        if mark == b">":
            close()
            _, word, fields = (*rest.split(b" ", 2), b"")[:3]
            entry, entries = [(word, fields), None, (b"",), []], entries + 1
        elif mark == b"?":
            entry[1] = rest.split(b" ")
        elif mark == b"=":
            entry[2] = rest.split(b" ")
        elif mark == b"-":
            entry[3].append(rest)
        elif mark == b"bad":
            bad = line + b"\n"
    close()
    return book, entries, bad


def is_audited(program, script, least=0, status=0):
    ended, log = run(program, "script", script)
    book, entries, bad = read(log)
    if ended != status or entries < least:
        raise Differs(f"the script ended with {ended} behind {entries} entries")
    audited, report = run(program, "audit", script)
    if audited != status:
        raise Differs(f"the audit ended with {audited}")
    if report != book.report() + bad:
        pairs = zip(report.split(b"\n"), (book.report() + bad).split(b"\n"))
        raise Differs(next((f"{got!r} in place of {due!r}" for got, due in pairs if got != due), "lines are missing, or too many"))
    return entries, book


def drawn(seed, sessions):
    """The events of a stress run, as a script."""
    x = seed

    def draw():
        nonlocal x
        x = (6364136223846793005 * x + 1442695040888963407) % 2**64
        return x >> 33

    lines = ["options pooled 50000 50063 connection passive 600 off norestart"]
    for s in range(1, sessions + 1):
        lines += [f"0 connect {s} 10.0.0.{s % 16}:4000 10.0.0.9:21 {s}", f"0 user {s} ann", f"0 pass {s}", f"0 auth {s} good"]
    for k in range(1, 16 * sessions + 1):
        a, b, c = draw(), draw(), draw()
        s = 1 + a % sessions
        if b % 4 in (0, 1):
            lines.append(f"0 pasv {s} {c % 65536} - -")
        elif b % 4 == 2:
            lines.append(f"link {sessions + k} 1 - .")
            lines.append(f"0 data {sessions + k} 10.0.0.{a % 16}:4001 {50000 + c % 64}")
        else:
            lines.append(f"0 abor {s}")
    return "\n".join(lines).encode() + b"\n"


NAMES = [b"ann", b"bob", b"", b"a b", b"\\", b"\xc3\xa9", b"unknown", b"Ann"]


class Story:
    """The lines of a session: it logs in or does not, moves files, whole or in pieces, aborts some, and leaves or stays."""

    def __init__(self, number, random):
        self.s, self.random, self.tickets, self.lines = number, random, 0, []
        self.address = f"10.{number >> 8 & 255}.{number & 255}.1"
        self.tell(f"connect {number} {self.address}:4000 10.0.0.9:21 {number}")

    def tell(self, line):
        self.lines.append(line)

    def whole(self):
        for _ in range(self.random.randrange(3)):
            self.log_in("refused")
        if self.random.random() < 0.1:
            self.tell(f"internal {self.s} deleted /{self.s}")
        if self.random.random() < 0.9:
            self.log_in("good")
        for _ in range(self.random.randrange(4)):
            self.transfer()
        leave = self.random.choice([f"quit {self.s}", f"closed {self.s}", f"internal {self.s} made /{self.s}", ""])
        if leave:
            self.tell(leave)
        if self.random.random() < 0.3:
            self.tell(f"end {self.s}.{self.tickets}")
        return self.lines

    def log_in(self, answer):
        name = spelled(self.random.choice(NAMES)).decode()
        self.lines += [f"user {self.s} {name}", f"pass {self.s}", f"auth {self.s} {answer}"]

    def transfer(self):
        number = 100000 + 10 * self.s + self.tickets
        held = "61" * self.random.choice([1, 5, 9000]) if self.random.random() < 0.8 else "."
        self.tell(f"link {number} 65536 - {held}")
        self.tell(f"pasv {self.s} 0 - -")
        self.tell(self.random.choice([f"retr {self.s} /a", f"retr {self.s} /none", f"stor {self.s} /{self.s}", f"appe {self.s} /{self.s}", f"list {self.s}"]))
        self.tickets += 1
        self.tell(f"data {number} {self.address}:4001 50000")
        ticket = f"{self.s}.{self.tickets}"
        for _ in range(self.random.randrange(4)):
            self.tell(f"piece {ticket}")
        if self.random.random() < 0.3:
            self.tell(f"abor {self.s}")
        if self.random.random() < 0.3:
            self.tell(f"piece {ticket}")
        if self.random.random() < 0.9:
            self.tell(f"end {ticket}")


def told(seed, sessions):
    """The stories of so many sessions, one line here and one there, and towards their end at times the stop of the server."""
    chance = random.Random(seed)
    stories = [Story(s, chance).whole() for s in range(1, sessions + 1)]
    lines = ["options pooled 50000 50001 connection passive 600 off restart", f"file {'62' * 20000} /a"]
    at = 0
    while stories:
        story = chance.choice(stories)
        line = story.pop(0)
        at += chance.randrange(3)
        lines.append(line if line.startswith("link") else f"{at} {line}")
        stories = [each for each in stories if each]
        if len(stories) < sessions // 4 and not chance.randrange(2 * sessions):
            lines.append(f"{at} shutdown")
    return "\n".join(lines).encode() + b"\n"


def of_drawn_events(program):
    for seed in 0, 7, 2**64 - 1:
        entries, book = is_audited(program, drawn(seed, 1000), least=20000)
        if entries != 20000 or book.report() != b"got 0 0 put 0 0 in 1000 out 0 ann\n":
            raise Differs(f"{entries} entries, and {book.report()!r}")


def of_drawn_counts(program):
    """The drawn events are those of the program's own stress run."""
    counts = defaultdict(int)
    for line in run(program, "script", drawn(3, 200))[1].split(b"\n"):
        if line.startswith(b"= "):
            counts[line.split(b" ")[1]] += 1
    own = subprocess.run([*program, "stress", "3", "200"], capture_output=True, timeout=PATIENCE).stdout
    due = b"".join(b"%d %s\n" % (counts[name], name) for name in sorted(counts))
    if own != due:
        raise Differs(f"{own!r} in place of {due!r}")


def of_stories(program):
    seen = dict.fromkeys(SUMS, 0)
    for seed in range(4):
        _, book = is_audited(program, told(seed, 300), least=1000)
        if not {b"moved", b"aborting", b"cut", b"finished"} <= book.decisions:
            raise Differs("no piece moved, or none was cut")
        for sums in book.sums.values():
            for key in SUMS:
                seen[key] += sums[key]
    if not all(seen[key] for key in SUMS):
        raise Differs(f"too little happened: {seen}")


def of_zeros(program):
    """Who was named without having moved anything, or come or gone, has a line."""
    script = b"0 connect 1 10.0.0.1:4000 10.0.0.9:21 1\n0 internal 1 deleted /a\n"
    _, book = is_audited(program, script)
    if book.report() != b"got 0 0 put 0 0 in 0 out 0 unknown\n":
        raise Differs(f"{book.report()!r}")


def of_a_bad_line(program):
    """What stands behind a bad line is not heard."""
    lines = told(99, 100).split(b"\n")
    for k in 2, len(lines) // 2, len(lines) - 1:
        script = b"\n".join([*lines[:k], b"fly", *lines[k:]])
        is_audited(program, script, status=2)
        if not run(program, "audit", script)[1].endswith(b"bad line %d\n" % (k + 1)):
            raise Differs("no bad line is named")


def of_an_example(program):
    _, book = is_audited(program, (TOP / "examples" / "audited.script").read_bytes())
    if book.report() != (TOP / "examples" / "audited.report").read_bytes():
        raise Differs("audited.report is not what its script prints")


def of_nothing(program):
    is_audited(program, b"")


CASES = {
    "20,000 drawn events": of_drawn_events,
    "the events of a stress run": of_drawn_counts,
    "transfers whole, in pieces and cut": of_stories,
    "a user with zeros": of_zeros,
    "a bad line": of_a_bad_line,
    "the example": of_an_example,
    "an empty script": of_nothing,
}


def main(words, cases):
    """Runs each case with the program that the words start. It gives 1 where one failed."""
    program = words or shlex.split(os.environ.get("FTP_SCRIPT", "")) or [str(PROGRAM)]
    failed = 0
    for name, case in cases.items():
        try:
            case(program)
        except Exception as why:  # whatever the program did, the next case is run
            failed += 1
            print(f"FAIL  {name}: {type(why).__name__}: {why}", flush=True)
        else:
            print(f"pass  {name}", flush=True)
    print(f"{len(cases) - failed} passed, {failed} failed")
    return 1 if failed else 0


if __name__ == "__main__":
    sys.exit(main(sys.argv[1:], CASES))
