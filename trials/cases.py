"""What the cases of the scripts share: their bytes, how they are counted, and the place where a client works."""

import argparse
import os
import random
import shlex
import shutil
import subprocess
import tempfile
from pathlib import Path

import wire
from programs import command, prepare

PATIENCE = 60
# A file of this length is no whole number of pieces, and its first part is none either.
LENGTH, PART = 300001, 100003
MANY = 16


class Skipped(Exception):
    """The case cannot be run here."""


def body(length, seed=1):
    """Bytes of every value, the same at each run."""
    return random.Random(seed).randbytes(length)


def same(got, due, what="the bytes"):
    if got != due:
        at = next((i for i, (a, b) in enumerate(zip(got, due)) if a != b), min(len(got), len(due)))
        raise wire.Unexpected(f"{what} differ at {at}, of {len(got)} and {len(due)} that are due")


def holds(fact, what):
    if not fact:
        raise wire.Unexpected(what)


class Tally:
    """Runs cases, prints a line for each, and counts."""

    def __init__(self, only="", is_front=False):
        self.only, self.is_front, self.passed, self.failed, self.skipped = only, is_front, 0, 0, 0

    def case(self, name, run, *handed):
        if self.only not in name:
            return
        try:
            run(*handed)
        except Skipped as why:
            self.skipped += 1
            print(f"skip  {name}: {why}", flush=True)
        except Exception as why:  # whatever a client or a server did, the next case is run
            self.failed += 1
            print(f"FAIL  {name}: {type(why).__name__}: {why}", flush=True)
        else:
            self.passed += 1
            print(f"pass  {name}", flush=True)

    def group(self, name, run, *handed):
        """Runs what runs cases; that it could not go on is a case that failed."""
        try:
            run(self, *handed)
        except Exception as why:
            self.failed += 1
            print(f"FAIL  {name}: {type(why).__name__}: {why}", flush=True)

    def runs_on(self, name, server):
        """The case that a server has not ended behind all that was done to it."""
        self.case(f"{name} the server runs on", lambda: holds(server.is_running(), f"it has ended: {server.text()}"))

    def skip(self, name, why):
        def skipped():
            raise Skipped(why)

        self.case(name, skipped)

    def end(self):
        """Prints the sum, and gives the status."""
        print(f"{self.passed} passed, {self.failed} failed, {self.skipped} skipped")
        return 1 if self.failed else 0


def begin(description, program="ftp_serve"):
    """What a script of cases is asked: the words that start the program, and who counts the cases."""
    parser = argparse.ArgumentParser(description=description)
    parser.add_argument("--front", action="store_true")
    parser.add_argument("--only", default="", metavar="WORD")
    parser.add_argument("command", nargs=argparse.REMAINDER)
    asked = parser.parse_args()
    prepare()
    return command(asked.command, program), Tally(asked.only, asked.front)


class Place:
    """A door to a server, an address to come from, and a folder for the files of a client."""

    # The words beside the profile that the server answers.
    extra_words = ()
    # Whether a listing of a file shows that file.
    lists_files = False

    def __init__(self, door, source="127.0.0.1"):
        self.door, self.source = door, source
        self.folder = Path(tempfile.mkdtemp(prefix="celuviamo-"))
        self.count = 0
        self.bytes = body(LENGTH)
        self.sent = self.folder / "sent"
        self.sent.mkdir()
        self.many = {f"many-{i}": body(1000 * i + 7, i) for i in range(MANY)}
        for name, bytes_of in [("file", self.bytes), ("rest", self.bytes[PART:])]:
            (self.folder / name).write_bytes(bytes_of)
        for name, bytes_of in self.many.items():
            (self.sent / name).write_bytes(bytes_of)

    def __enter__(self):
        return self

    def __exit__(self, *_):
        shutil.rmtree(self.folder)

    def name(self):
        """A name that no other case has."""
        self.count += 1
        return f"of-{self.source}-{self.count}"

    def session(self):
        return wire.Session(self.door, self.source).login()

    def long_line(self, name, size):
        """The line of a file in a LIST."""
        return f"-rw-rw-rw- 1 ftp ftp {size:12} Jan 01 1970 {name}"

    def facts(self, name, size):
        """The facts of a file in an MLSD."""
        return {"type": "file", "size": str(size)}

    def facts_line(self, name, size):
        """The line of a file in an MLSD."""
        return "".join(f"{fact}={value};" for fact, value in self.facts(name, size).items()) + f" {name}"

    def put(self, name, data):
        with self.session() as session:
            session.store(f"STOR {name}", data)
            session.quit()

    def stored(self, name):
        with self.session() as session:
            got = session.fetch(f"RETR {name}")
            session.quit()
        return got

    def words(self, name):
        """What stands in the braces of a command line."""
        url = f"ftp://{self.door.ip}:{self.door.port}"
        folder = self.folder / f"{name}.many"
        folder.mkdir()
        return {
            "source": self.source,
            "host": self.door.ip,
            "port": self.door.port,
            "url": url,
            "name": name,
            "file": self.folder / "file",
            "rest": self.folder / "rest",
            "part": PART,
            "got": self.folder / f"{name}.got",
            "sent": self.sent,
            "folder": folder,
            "names": " ".join(self.many),
            "files": " ".join(str(self.sent / one) for one in self.many),
            "uploads": " ".join(f"-T {self.sent / one} {url}/{one}" for one in self.many),
            "downloads": " ".join(f"-o {folder / one} {url}/{one}" for one in self.many),
        }

    def run(self, told, words):
        """Runs a client: its status, its output, and what it says of errors."""
        line, lines = told if isinstance(told, tuple) else (told, "")
        done = subprocess.run(
            shlex.split(line.format(**words)),
            input=lines.format(**words).encode(),
            capture_output=True,
            timeout=PATIENCE,
            cwd=self.folder,
            env={"PATH": os.environ["PATH"], "HOME": str(self.folder), "LC_ALL": "C"},
            check=False,
        )
        return done.returncode, done.stdout, (done.stderr + done.stdout).decode("latin-1").strip()
