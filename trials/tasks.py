"""What people do with a directory that a gateway serves, by each client that is installed, as far as the server's commands go.

Behind each task the client's files and the whole directory are compared with what is due.
"""

import contextlib
import os
import shlex
import shutil
import subprocess

import library_clients
import shell_clients
from cases import body, holds, same
from gateways import same_tree, tree
from library_clients import COMMONS_NET
from shell_clients import UTF8

PATIENCE, DAY = 120, 24 * 60 * 60
SMALL, DEEP = b"hello", b"deep file\n"
BIG = body(int(os.environ.get("GATEWAY_MIB", "20")) << 20)
HALF = BIG[: len(BIG) // 2]
MANY = {f"f{i:03}.txt": b"%d" % i for i in range(30)}
# When each file was last changed: September 13, 2020.
CHANGED = 1_600_000_000
BELOW = {"d2": None, "d2/d3": None, "d2/d3/deep.txt": DEEP}
UP = {**{f"x{i}.txt": b"%d" % i for i in range(5)}, "in": None, "in/deep": None, "in/deep/y.txt": DEEP}
SERVED = {
    "a.txt": SMALL,
    "empty": b"",
    "with space.txt": b"space",
    UTF8: b"utf8",
    "big.bin": BIG,
    "part.bin": HALF,
    "sub": None,
    **{f"sub/{name}": data for name, data in BELOW.items()},
    "hollow": None,
    "many": None,
    **{f"many/{name}": data for name, data in MANY.items()},
}
OWN = {
    "s.txt": SMALL,
    "zero": b"",
    "sp ace.txt": b"space",
    "ü.txt": b"utf8",
    "big.bin": BIG,
    "halfbig.bin": HALF,
    "part/part.bin": BIG,
    "down": None,
    "up": None,
    **{f"up/{name}": data for name, data in UP.items()},
}


def lay_out(folder, files):
    """Makes a directory have these files and directories and no others."""
    for path in folder.iterdir():
        shutil.rmtree(path) if path.is_dir() and not path.is_symlink() else path.unlink()
    for name, data in files.items():
        path = folder / name
        if data is None:
            path.mkdir(parents=True, exist_ok=True)
        else:
            path.parent.mkdir(parents=True, exist_ok=True)
            path.write_bytes(data)
            os.utime(path, (CHANGED, CHANGED))


class Task:
    """What is due behind a task: files of the client, what changes in the directory or goes, a file to which the server gives a name, and
    words that the client shows. Where it is dated, these files have the date of the other side, to so many seconds."""

    def __init__(self, got=None, put=None, gone=(), fresh=None, shows=(), hides=(), dated=None):
        self.got, self.put, self.gone, self.fresh = got or {}, put or {}, gone, fresh
        self.shows, self.hides, self.dated = shows, hides, dated

    def check(self, own, home, out, status):
        for name, data in self.got.items():
            if data is not None:
                holds((own / name).exists(), f"the client has no {name}: {out}")
                same((own / name).read_bytes(), data, f"those of {name}")
        due = {name: data for name, data in {**SERVED, **self.put}.items() if name not in self.gone}
        if self.fresh is not None:
            names = sorted(set(tree(home)) - set(due))
            holds(len(names) == 1, f"there are {names} beside what was there")
            due[names[0]] = self.fresh
        same_tree(home, due)
        if self.dated:
            for path in [own / name for name in self.got] + [home / name for name in self.put]:
                holds(abs(path.stat().st_mtime - CHANGED) < self.dated, f"{path.name} is of {path.stat().st_mtime}")
        for word in self.shows:
            holds(word in out, f"no {word!r} in {out!r}")
        for word in self.hides:
            holds(word not in out, f"{word!r} stands in {out!r}")


def below(folder, files):
    return {f"{folder}/{name}": data for name, data in files.items()}


TASKS = {
    "list": Task(shows=["a.txt", "sub", "hollow", "with space.txt"], hides=["f000.txt", "d3"]),
    "list of a directory": Task(shows=MANY, hides=["a.txt"]),
    "names": Task(shows=["a.txt", "big.bin"]),
    "list by a pattern": Task(shows=["a.txt", "with space.txt"], hides=["big.bin", "sub", "f000.txt"]),
    "names by a pattern": Task(shows=["f020.txt", "f029.txt"], hides=["f019.txt", "a.txt"]),
    "list of a file": Task(shows=["a.txt"], hides=["big.bin", "sub"]),
    "get": Task(got={"got": SMALL}),
    "get of nothing": Task(got={"got": b""}),
    "get of a big file": Task(got={"got": BIG}),
    "get of a name with a space": Task(got={"got": b"space"}),
    "get of a name in UTF-8": Task(got={"got": b"utf8"}),
    "get from below": Task(got={"got": DEEP}),
    "resumed get": Task(got={"halfbig.bin": BIG}),
    "get of many": Task(got=below("down", MANY)),
    "mirror down": Task(got=below("down", BELOW)),
    "put": Task(put={"s.txt": SMALL}),
    "put of nothing": Task(put={"zero": b""}),
    "put of a big file": Task(put={"big2.bin": BIG}),
    "put over a file": Task(put={"big.bin": SMALL}),
    "put of a name with a space": Task(put={"sp ace.txt": b"space"}),
    "put of a name in UTF-8": Task(put={"ü.txt": b"utf8"}),
    "put under a name of the server's": Task(fresh=SMALL),
    "put below": Task(put={"sub/d2/s.txt": SMALL}),
    "resumed put": Task(put={"part.bin": BIG}),
    "append": Task(put={"a.txt": SMALL + SMALL}),
    "way down and up": Task(shows=["a.txt", "hollow"], hides=["d3"]),
    "make a directory": Task(put={"new": None}),
    "remove a directory": Task(gone=["hollow"]),
    "delete": Task(gone=["a.txt"]),
    "rename": Task(gone=["a.txt"], put={"b.txt": SMALL}),
    "put into new directories": Task(put={"new": None, "new/one": None, "new/one/s.txt": SMALL}),
    "size": Task(shows=[str(len(BIG))]),
    "where": Task(shows=["/sub/d2"]),
    "set a date": Task(shows=["20200102030405"]),
    "date": Task(shows=["2020"]),
    "delete beside a put": Task(gone=["a.txt"], put={"s.txt": SMALL}),
    "get with its date": Task(got={"got": SMALL}, dated=1),
    "get with its day": Task(got={"got": SMALL}, dated=DAY),
    "put with its date": Task(put={"s.txt": SMALL}, dated=1),
    "mirror up": Task(put={"new": None, **below("new", UP)}),
    "mirror up twice": Task(put={"new": None, **below("new", UP)}),
    "remove a tree": Task(gone=["sub", *below("sub", BELOW)]),
}

CLIENTS = {**shell_clients.CLIENTS, **library_clients.CLIENTS}
# What tells that a client is there, where that is not a program of its name.
INSTALLED = {
    "ncftp": "ncftpput",
    "inetutils": "inetutils-ftp",
    "ftplib": "sh",
    "gvfs": "/usr/libexec/gvfsd-ftp",
    "java": COMMONS_NET,
}


def run_task(place, told, task):
    """A client does a task on a directory that is laid out anew."""
    own = place.folder / "own"
    own.mkdir(exist_ok=True)
    lay_out(own, OWN)
    lay_out(place.home, SERVED)
    words = {"own": own, "half": len(HALF), "host": place.door.ip, "port": place.door.port, "source": place.source}
    line, lines = told if isinstance(told, tuple) else (told, "")
    with contextlib.chdir(own):
        done = subprocess.run(
            shlex.split(filled(line, words)),
            input=filled(lines, words).encode(),
            stdout=subprocess.PIPE,
            stderr=subprocess.STDOUT,
            timeout=PATIENCE,
            env={"PATH": os.environ["PATH"], "HOME": str(place.folder), "LC_ALL": "C.UTF-8"},
            check=False,
        )
    TASKS[task].check(own, place.home, done.stdout.decode("utf-8", "replace"), done.returncode)


def filled(text, words):
    """The text with these words in place of their names in braces; other braces stay."""
    for name, word in words.items():
        text = text.replace("{" + name + "}", str(word))
    return text


def is_installed(client):
    found = INSTALLED.get(client, client)
    return os.path.exists(found) if found.startswith("/") else shutil.which(found)


def run(tally, mode, place, clients=tuple(CLIENTS)):
    for client in clients:
        for task, told in CLIENTS[client].items():
            name = f"{mode} {client} task {task}"
            if is_installed(client):
                tally.case(name, run_task, place, told, task)
            else:
                tally.skip(name, f"{client} is not installed")
