"""The cases on links, names and large directories, which trials/gateway.py runs in each mode."""

import os
import socket
import unicodedata

import wire
from cases import body, holds, same
from gateways import Gateway, same_tree, tree
from homes import DATA, is_refused, let_in, names_in, outcome, wait_for

NAMES = int(os.environ.get("GATEWAY_NAMES", "100000"))
LONGEST = 255
PLAIN_NAMES = [
    "with space",
    " led by a space",
    "two  spaces",
    "ünï-π.txt",
    "日本語",
    "🦀.bin",
    unicodedata.normalize("NFC", "é"),
    unicodedata.normalize("NFD", "é"),
    "-la",
    "--",
    "*",
    "a?b",
    "[x]",
    "%2e%2e",
    "a\\b",
    "'\"`",
    "$HOME",
    "tab\there",
    "...",
    ".hidden",
    "C:",
    "x" * LONGEST,
    "é" * (LONGEST // 2),
]
LINE_BREAKS = [b"a\nb", b"x\r\n-rw-rw-rw- 1 ftp ftp            5 Jan 01 1970 passwd", b"\n", b"end\r"]


def keeps_names_as_they_are(words, mode):
    """Each name is stored, found in the directory, listed and fetched, byte for byte."""
    with Gateway(words, mode) as gateway, let_in(gateway) as session:
        due = {name: body(1000 + i, i) for i, name in enumerate(PLAIN_NAMES)}
        for name, data in due.items():
            session.store(f"STOR /{name}", data)
        same_tree(gateway.home, due)
        for name, data in due.items():
            same(session.fetch(f"RETR /{name}"), data, f"those of {name}")
        sorted_names = sorted(name.encode() for name in due)
        same(names_in(session), sorted_names, "the names")
        facts = [line.partition(b" ")[2] for line in names_in(session, "MLSD")]
        same(facts, sorted_names, "the names of MLSD")


def refuses_names_that_no_file_has(words, mode):
    """Names that are too long or have a NUL; a line that is no text ends its session, as every server of this repository does."""
    with Gateway(words, mode) as gateway:
        with let_in(gateway) as session:
            for name in b"x" * (LONGEST + 1), b"a\0b", b"none/x", b"none/" + b"y" * (LONGEST + 1):
                code, text, _ = outcome(session, b"STOR " + name + b"\r\n", b"x")
                holds(code in (550, 553), f"STOR {name[:20]} is answered {code} {text}")
        for name in b"\xc3", b"a\xfeb", b"\xc0\xaf":
            with let_in(gateway) as session:
                code, text, _ = outcome(session, b"STOR " + name + b"\r\n", b"x")
                holds(code == 500, f"STOR {name} is answered {code} {text}")
        same_tree(gateway.home, {})


def shows_no_line_that_is_no_file(words, mode):
    """A name with a line break is in no listing, as it would be two lines; the others are, each once."""
    with Gateway(words, mode) as gateway, let_in(gateway) as session:
        for name in (*LINE_BREAKS, b"not text \xff", b"plain", b"z"):
            with open(os.path.join(os.fsencode(gateway.home), name), "wb") as file:
                file.write(b"12345")
        same(names_in(session), [b"plain", b"z"], "the names")
        for word in "LIST", "MLSD":
            lines = names_in(session, word)
            holds([line.split()[-1] for line in lines] == [b"plain", b"z"], f"{word} shows {lines}")


def lay_links(gateway):
    """Links of each kind in the home, and what stands outside of it; the names of those by which nothing is reached."""
    outside = gateway.folder / "outside"
    outside.mkdir()
    (outside / "secret").write_bytes(b"outside")
    (gateway.home / "own").write_bytes(b"own")
    (gateway.home / "below").mkdir()
    (gateway.home / "below/own").write_bytes(b"own")
    links = {
        "to-file": outside / "secret",
        "to-directory": outside,
        "to-etc": "/etc",
        "within": "own",
        "up": "..",
        "to-nothing": outside / "made",
        "to-itself": "to-itself",
        "below/out": "../../outside",
    }
    for name, to in links.items():
        (gateway.home / name).symlink_to(to)
    paths = [*links, "to-directory/secret", "to-etc/passwd", "up/users", "below/out/secret", "to-directory/new", "below/out/new"]
    return outside, paths


def follows_no_link(words, mode):
    """Nothing is read, listed or written by a link, wherever it leads, and no listing shows one."""
    with Gateway(words, mode) as gateway:
        outside, paths = lay_links(gateway)
        before = tree(gateway.home)
        with let_in(gateway) as session:
            for path in paths:
                is_refused(session, f"RETR {path}", 550)
                for line in f"STOR {path}", f"APPE {path}":
                    code, text, _ = outcome(session, line, b"changed")
                    holds(code in (550, 553), f"{line} is answered {code} {text}")
                holds(session.ask(f"CWD {path}")[0] == 550, f"CWD {path} is taken")
                for word in "LIST", "NLST", "MLSD":
                    is_refused(session, f"{word} {path}", 550)
            same(names_in(session), [b"below", b"own"], "the names")
            same(names_in(session, "NLST below"), [b"own"], "the names below")
            same(names_in(session, "NLST *"), [b"below", b"own"], "the names of a pattern")
            for path in "to-directory/*", "to-etc/pass??", "below/out/*":
                is_refused(session, f"NLST {path}", 550)
        same_tree(gateway.home, before)
        same_tree(outside, {"secret": b"outside"})


def serves_a_root_that_is_a_link(words, mode):
    with Gateway(words, mode) as gateway:
        (gateway.home / "own").write_bytes(DATA)
        link = gateway.folder / "link"
        link.symlink_to(gateway.home)
        with Gateway(words, mode, home=link) as other, let_in(other) as session:
            same(session.fetch("RETR own"), DATA)
            same(names_in(session), [b"own"], "the names")


def opens_files_alone(words, mode):
    """A FIFO, a socket and a device are neither opened nor listed, and nobody waits for them."""
    with Gateway(words, mode) as gateway, let_in(gateway) as session:
        os.mkfifo(gateway.home / "fifo")
        with socket.socket(socket.AF_UNIX) as bound:
            bound.bind(str(gateway.home / "socket"))
            names = ["fifo", "socket"]
            if os.geteuid() == 0:
                os.mknod(gateway.home / "null", 0o20666, os.makedev(1, 3))
                names.append("null")
            for name in names:
                is_refused(session, f"RETR {name}", 550)
                code, text, _ = outcome(session, f"STOR {name}", b"x")
                holds(code in (550, 553), f"STOR {name} is answered {code} {text}")
            same(session.fetch("NLST"), b"", "the names")


def tells_files_from_directories(words, mode):
    """Neither is taken for the other, whatever stands behind its name, and what is missing is neither."""
    with Gateway(words, mode) as gateway, let_in(gateway) as session:
        (gateway.home / "sub/in").mkdir(parents=True)
        (gateway.home / "file").write_bytes(DATA)
        before = tree(gateway.home)
        holds([line[:1] for line in names_in(session, "LIST")] == [b"-", b"d"], "LIST tells other kinds")
        holds([line.partition(b";")[0] for line in names_in(session, "MLSD")] == [b"type=file", b"type=dir"], "MLSD tells other kinds")
        for path in "sub", "sub/", "/sub/.", ".", "/", "..", "sub/in/..", "none", "none/file", "file/none", "file/..x":
            is_refused(session, f"RETR {path}", 550)
        for path in "sub", "sub/", "/sub/.", ".", "/", "..", "none/file", "file/none":
            for word in "STOR", "APPE":
                code, text, _ = outcome(session, f"{word} {path}", b"x")
                holds(code in (550, 553), f"{word} {path} is answered {code} {text}")
        for path in "file", "none", "file/none", "none/..x":
            holds(session.ask(f"CWD {path}")[0] == 550, f"CWD {path} is taken")
        for path in "none", "file/none", "none/..x":
            for word in "LIST", "NLST", "MLSD":
                is_refused(session, f"{word} {path}", 550)
        for path in "sub/", "/sub/./in/..", "sub//in/../../sub":
            session.tell(f"CWD {path}", 250)
            same(names_in(session), [b"in"], f"the names of {path}")
            session.tell("CWD /", 250)
        session.store("STOR sub//./in/../new", DATA)
        same_tree(gateway.home, {**before, "sub/new": DATA})


def takes_one_upload_of_a_path_at_a_time(words, mode):
    with Gateway(words, mode) as gateway:
        first, second = let_in(gateway), let_in(gateway)
        with first, second:
            stream = first.link()
            first.tell("STOR one", 150)
            stream.sendall(DATA)
            holds(wait_for(lambda: (gateway.home / "one").exists()), "no file of the first upload")
            is_refused(second, "STOR one", 450, b"other")
            is_refused(second, "APPE one", 450, b"other")
            second.store("STOR two", DATA)
            stream.close()
            first.expect(226)
            same((gateway.home / "one").read_bytes(), DATA)
            second.store("STOR one", b"other")
        same_tree(gateway.home, {"one": b"other", "two": DATA})


def reads_a_file_that_is_replaced(words, mode):
    """A download goes on in the file that it began, where another takes its name meanwhile."""
    old, new = body(3 << 20, 1), body(3 << 20, 2)
    with Gateway(words, mode) as gateway, let_in(gateway) as session:
        (gateway.home / "file").write_bytes(old)
        stream = session.link()
        session.tell("RETR file", 150)
        got = stream.recv(1)
        (gateway.home / "next").write_bytes(new)
        os.replace(gateway.home / "next", gateway.home / "file")
        got += wire.drained(stream)
        session.expect(226)
        same(got, old, "those of the file that was replaced")
        same(session.fetch("RETR file"), new, "those of the file in its place")


def lists_a_large_directory(words, mode):
    """Each of very many names, in byte order, in each of the three listings."""
    with Gateway(words, mode) as gateway, let_in(gateway) as session:
        session.control.settimeout(wire.PATIENCE * 20)
        large = gateway.home / "large"
        large.mkdir()
        names = sorted(b"file-%x" % i for i in range(NAMES))
        for name in names:
            os.close(os.open(os.fsencode(large) + b"/" + name, os.O_CREAT | os.O_WRONLY, 0o644))
        for word in "NLST", "MLSD", "LIST":
            lines = fetched_slowly(session, f"{word} large")
            same([line.rpartition(b" ")[2] for line in lines], names, f"the names of {word}")
        session.tell("CWD large", 250)
        session.store("STOR new", DATA)
        same((large / "new").read_bytes(), DATA)


def fetched_slowly(session, line):
    """The lines of a listing that may take minutes in an unproved build."""
    stream = session.link()
    stream.settimeout(wire.PATIENCE * 20)
    session.tell(line, 150)
    lines = wire.drained(stream).split(b"\r\n")
    session.expect(226)
    holds(lines.pop() == b"", "a listing without CR LF at its end")
    return lines


CASES = [
    keeps_names_as_they_are,
    refuses_names_that_no_file_has,
    shows_no_line_that_is_no_file,
    follows_no_link,
    serves_a_root_that_is_a_link,
    opens_files_alone,
    tells_files_from_directories,
    takes_one_upload_of_a_path_at_a_time,
    reads_a_file_that_is_replaced,
    lists_a_large_directory,
]


def run(tally, words, mode):
    for case in CASES:
        tally.case(f"{mode} the gateway {case.__name__.replace('_', ' ')}", case, words, mode)
