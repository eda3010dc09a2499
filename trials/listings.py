"""The cases on patterns, files and options in listings, and on EPSV, which trials/gateway.py runs in each mode."""

import fnmatch
import os
import re
import time

import wire
from cases import body, holds, same
from gateways import Gateway
from homes import DATA, greeted, is_refused, let_in, names_in

NAMES = ["a.txt", "b.txt", ".txt", "a.txt.gz", "axb", "ab", "a-b.b-c", "with space.txt", "ü.txt", "[a]", "\\"]
PATTERNS = ["*.txt", "*", "**", "a?b", "a*", "?*.*", "*a*b*c", "??", "???", "[a]*", "*x*x*", "with *.txt", "?.txt", "*.none", "\\*"]
# The longest name that a file may have, and a pattern of that length that no name of so many equal bytes matches.
LONGEST = 255
LONG_PATTERN = "*a" * (LONGEST // 2) + "b"
SOON = 20


def matching(names, pattern):
    """The names that Python's fnmatch tells, byte for byte; a bracket is a byte like others."""
    return [name for name in names if fnmatch.fnmatchcase(name, pattern.encode().replace(b"[", b"[[]"))]


def lay_names(folder):
    """Files of many kinds of names and a directory; the names, in order of their bytes."""
    (folder / "dir.txt/in").mkdir(parents=True)
    for i, name in enumerate(NAMES):
        (folder / name).write_bytes(body(100 + i, i))
    return sorted(os.listdir(os.fsencode(folder)))


def lists_what_matches_a_pattern(words, mode):
    """LIST and NLST of a pattern have the lines of those names in the directory before it that match, and of no others."""
    with Gateway(words, mode) as gateway, let_in(gateway) as session:
        names = lay_names(gateway.home / "sub")
        lines = dict(zip(names, names_in(session, "LIST sub")))
        holds(len(lines) == len(NAMES) + 1 and all(line.endswith(b" " + name) for name, line in lines.items()), "LIST has other lines")
        for pattern in PATTERNS:
            due = matching(names, pattern)
            for path in f"sub/{pattern}", f"/sub/./{pattern}", f"../none/../sub/{pattern}":
                same(names_in(session, f"NLST {path}"), due, f"the names of {path}")
            same(names_in(session, f"LIST sub/{pattern}"), [lines[name] for name in due], f"the lines of {pattern}")
        session.tell("CWD sub", 250)
        same(names_in(session, "NLST a*"), matching(names, "a*"), "the names below")
        same(names_in(session, "NLST ../../../*"), [b"sub"], "the names in the root")


def takes_a_pattern_in_the_last_name_alone(words, mode):
    """Elsewhere a pattern is a name like others, and so is one that a file has, or one before which no directory stands."""
    with Gateway(words, mode) as gateway, let_in(gateway) as session:
        for path in "sub/in", "other/in", "odd":
            (gateway.home / path).mkdir(parents=True)
        for path in "sub/in/file", "other/in/file", "odd/*", "odd/a", "file":
            (gateway.home / path).write_bytes(DATA)
        for path in "s*/in/*", "s?b/in", "*/in", "*/*", "none/*", "file/*", "*/../none":
            for word in "LIST", "NLST":
                is_refused(session, f"{word} {path}", 550)
        same(names_in(session, "NLST odd/*"), [b"*"], "the names of a file that is named so")
        same(names_in(session, "NLST odd/?*"), [b"*", b"a"], "the names beside it")
        for line in "RETR fil?", "RETR *":
            is_refused(session, line, 550)
        holds(session.ask("CWD s*")[0] == 550, "CWD takes a pattern")


def answers_a_long_pattern_soon(words, mode):
    with Gateway(words, mode) as gateway, let_in(gateway) as session:
        (gateway.home / ("a" * LONGEST)).write_bytes(DATA)
        begun = time.monotonic()
        same(names_in(session, f"NLST {LONG_PATTERN}"), [], "the names")
        took = time.monotonic() - begun
        holds(took < SOON, f"it took {took:.1f} s")
        same(names_in(session, f"NLST {LONG_PATTERN[:-1]}*"), [b"a" * LONGEST], "the names of one that matches")
        is_refused(session, f"NLST {LONG_PATTERN}{LONG_PATTERN}", 550)


def lists_a_file_as_itself(words, mode):
    """LIST of a file has its line, as that of its directory has it, NLST its name, and MLSD is refused."""
    with Gateway(words, mode) as gateway, let_in(gateway) as session:
        (gateway.home / "sub").mkdir()
        (gateway.home / "sub/file").write_bytes(DATA)
        (gateway.home / "sub/other").write_bytes(DATA[:7])
        line = names_in(session, "LIST sub")[0]
        holds(line.endswith(b" file") and b" %d " % len(DATA) in line, f"LIST has the line {line}")
        for path in "sub/file", "/sub/./file", "sub/../sub/file", "sub/fil?", "sub/f*":
            same(names_in(session, f"LIST {path}"), [line], f"the lines of {path}")
            same(names_in(session, f"NLST {path}"), [b"file"], f"the names of {path}")
            is_refused(session, f"MLSD {path}", 550)
        session.tell("CWD sub", 250)
        same(names_in(session, "LIST file"), [line], "the lines in its directory")


def passes_over_options_of_listings(words, mode):
    """LIST's options are none of its path. NLST has none, so what begins with a hyphen and has no blank is passed over, unless there is a file of that name."""
    with Gateway(words, mode) as gateway, let_in(gateway) as session:
        (gateway.home / "sub").mkdir()
        for path in "a.txt", "b", ".hidden", "sub/in":
            (gateway.home / path).write_bytes(DATA)
        for line, due in {
            "LIST -la": "LIST",
            "LIST -a": "LIST",
            "LIST -R": "LIST",
            "LIST -a sub": "LIST sub",
            "LIST -l -a -- sub": "LIST sub",
            "LIST -a *.txt": "LIST a.txt",
            "NLST -a": "NLST",
            "NLST -la": "NLST",
            "NLST -CF": "NLST",
        }.items():
            same(names_in(session, line), names_in(session, due), f"the lines of {line}")
        same(names_in(session, "NLST"), [b".hidden", b"a.txt", b"b", b"sub"], "the names")
        for line in "NLST -a none", "NLST sub/-a":
            is_refused(session, line, 550)
        session.tell("CWD sub", 250)
        same(names_in(session, "NLST -a"), [b"in"], "the names below")
        session.tell("CWD /", 250)
        (gateway.home / "-a").mkdir()
        (gateway.home / "-a/own").write_bytes(DATA)
        same(names_in(session, "NLST -a"), [b"own"], "the names of a directory that is named so")


def opens_a_port_by_epsv(words, mode):
    """The 229 has the port where a data connection comes; only version 4 is taken, and nothing before a login."""
    with Gateway(words, mode) as gateway:
        (gateway.home / "file").write_bytes(DATA)
        with greeted(gateway) as session:
            session.tell("EPSV", 530)
        with let_in(gateway) as session:
            for line in "EPSV", "epsv 1":
                shown = session.tell(line, 229)
                found = re.fullmatch(r"Entering Extended Passive Mode \(\|\|\|(\d+)\|\)", shown)
                holds(found, f"{line} is answered {shown}")
                stream = session.door.dial(session.source, int(found[1]))
                session.tell("RETR file", 150)
                same(wire.drained(stream), DATA)
                session.expect(226)
            session.tell("EPSV 2", 522)
            session.tell("EPSV ALL", 200)


CASES = [
    lists_what_matches_a_pattern,
    takes_a_pattern_in_the_last_name_alone,
    answers_a_long_pattern_soon,
    lists_a_file_as_itself,
    passes_over_options_of_listings,
    opens_a_port_by_epsv,
]


def run(tally, words, mode):
    for case in CASES:
        tally.case(f"{mode} the gateway {case.__name__.replace('_', ' ')}", case, words, mode)
