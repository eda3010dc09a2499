"""The cases on uploads that come whole, which trials/gateway.py runs in each mode."""

import os
import signal

import wire
from cases import holds, same
from endings import LARGE
from gateways import WRITER, Gateway, same_tree, user_line
from homes import DATA, is_refused, let_in, names_in, wait_for

MARK = ".ftp-upload-"
WHOLE = {"whole_uploads": True}


def left(home):
    """What uploads have beside their paths."""
    return [path for path in home.rglob("*") if path.name.startswith(MARK)]


def begun(gateway, session, name):
    """The data connection of an upload to a name, of which the front has come."""
    stream = session.link()
    session.tell(f"STOR {name}", 150)
    stream.sendall(LARGE[: 2 * len(DATA)])
    holds(wait_for(lambda: any(path.stat().st_size >= len(DATA) for path in left(gateway.home))), "nothing is written beside the path")
    return stream


def keeps_what_was_there_where_it_was_killed(command, mode):
    """A SIGKILL in the midst of an upload: what was there before stands, what came is in no listing, and is gone at the next start."""
    with Gateway(command, mode) as gateway:
        home = gateway.home
        (home / "below").mkdir()
        for name in "old", "below/old":
            (home / name).write_bytes(DATA)
        with Gateway(command, mode, home=home, keys=WHOLE) as killed:
            with let_in(killed) as session, let_in(killed) as other, let_in(killed) as looker:
                streams = begun(killed, session, "old"), begun(killed, other, "below/old")
                holds(names_in(looker) == [b"below", b"old"], "an upload is listed before its end")
                same(looker.fetch("RETR old"), DATA)
                os.killpg(killed.process.pid, signal.SIGKILL)
                killed.process.wait(5)
                for stream in streams:
                    stream.close()
        holds(len(left(home)) == 2, f"there are {left(home)}")
        for name in "old", "below/old":
            same((home / name).read_bytes(), DATA)
        with Gateway(command, mode, home=home, keys=WHOLE) as again:
            same_tree(home, {"below": None, "below/old": DATA, "old": DATA})
            with let_in(again) as session:
                session.store("STOR old", LARGE)
                same(session.fetch("RETR old"), LARGE)
        same_tree(home, {"below": None, "below/old": DATA, "old": LARGE})


def keeps_what_was_there_where_an_upload_is_cut_off(command, mode):
    """What stood at the path stands until an upload has come whole; one with an offset, and an APPE, write to the file itself."""
    with Gateway(command, mode, keys=WHOLE) as gateway:
        home = gateway.home
        (home / "old").write_bytes(DATA)
        with let_in(gateway) as session:
            wire.reset(begun(gateway, session, "old"))
            session.expect(426)
            same_tree(home, {"old": DATA})
            wire.reset(begun(gateway, session, "new"))
            session.expect(426)
            same_tree(home, {"old": DATA})
            is_refused(session, f"STOR {MARK}old", 553, DATA)
            session.store("STOR old", b"front")
            session.store("STOR old", b"behind", len(b"front"))
            session.store("APPE old", b" and end")
            shown = session.store("STOU", LARGE)
            same_tree(home, {"old": b"frontbehind and end", shown.split()[-1]: LARGE})


def holds_both_files_against_a_budget(command, mode):
    """Until an upload has come whole the budget holds what it replaces too; one that does not fit leaves all as it was."""
    with Gateway(command, mode) as gateway:
        home = gateway.folder / "bounded"
        home.mkdir()
        (home / "old").write_bytes(DATA)
        users = [user_line(WRITER, home, budget=str(2 * len(DATA)))]
        with Gateway(command, mode, home=home, users=users, keys=WHOLE) as other, let_in(other) as session:
            session.store("STOR old", DATA[::-1])
            same_tree(home, {"old": DATA[::-1]})
            is_refused(session, "STOR old", 552, DATA + b"x")
            same_tree(home, {"old": DATA[::-1]})
            session.store("STOR new", DATA)
            is_refused(session, "STOR old", 552, b"x")
            same_tree(home, {"new": DATA, "old": DATA[::-1]})


WHOLES = [
    keeps_what_was_there_where_it_was_killed,
    keeps_what_was_there_where_an_upload_is_cut_off,
    holds_both_files_against_a_budget,
]


def run(tally, command, mode):
    for case in WHOLES:
        tally.case(f"{mode} the gateway {case.__name__.replace('_', ' ')}", case, command, mode)
