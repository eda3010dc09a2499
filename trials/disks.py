"""The cases on disks that are full or may not be written, on rights, and on files beyond 4 GiB, which trials/gateway.py runs in each mode."""

import contextlib
import os
import pwd
import shutil
import subprocess
from pathlib import Path

from cases import Skipped, body, holds, same
from gateways import Gateway, same_tree
from homes import DATA, is_refused, let_in, names_in, outcome

ROOM = 4 << 20
GIB = 1 << 30
WHO = "nobody"


@contextlib.contextmanager
def mounted(gateway, *words):
    """Something is mounted at the home."""
    if os.geteuid() != 0:
        raise Skipped("only root can mount")
    done = subprocess.run(["mount", *words, str(gateway.home)], capture_output=True, check=False)
    if done.returncode != 0:
        raise Skipped(f"nothing can be mounted here: {done.stderr.decode().strip()}")
    try:
        yield
    finally:
        subprocess.run(["umount", "-l", str(gateway.home)], check=True)


def tells_that_the_disk_is_full(words, mode):
    """An upload that does not fit is told so, what fitted stays, and nothing else is lost."""
    with Gateway(words, mode) as gateway, mounted(gateway, "-t", "tmpfs", "-o", f"size={ROOM}", "tmpfs"):
        data = body(3 * ROOM)
        (gateway.home / "kept").write_bytes(DATA)
        with let_in(gateway) as session:
            for line in "STOR large", "APPE large", "STOR other":
                code, text, _ = outcome(session, line, data)
                holds(code == 452, f"{line} on a full disk is answered {code} {text}")
                if line == "STOR large":
                    got = (gateway.home / "large").read_bytes()
            same(got, data[: len(got)], "the part that fitted")
            same((gateway.home / "large").read_bytes()[: len(got)], got, "what stood before an append")
            holds(len(got) > ROOM // 2, f"{len(got)} bytes fitted")
            same(session.fetch("RETR kept"), DATA)
            (gateway.home / "large").unlink()
            session.store("STOR other", DATA)
        same_tree(gateway.home, {"kept": DATA, "other": DATA})


def changes_nothing_that_is_mounted_to_be_read(words, mode):
    with Gateway(words, mode) as gateway:
        source = gateway.folder / "source"
        source.mkdir()
        (source / "kept").write_bytes(DATA)
        with mounted(gateway, "-o", "bind,ro", str(source)), let_in(gateway) as session:
            for line in "STOR kept", "STOR new", "APPE kept", "STOU":
                is_refused(session, line, 550, b"other")
            same(session.fetch("RETR kept"), DATA)
            same(names_in(session), [b"kept"], "the names")
        same_tree(source, {"kept": DATA})


def lay_rights(home):
    """Files and directories of a user, of which some are root's or closed."""
    user = pwd.getpwnam(WHO)
    for name in "own", "closed", "kept", "of-root":
        (home / name).write_bytes(DATA)
    for name in "shut", "unlisted", "unwritten":
        (home / name).mkdir()
        (home / name / "in").write_bytes(DATA)
    for path in (home, *home.rglob("*")):
        os.chown(path, user.pw_uid, user.pw_gid)
    os.chown(home / "of-root", 0, 0)
    modes = {"closed": 0o000, "kept": 0o444, "of-root": 0o600, "shut": 0o000, "unlisted": 0o311, "unwritten": 0o555}
    for name, rights in modes.items():
        (home / name).chmod(rights)


def has_the_rights_of_its_user(words, mode):
    """A gateway that runs as nobody reads and writes what nobody may."""
    if os.geteuid() != 0 or not shutil.which("setpriv"):
        raise Skipped("it takes root and setpriv")
    program = Path(shutil.copy(words[0], "/dev/shm" if os.access("/dev/shm", os.W_OK) else "/var/tmp")) if len(words) == 1 else None
    if program is None:
        raise Skipped("the program is a command of several words")
    try:
        program.chmod(0o755)
        as_nobody(program, mode)
    finally:
        program.unlink()


def as_nobody(program, mode):
    user = pwd.getpwnam(WHO)
    prefix = ["setpriv", f"--reuid={user.pw_uid}", f"--regid={user.pw_gid}", "--clear-groups"]
    with Gateway([str(program)], mode, keys={"control_socket": None}, prefix=prefix) as gateway:
        lay_rights(gateway.home)
        with let_in(gateway) as session:
            same(session.fetch("RETR own"), DATA)
            same(session.fetch("RETR kept"), DATA)
            same(session.fetch("RETR unlisted/in"), DATA)
            for path in "closed", "of-root", "shut/in":
                is_refused(session, f"RETR {path}", 550)
            for path in "closed", "kept", "of-root", "shut/in", "unwritten/new":
                is_refused(session, f"STOR {path}", 550, b"x")
            for path in "shut", "unlisted":
                is_refused(session, f"NLST {path}", 550)
            same(names_in(session, "NLST unwritten"), [b"in"], "the names")
            session.store("STOR new", DATA)
            session.store("STOR own", b"own")
        holds((gateway.home / "new").stat().st_uid == user.pw_uid, "a file of another user")
        same((gateway.home / "own").read_bytes(), b"own")
        same((gateway.home / "kept").read_bytes(), DATA)


def serves_files_beyond_four_gib(words, mode):
    """A file of 5 GiB, whose length is listed, and which is read and written from offsets behind 4 GiB on."""
    with Gateway(words, mode) as gateway:
        large = gateway.home / "large"
        with open(large, "wb") as file:
            file.truncate(5 * GIB)
            file.seek(5 * GIB - len(DATA))
            file.write(DATA)
        if large.stat().st_blocks * 512 > GIB:
            raise Skipped("the file system has no sparse files")
        with let_in(gateway) as session:
            holds(str(5 * GIB).encode() in session.fetch("LIST"), "another length in LIST")
            holds(f"size={5 * GIB};".encode() in session.fetch("MLSD"), "another length in MLSD")
            for before in len(DATA), 100, 1, 0:
                same(session.fetch("RETR large", 5 * GIB - before), DATA[len(DATA) - before :], f"the last {before}")
            same(session.fetch("RETR large", 5 * GIB - len(DATA) - 1000), bytes(1000) + DATA, "those behind a hole")
            session.store("STOR large", DATA, 4 * GIB + 12345)
            holds(large.stat().st_size == 4 * GIB + 12345 + len(DATA), f"it has {large.stat().st_size} bytes")
            same(session.fetch("RETR large", 4 * GIB + 12345), DATA)
            session.store("APPE large", b"end")
            session.store("STOR fresh", DATA, 4 * GIB + 1)
        with open(large, "rb") as file:
            file.seek(4 * GIB + 12345 - 1000)
            same(file.read(), bytes(1000) + DATA + b"end", "those of the directory")
        with open(gateway.home / "fresh", "rb") as file:
            file.seek(4 * GIB - 999)
            same(file.read(), bytes(1000) + DATA, "those of a new file")


def refuses_offsets_that_no_file_has(words, mode):
    with Gateway(words, mode) as gateway, let_in(gateway) as session:
        (gateway.home / "file").write_bytes(DATA)
        for offset in 2**63 - 1, 2**63, 2**64 - 1:
            session.tell(f"REST {offset}", 350)
            code, text, _ = outcome(session, "STOR file", b"x")
            holds(code in (550, 552, 553, 452), f"an upload at {offset} is answered {code} {text}")
            session.tell(f"REST {offset}", 350)
            code, text, got = outcome(session, "RETR file")
            holds(not got and code in (226, 550, 554), f"a download from {offset} is answered {code} {text} with {len(got)} bytes")
        same(session.fetch("RETR file"), DATA)


CASES = [
    tells_that_the_disk_is_full,
    changes_nothing_that_is_mounted_to_be_read,
    has_the_rights_of_its_user,
    serves_files_beyond_four_gib,
    refuses_offsets_that_no_file_has,
]


def run(tally, words, mode):
    for case in CASES:
        tally.case(f"{mode} the gateway {case.__name__.replace('_', ' ')}", case, words, mode)


