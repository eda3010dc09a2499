"""The cases on users, their homes and rights, on links and on names, which trials/gateway.py runs in each mode."""

import contextlib
import os
import socket
import time
from pathlib import Path

import wire
from cases import body, holds, same
from gateways import PASSWORD, READER, WRITER, Gateway, hash_of, same_tree, user_line

ELSEWHERE = "127.0.0.2"
DATA = body(50000)
# Rounds that take long enough to be told from none.
SLOW_ROUNDS = int(os.environ.get("GATEWAY_SLOW_ROUNDS", "1000"))


def greeted(gateway, source="127.0.0.1"):
    return wire.Session(gateway.door(), source)


def let_in(gateway, name=WRITER, password=PASSWORD, source="127.0.0.1"):
    return greeted(gateway, source).login(name, password)


def answer(session, name, password):
    """The code of the reply to a password."""
    session.tell(f"USER {name}", 331)
    return session.ask(f"PASS {password}")


def is_let_in(gateway, name, password=PASSWORD, source="127.0.0.1"):
    with greeted(gateway, source) as session:
        return answer(session, name, password)[0] == 230


def outcome(session, line, data=b""):
    """What becomes of a transfer: its last code, the text of it, and what came."""
    with session.link() as stream:
        code, text = session.ask(line)
        if code != 150:
            return code, text, b""
        got = b""
        try:
            stream.sendall(data)
            stream.shutdown(socket.SHUT_WR)
            while piece := stream.recv(wire.PIECE):
                got += piece
        except OSError:
            pass  # a transfer that is refused is cut off
    return *session.reply(), got


def is_refused(session, line, code, data=b""):
    got = outcome(session, line, data)
    holds(got[0] == code and not got[2], f"{line} is answered {got[0]} {got[1]} with {len(got[2])} bytes, and {code} is due")


def wait_for(fact, seconds=10):
    """Whether it holds within some seconds."""
    until = time.monotonic() + seconds
    while not fact():
        if time.monotonic() > until:
            return False
        time.sleep(0.02)
    return True


def names_in(session, line="NLST"):
    lines = session.fetch(line).split(b"\r\n")
    holds(lines.pop() == b"", "a listing without CR LF at its end")
    return lines


def lets_in_by_the_right_password_alone(words, mode):
    with Gateway(words, mode) as gateway:
        wrong = ["", "secre", "secret ", "secrets", "Secret", "x", hash_of(PASSWORD), "s" * 4000]
        texts = set()
        for password in wrong:
            with greeted(gateway) as session:
                code, text = answer(session, WRITER, password)
                holds(code == 530, f"the password {password[:20]!r} is answered {code} {text}")
                texts.add(text)
                session.tell("PASV", 530)
                holds(answer(session, WRITER, PASSWORD)[0] == 230, "the right one behind it is refused")
        for name in "nobody", "Ann", "an", "annn", "gone":
            with greeted(gateway) as session:
                code, text = answer(session, name, PASSWORD)
                holds(code == 530, f"{name} is answered {code} {text}")
                texts.add(text)
        holds(len(texts) == 1, f"the replies tell names from passwords: {texts}")
        holds(is_let_in(gateway, "anonymous", "whoever@example.org"), "anonymous is not let in")


def takes_as_long_for_a_name_that_nobody_has(words, mode):
    rounds = SLOW_ROUNDS
    took = times_with(rounds, words, mode)
    while took[WRITER] < 0.02:
        rounds *= 10
        took = times_with(rounds, words, mode)
    ratio = took["nobody"] / took[WRITER]
    holds(0.5 < ratio < 2, f"a name that nobody has takes {ratio:.2f} of the time of one that somebody has")


def times_with(rounds, words, mode):
    """How long wrong passwords of a user and of nobody take, where a hash has so many rounds."""
    with Gateway(words, mode) as gateway:
        slow = user_line(WRITER, gateway.home, secret=hash_of(PASSWORD, rounds))
        with Gateway(words, mode, home=gateway.home, users=[slow]) as other:
            took = {}
            for name in WRITER, "nobody":
                with greeted(other) as session:
                    took[name] = min(time_of(session, name) for _ in range(5))
            return took


def time_of(session, name):
    session.tell(f"USER {name}", 331)
    began = time.monotonic()
    session.tell("PASS wrong", 530)
    return time.monotonic() - began


def busy_threads(process):
    """How many threads of a process run, or wait for a processor."""
    states = []
    for task in Path(f"/proc/{process.pid}/task").iterdir():
        try:
            states.append((task / "stat").read_text().rpartition(")")[2].split()[0])
        except OSError:
            pass  # it has ended
    return states.count("R")


def checks_passwords_with_half_of_the_processors(words, mode):
    """While more log in than there are processors; one thread may be at other work."""
    processors = len(os.sched_getaffinity(0))
    rounds = SLOW_ROUNDS
    while times_with(rounds, words, mode)[WRITER] < 0.1:
        rounds *= 10
    slow = hash_of(PASSWORD, rounds)
    with Gateway(words, mode) as gateway:
        users = [user_line(WRITER, gateway.home, secret=slow)]
        with Gateway(words, mode, users=users) as other, contextlib.ExitStack() as stack:
            sessions = [stack.enter_context(greeted(other)) for _ in range(2 * processors)]
            for session in sessions:
                session.tell(f"USER {WRITER}", 331)
            for session in sessions:
                session.control.sendall(f"PASS {PASSWORD}\r\n".encode())
            busy = 0
            for _ in range(30):
                time.sleep(0.01)
                busy = max(busy, busy_threads(other.process))
            for session in sessions:
                session.expect(230)
    holds(0 < busy <= max(1, processors // 2) + 1, f"{busy} threads are busy at once")


def locks_an_address(words, mode):
    """Where failed logins of an address are counted, that address is locked, another is not, and it ends."""
    with Gateway(words, mode, keys={"lockout": "ip", "lockout_failures": 3, "lockout_forget": 4}) as gateway:
        for _ in range(3):
            holds(not is_let_in(gateway, WRITER, "wrong"), "a wrong password is let in")
        holds(not is_let_in(gateway, WRITER), "the address is not locked")
        holds(not is_let_in(gateway, READER), "another name of that address is not locked")
        holds(is_let_in(gateway, WRITER, source=ELSEWHERE), "another address is locked")
        time.sleep(5)
        holds(is_let_in(gateway, WRITER), "the address stays locked")


def locks_a_name(words, mode):
    with Gateway(words, mode, keys={"lockout": "user", "lockout_failures": 3, "lockout_forget": 60}) as gateway:
        for source in "127.0.0.3", "127.0.0.4", "127.0.0.5":
            holds(not is_let_in(gateway, WRITER, "wrong", source), "a wrong password is let in")
        holds(not is_let_in(gateway, WRITER, source=ELSEWHERE), "the name is not locked")
        holds(is_let_in(gateway, READER, source="127.0.0.3"), "another name is locked")


def locks_by_default(words, mode):
    """Without a word of the configuration five failed logins lock their address."""
    with Gateway(words, mode, keys={"lockout": None}) as gateway:
        for _ in range(4):
            is_let_in(gateway, WRITER, "wrong")
        holds(is_let_in(gateway, WRITER), "four failed logins lock")
        for _ in range(5):
            is_let_in(gateway, WRITER, "wrong")
        holds(not is_let_in(gateway, WRITER), "five failed logins do not lock")


def has_so_many_sessions(words, mode):
    """Of an address, and of all; one that ends makes room."""
    with Gateway(words, mode, keys={"max_per_ip": 3, "max_clients": 5}) as gateway:
        first = [let_in(gateway) for _ in range(3)]
        holds(greeting(gateway) == 421, "a fourth session of an address is greeted")
        others = [let_in(gateway, source=ELSEWHERE) for _ in range(2)]
        holds(greeting(gateway, "127.0.0.3") == 421, "a sixth session of all is greeted")
        first.pop().quit()
        holds(wait_for(lambda: greeting(gateway, "127.0.0.3") == 220), "no room behind the end of a session")
        for session in *first, *others:
            session.tell("NOOP", 200)
            session.close()


def greeting(gateway, source="127.0.0.1"):
    with gateway.door().dial(source) as stream:
        return int(stream.recv(4)[:3] or b"0")


def keeps_a_reader_from_writing(words, mode):
    with Gateway(words, mode) as gateway:
        (gateway.home / "kept").write_bytes(DATA)
        with let_in(gateway, READER) as session:
            for line in "STOR kept", "STOR new", "APPE kept", "APPE new", "STOU":
                is_refused(session, line, 550, b"other")
            session.tell("REST 5", 350)
            is_refused(session, "STOR kept", 550, b"other")
            session.tell("REST 0", 350)
            same(session.fetch("RETR kept"), DATA)
            same(names_in(session), [b"kept"], "the names")
        same_tree(gateway.home, {"kept": DATA})


def stays_below_the_root(words, mode):
    """Whatever a path says, it leads to the home or below it."""
    with Gateway(words, mode) as gateway:
        (gateway.folder / "outside.txt").write_bytes(b"outside")
        (gateway.home / "a/b/c").mkdir(parents=True)
        (gateway.home / "outside.txt").write_bytes(b"inside")
        (gateway.home / "a/outside.txt").write_bytes(b"of a")
        up = "../" * 12
        with let_in(gateway) as session:
            for path in "../outside.txt", "/../outside.txt", f"{up}outside.txt", "/a/../../outside.txt", "a/b/c/../../../../outside.txt":
                same(session.fetch(f"RETR {path}"), b"inside", path)
            for path in f"{up}etc/passwd", "/etc/passwd", f"{gateway.folder}/outside.txt", "..", "/..":
                is_refused(session, f"RETR {path}", 550)
            session.tell("CWD a/b/c", 250)
            same(session.fetch("RETR ../../outside.txt"), b"of a")
            session.tell("CWD ../../../../..", 250)
            same(names_in(session), [b"a", b"outside.txt"], "the names above the root")
            session.store(f"STOR {up}new", DATA)
        same((gateway.home / "new").read_bytes(), DATA)
        same((gateway.folder / "outside.txt").read_bytes(), b"outside")
        holds(not (gateway.folder / "new").exists(), "a file outside")


def has_a_home_for_each(words, mode):
    """Two users of one gateway, each of whom finds his own files alone."""
    with Gateway(words, mode) as gateway:
        homes = [gateway.folder / name for name in ("one", "two")]
        for home in homes:
            home.mkdir()
        lines = [user_line(home.name, home) for home in homes]
        with Gateway(words, mode, users=lines) as other:
            for home in homes:
                with let_in(other, home.name) as session:
                    session.store("STOR own", home.name.encode() * 1000)
                    same(session.fetch("RETR own"), home.name.encode() * 1000)
                    is_refused(session, "RETR ../two/own", 550)
            for home in homes:
                same_tree(home, {"own": home.name.encode() * 1000})


def keeps_a_session_to_its_login(words, mode):
    """A session that is logged in does not become another user's."""
    with Gateway(words, mode) as gateway:
        mine = gateway.folder / "mine"
        mine.mkdir()
        (mine / "own").write_bytes(b"mine")
        users = [user_line(READER, mine, "ro"), user_line(WRITER, gateway.home)]
        with Gateway(words, mode, users=users) as other, let_in(other, READER) as session:
            session.tell(f"USER {WRITER}", 503)
            session.tell(f"PASS {PASSWORD}", 530)
            same(session.fetch("RETR own"), b"mine")
            is_refused(session, "STOR own", 550, b"x")


USERS = [
    lets_in_by_the_right_password_alone,
    takes_as_long_for_a_name_that_nobody_has,
    checks_passwords_with_half_of_the_processors,
    locks_an_address,
    locks_a_name,
    locks_by_default,
    has_so_many_sessions,
    keeps_a_reader_from_writing,
    stays_below_the_root,
    has_a_home_for_each,
    keeps_a_session_to_its_login,
]


def run(tally, words, mode):
    for case in USERS:
        tally.case(f"{mode} the gateway {case.__name__.replace('_', ' ')}", case, words, mode)
