"""The cases on how the gateway starts, is told things, and ends, which trials/gateway.py runs."""

import hashlib
import os
import signal
import socket
import subprocess
import threading
import time

import sessions
import starting
import wire
from cases import body, holds, same
from gateways import READER, WRITER, Gateway, hash_of, same_tree, toml_of, user_line
from homes import DATA, greeting, is_let_in, is_refused, let_in, outcome, wait_for
from programs import HOST, OPENING

USAGE = 64
# More than the buffers between a client and a server hold.
SMALL = body(4096)
LARGE = body(int(os.environ.get("GATEWAY_MIB", "20")) << 20)
NO_COMMANDS = ["", "serve", "check", "stop", "reload", "status", "serve x y", "check x y", "start x", "SERVE x", "--help x", "--version --help"]
WRONG_KEYS = [
    ("nokey = 1", "nokey"),
    ("listen = 21", "listen"),
    ('mode = "shared"', "mode"),
    ("pasv_min_port = 0", "pasv_min_port"),
    ("pasv_max_port = 65536", "pasv_max_port"),
    ("max_clients = 0", "max_clients"),
    ('max_per_ip = "20"', "max_per_ip"),
    ("port_enable = 1", "port_enable"),
    ('whole_uploads = "yes"', "whole_uploads"),
    ('lockout = "all"', "lockout"),
    ("idle_session_timeout = -1", "idle_session_timeout"),
    ("banner", "line 2"),
]
# Values that keys take, and of which no server can be made.
UNSERVED = [
    ("pasv_min_port = 20099\npasv_max_port = 20000", "empty passive port range"),
    ('listen = "nowhere"', "could not parse address"),
    ('listen = "localhost:2121"', "could not parse address"),
    ('listen = "[::1]:2121"', "IPv6 outside legacy mode"),
]
WRONG_LINES = [
    "ann",
    "ann::rw:/srv",
    "ann:secret:rw:/srv",
    "ann:*:rwx:/srv",
    "ann:*:rw:srv",
    "ann:*:rw:/srv:ten",
    ":*:rw:/srv",
    "ann:$pbkdf2-sha256$0$00$" + "0" * 64 + ":rw:/srv",
    "ann:$pbkdf2-sha256$1$00$" + "0" * 63 + ":rw:/srv",
    "ann:$pbkdf2-sha512$1$00$" + "0" * 64 + ":rw:/srv",
]


def run_words(command, *words, said=b"", patience=OPENING):
    """Runs the program, which is to end: its status and what it writes to standard output."""
    done = subprocess.run([*command, *words], input=said, capture_output=True, timeout=patience, check=False)
    return done.returncode, done.stdout.decode("latin-1")


def refuses_what_is_no_command(command, _):
    for line in NO_COMMANDS:
        got = run_words(command, *line.split())
        holds(got == (USAGE, ""), f"{line!r} is answered {got}")


def tells_of_itself(command, _):
    status, text = run_words(command, "--help")
    holds(status == 0 and "serve FILE" in text, f"--help is answered {status} {text}")
    status, text = run_words(command, "--version")
    holds(status == 0 and text.startswith("ftp_gateway ") and text.count("\n") == 1, f"--version is answered {status} {text}")


def checked(command, folder, keys, users):
    (folder / "checked.toml").write_text(f'users_file = "{folder}/checked.users"\n{keys}\n')
    (folder / "checked.users").write_text(users)
    return run_words(command, "check", str(folder / "checked.toml"))


def says_what_is_wrong_with_its_files(command, mode):
    """`check` is quiet where both files are right, and else tells the key, the line of the users or the user, or why it could not
    serve."""
    with Gateway(command, mode) as gateway:
        good = user_line(WRITER, gateway.home) + "\n"
        holds(checked(command, gateway.folder, "", good) == (0, ""), "files that are right are refused")
        for keys, why in WRONG_KEYS:
            status, text = checked(command, gateway.folder, keys, good)
            holds(status == 1 and why in text, f"{keys} is answered {status} {text}")
        for line in WRONG_LINES:
            status, text = checked(command, gateway.folder, "", good.replace("ann", "eve") + f"# a comment\n{line}\n{good}")
            holds(status == 1 and "line 3" in text, f"{line} is answered {status} {text}")
        for keys, why in UNSERVED:
            status, text = checked(command, gateway.folder, keys, good)
            holds(status == 1 and why in text, f"{keys} is answered {status} {text}")
        (gateway.folder / "file").write_bytes(DATA)
        for home in gateway.folder / "none", gateway.folder / "file":
            status, text = checked(command, gateway.folder, "", good + user_line("eve", home) + "\n")
            holds(status == 1 and "eve" in text, f"a home that is no directory is answered {status} {text}")
        status, text = checked(command, gateway.folder, "", good + good)
        holds(status == 1 and "line 2" in text, f"a name that comes twice is answered {status} {text}")
        status, text = run_words(command, "check", str(gateway.folder / "none.toml"))
        holds(status == 1 and "none.toml" in text, f"no file is answered {status} {text}")


def says_why_it_does_not_serve(command, mode):
    """What a key takes, and what no server can be made of, or not now."""
    with Gateway(command, mode) as gateway, socket.create_server((HOST, 0)) as taken:
        port = taken.getsockname()[1]
        for keys, why in [
            ({"pasv_min_port": 20099, "pasv_max_port": 20000}, "empty passive port range"),
            ({"listen": "nowhere"}, "could not parse address"),
            ({"listen": "localhost:2121"}, "could not parse address"),
            ({"listen": "[::1]:2121"}, "IPv6 outside legacy mode"),
            ({"listen": f"{HOST}:{port}"}, "io error"),
            ({"listen": f"{HOST}:0", "pasv_min_port": port, "pasv_max_port": port}, "io error"),
        ]:
            own = {"users_file": gateway.folder / "users", "mode": "pooled", **keys}
            (gateway.folder / "other.toml").write_text(toml_of(own))
            status, text = run_words(command, "serve", str(gateway.folder / "other.toml"))
            holds(status == 1 and why in text, f"{keys} are answered {status} {text}")


def shows_no_port_at_ipv6(command, _):
    starting.shows_no_port_at_ipv6(command, Gateway)


def makes_hashes(command, _):
    """Each has a salt of its own, and the key of RFC 8018, which Python derives from it."""
    texts = {run_words(command, "mkpasswd", said=b"secret\n", patience=10 * OPENING)[1].strip() for _ in range(2)}
    holds(len(texts) == 2, "two hashes have one salt")
    for text in texts:
        front, scheme, rounds, salt, key = text.split("$")
        holds((front, scheme, int(rounds), len(salt)) == ("", "pbkdf2-sha256", 200_000, 32), f"another form: {text}")
        due = hashlib.pbkdf2_hmac("sha256", b"secret", bytes.fromhex(salt), int(rounds))
        same(bytes.fromhex(key), due, "the key")


def leaves_a_file_at_its_socket_alone(command, mode):
    with Gateway(command, mode) as gateway:
        file = gateway.folder / "file"
        file.write_bytes(DATA)
        gateway.keys["control_socket"] = file
        gateway.port += 1
        gateway.write_keys(HOST)
        try:
            subprocess.run([*command, "serve", str(gateway.folder / "gateway.toml")], capture_output=True, timeout=5, check=False)
        except subprocess.TimeoutExpired:
            pass
        holds(file.is_file() and file.read_bytes() == DATA, "the file is gone")


def does_not_take_the_socket_of_another(command, mode):
    with Gateway(command, mode) as gateway:
        try:
            with Gateway(command, mode, keys={"control_socket": gateway.keys["control_socket"]}):
                raise wire.Unexpected("two gateways have one control socket")
        except OSError as why:
            holds("control socket" in str(why), f"it ends by {why}")
        holds(is_let_in(gateway, WRITER), "the first gateway does not go on")
        holds(gateway.tells("stop")[0] == 0, "the first gateway does not hear")


class Asking:
    """A word for a gateway, in a thread, as `stop` waits for its end."""

    def __init__(self, gateway, word):
        self.thread = threading.Thread(target=self.work, args=(gateway, word))
        self.thread.start()

    def work(self, gateway, word):
        self.answer = gateway.tells(word)

    def wait(self):
        self.thread.join()
        return self.answer


def ends_at_once_without_work(command, mode):
    with Gateway(command, mode) as gateway:
        began = time.monotonic()
        holds(gateway.tells("stop") == (0, ""), "stop fails")
        took = time.monotonic() - began
        holds(took < 5, f"it took {took:.1f} seconds")
        holds(gateway.process.wait(5) == 0, f"it ends with {gateway.process.returncode}: {gateway.text()}")
        holds(gateway.tells("stop")[0] == 1, "a gateway that has ended is told")


def ends_behind_its_transfers(command, mode):
    """A stop lets transfers end, each with its bytes and its 226; sessions without one are told 421, and nobody is greeted."""
    with Gateway(command, mode, keys={"shutdown_grace": 60}) as gateway:
        (gateway.home / "large").write_bytes(LARGE)
        down, up, idle = let_in(gateway), let_in(gateway), let_in(gateway)
        stream = down.link()
        down.tell("RETR large", 150)
        got = stream.recv(1)
        sent = up.link()
        up.tell("STOR new", 150)
        sent.sendall(DATA)
        asking = Asking(gateway, "stop")
        idle.expect(421)
        holds(idle.reply()[0] == 0, "an idle session goes on")
        holds(not is_greeted(gateway), "a session is greeted behind a stop")
        time.sleep(1)
        holds(gateway.is_running(), "it does not wait for its transfers")
        sent.sendall(DATA)
        sent.close()
        up.expect(226)
        got += wire.drained(stream)
        down.expect(226)
        same(got, LARGE)
        holds(asking.wait() == (0, ""), f"stop is answered {asking.answer}")
        holds(gateway.process.wait(5) == 0, f"it ends with {gateway.process.returncode}: {gateway.text()}")
        same_tree(gateway.home, {"large": LARGE, "new": DATA + DATA})


def ends_behind_transfers_that_were_told_so(command, mode):
    """Whoever was told 150 before a stop may connect for the transfer behind it, and gets it."""
    with Gateway(command, mode, keys={"shutdown_grace": 60}) as gateway:
        (gateway.home / "large").write_bytes(LARGE)
        down, up, idle = let_in(gateway), let_in(gateway), let_in(gateway)
        down_port, up_port = down.passive(), up.passive()
        down.tell("RETR large", 150)
        up.tell("STOR new", 150)
        asking = Asking(gateway, "stop")
        idle.expect(421)
        time.sleep(1)
        holds(gateway.is_running(), "it does not wait for their connections")
        got = wire.drained(down.door.dial(down.source, down_port))
        down.expect(226)
        same(got, LARGE)
        down.expect(421)
        with up.door.dial(up.source, up_port) as sent:
            sent.sendall(DATA)
        up.expect(226)
        up.expect(421)
        holds(asking.wait() == (0, ""), f"stop is answered {asking.answer}")
        same_tree(gateway.home, {"large": LARGE, "new": DATA})


def ends_between_small_downloads(command, mode):
    """A stop comes to sessions that download one small file after another: whoever was told 150 gets it, with its 226, and then 421."""
    with Gateway(command, mode, keys={"shutdown_grace": 60}) as gateway:
        (gateway.home / "small").write_bytes(SMALL)
        opened, counts = [let_in(gateway) for _ in range(8)], [0] * 8

        def fetch(i):
            session = opened[i]
            while session.ask("TYPE I")[0] == 200:
                try:
                    stream = session.link()
                except (OSError, wire.Unexpected):
                    return
                if session.ask("RETR small")[0] != 150:
                    return
                same(wire.drained(stream), SMALL, "what comes")
                session.expect(226)
                counts[i] += 1

        asking = threading.Timer(1, gateway.tells, ["stop"])
        asking.start()
        sessions.at_once(fetch, len(opened))
        asking.join()
        holds(min(counts) > 0, f"the sessions fetched {counts}")
        holds(gateway.process.wait(5) == 0, f"it ends with {gateway.process.returncode}: {gateway.text()}")


def is_greeted(gateway):
    try:
        return greeting(gateway) == 220
    except OSError:
        return False


def ends_where_a_transfer_does_not(command, mode):
    """A client that does not read, or does not connect, is waited for as long as the configuration says, and no longer."""
    with Gateway(command, mode, keys={"shutdown_grace": 4}) as gateway:
        (gateway.home / "large").write_bytes(LARGE)
        with let_in(gateway) as session, session.link(), let_in(gateway) as other:
            session.tell("RETR large", 150)
            other.passive()
            other.tell("RETR large", 150)
            began = time.monotonic()
            holds(gateway.tells("stop")[0] == 0, "stop fails")
            took = time.monotonic() - began
        holds(1 < took < 30, f"it took {took:.1f} seconds, of a grace of four")


def hears_others_beside_one_who_says_nothing(command, mode):
    with Gateway(command, mode) as gateway, socket.socket(socket.AF_UNIX) as silent:
        silent.connect(str(gateway.keys["control_socket"]))
        time.sleep(0.5)
        asking = Asking(gateway, "stop")
        asking.thread.join(30)
        holds(not asking.thread.is_alive(), "stop is not heard for half a minute")
        holds(asking.answer[0] == 0, f"stop is answered {asking.answer}")


def takes_in_users_anew(command, mode):
    """A reload has the users of the file: a new password counts, an old one and a name that is gone do not; sessions go on,
    and those of a name that is gone find nothing any more."""
    with Gateway(command, mode) as gateway:
        with let_in(gateway) as session, let_in(gateway, READER) as leaver:
            gateway.write_users([user_line(WRITER, gateway.home, secret=hash_of("other")), user_line("new", gateway.home)])
            holds(is_let_in(gateway, WRITER), "the file counts before a reload")
            holds(gateway.tells("reload")[0] == 0, "reload fails")
            holds(not is_let_in(gateway, WRITER), "the old password is let in")
            holds(is_let_in(gateway, WRITER, "other"), "the new password is refused")
            holds(not is_let_in(gateway, READER), "a name that is gone is let in")
            holds(is_let_in(gateway, "new"), "a new name is refused")
            session.store("STOR kept", DATA)
            same(session.fetch("RETR kept"), DATA)
            is_refused(leaver, "RETR kept", 550)
        with let_in(gateway, "new") as session:
            same(session.fetch("RETR kept"), DATA)


def keeps_its_users_where_the_file_is_wrong(command, mode):
    with Gateway(command, mode) as gateway:
        for lines in ["ann"], [user_line("ann", "relative")]:
            gateway.write_users(lines)
            status, text = gateway.tells("reload")
            holds(status == 1 and "line 3" in text, f"reload of a wrong file is answered {status} {text}")
        (gateway.folder / "users").unlink()
        holds(gateway.tells("reload")[0] == 1, "reload of no file succeeds")
        holds(is_let_in(gateway, WRITER), "the users are gone")
        holds(not is_let_in(gateway, WRITER, "wrong"), "a wrong password is let in")


def figures(gateway):
    """What `status` tells, by its first words."""
    status, text = gateway.tells("status")
    holds(status == 0, f"status is answered {status} {text!r}")
    return {line.split()[0]: int(line.split()[1]) for line in text.splitlines()}


def tells_how_it_goes(command, mode):
    """`status` counts the users, the sessions that are logged in, and the transfers that ended well."""
    with Gateway(command, mode) as gateway:
        due = {"users": 4, "sessions": 0, "downloads": 0, "uploads": 0}
        holds(greeting(gateway) == 220, "a session that leaves without a login is not greeted")
        shows_figures(gateway, due)
        with let_in(gateway) as session, let_in(gateway, READER) as reader:
            shows_figures(gateway, {**due, "sessions": 2})
            session.store("STOR one", DATA)
            session.store("APPE one", DATA)
            reader.fetch("RETR one")
            outcome(reader, "STOR one", DATA)
            outcome(reader, "RETR none")
            shows_figures(gateway, {**due, "sessions": 2, "downloads": 1, "uploads": 2})
            reader.quit()
            shows_figures(gateway, {**due, "sessions": 1, "downloads": 1, "uploads": 2})
        holds(figures(gateway)["uptime"] < 60, "it serves for longer than it runs")


def shows_figures(gateway, due):
    """Listeners are told behind what they are told of, so a figure may come a little later."""
    wait_for(lambda: due.items() <= figures(gateway).items())
    got = figures(gateway)
    holds(due.items() <= got.items(), f"status tells {got}, and {due} is due")


def starts_again_where_it_was_killed(command, mode):
    """A SIGKILL in the midst of an upload: the front of it stands, all else is as it was, and a new gateway takes it up."""
    with Gateway(command, mode) as gateway:
        socket_path = gateway.folder.parent / f"{gateway.folder.name}.control"
        keys = {"control_socket": socket_path}
        try:
            with Gateway(command, mode, home=gateway.home, keys=keys) as killed:
                dies_in_an_upload(killed)
            holds(socket_path.exists(), "no socket is left behind")
            with Gateway(command, mode, home=gateway.home, keys=keys) as again:
                with let_in(again) as session:
                    same(session.fetch("RETR kept"), DATA)
                    session.store("STOR new", LARGE[len(DATA) :], len(DATA))
                    same(session.fetch("RETR new"), LARGE)
                holds(again.tells("stop")[0] == 0, "it is not told to stop by a socket that was left behind")
            same_tree(gateway.home, {"kept": DATA, "new": LARGE})
        finally:
            socket_path.unlink(missing_ok=True)


def dies_in_an_upload(gateway):
    (gateway.home / "kept").write_bytes(DATA)
    with let_in(gateway) as session:
        stream = session.link()
        session.tell("STOR new", 150)
        stream.sendall(LARGE[: 2 * len(DATA)])
        until = time.monotonic() + 10
        new = gateway.home / "new"
        while not (new.exists() and new.stat().st_size >= len(DATA)) and time.monotonic() < until:
            time.sleep(0.02)
        os.killpg(gateway.process.pid, signal.SIGKILL)
        gateway.process.wait(5)
        stream.close()
    got = new.read_bytes()
    holds(len(got) >= len(DATA), f"{len(got)} bytes are written")
    same(got, LARGE[: len(got)], "the front of the upload")
    same_tree(gateway.home, {"kept": DATA, "new": got})


def keeps_a_budget(command, mode):
    """What the files of a home have together is at most the smallest budget of its users; beyond it 552, and two uploads at once do
    not pass it."""
    budget = 3 * len(DATA)
    with Gateway(command, mode) as gateway:
        home = gateway.folder / "bounded"
        home.mkdir()
        (home / "old").write_bytes(DATA)
        users = [user_line(WRITER, home, budget=str(9 * budget)), user_line(READER, home, budget=str(budget))]
        with Gateway(command, mode, users=users) as other, let_in(other) as session:
            session.store("STOR one", DATA)
            code, text, _ = outcome(session, "STOR two", DATA + DATA)
            holds(code == 552, f"an upload beyond the budget is answered {code} {text}")
            holds(used(home) <= budget, f"{used(home)} bytes of {budget}")
            session.store("STOR two", b"")
            two_at_once(other, home, budget)
            session.store("STOR one", b"x")
            session.store("STOR two", DATA[:1000])
        same((home / "old").read_bytes(), DATA)


def used(home):
    return sum(path.stat().st_size for path in home.rglob("*") if path.is_file())


def two_at_once(gateway, home, budget):
    sessions = [let_in(gateway) for _ in range(2)]
    codes = []

    def upload(session, name):
        codes.append(outcome(session, f"STOR {name}", DATA)[0])

    threads = [threading.Thread(target=upload, args=(session, name)) for session, name in zip(sessions, ("two", "three"))]
    for thread in threads:
        thread.start()
    for thread in threads:
        thread.join()
    for session in sessions:
        session.close()
    holds(552 in codes, f"two uploads at once, of which one fits, are answered {codes}")
    holds(used(home) <= budget, f"{used(home)} bytes of {budget}")
    (home / "three").unlink(missing_ok=True)


STARTS = [refuses_what_is_no_command, tells_of_itself, says_what_is_wrong_with_its_files, leaves_a_file_at_its_socket_alone]
STARTS += [does_not_take_the_socket_of_another, says_why_it_does_not_serve, shows_no_port_at_ipv6, makes_hashes]
ENDS = [
    ends_at_once_without_work,
    ends_behind_its_transfers,
    ends_behind_transfers_that_were_told_so,
    ends_between_small_downloads,
    ends_where_a_transfer_does_not,
    hears_others_beside_one_who_says_nothing,
    takes_in_users_anew,
    keeps_its_users_where_the_file_is_wrong,
    tells_how_it_goes,
    starts_again_where_it_was_killed,
    keeps_a_budget,
]


def run(tally, command, mode, cases=ENDS):
    for case in cases:
        tally.case(f"{mode} the gateway {case.__name__.replace('_', ' ')}", case, command, mode)
