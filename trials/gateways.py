"""A gateway over a real directory, which the cases of trials/gateway.py call, and whose files they compare."""

import hashlib
import json
import os
import shutil
import stat
import subprocess
import tempfile
import time
from pathlib import Path

from cases import Place, holds, same
from programs import OPENING, Server

# An unproved build derives keys some hundreds of times slower than a proved one.
ROUNDS = int(os.environ.get("GATEWAY_ROUNDS", "1"))
SALT = bytes(range(16))
# The user who may write, and one who may not.
WRITER, READER, PASSWORD = "ann", "reader", "secret"
# What the cases that trials/clients.py has too ask of a server.
AS_SERVE = {"max_clients": 10000, "max_per_ip": 500, "lockout": "off"}


def hash_of(password, rounds=ROUNDS):
    """The hash of a password, as a file of users has it (RFC 8018, section 5.2)."""
    key = hashlib.pbkdf2_hmac("sha256", password.encode(), SALT, rounds)
    return f"$pbkdf2-sha256${rounds}${SALT.hex()}${key.hex()}"


def user_line(name, home, rights="rw", secret=None, budget=None):
    secret = hash_of(PASSWORD) if secret is None else secret
    return ":".join([name, secret, rights, str(home)] + ([budget] if budget else []))


def toml_of(keys):
    """The text of a configuration file; a key without a value is left out."""
    return "".join(f"{key} = {toml_value(value)}\n" for key, value in keys.items() if value is not None)


def toml_value(value):
    """JSON writes truth, numbers and these texts as TOML does."""
    return json.dumps(value if isinstance(value, (bool, int)) else str(value))


def tree(folder):
    """What stands below a directory: by its path the bytes of a file, where a link leads, and None for a directory."""
    found = {}
    for path in sorted(folder.rglob("*")):
        name = str(path.relative_to(folder))
        found[name] = os.readlink(path) if path.is_symlink() else None if path.is_dir() else path.read_bytes()
    return found


def same_tree(folder, due):
    got = tree(folder)
    holds(sorted(got) == sorted(due), f"there are {sorted(set(got) ^ set(due))} on one side alone")
    for name, data in due.items():
        if isinstance(data, bytes) and isinstance(got[name], bytes):
            same(got[name], data, f"those of {name}")
        else:
            holds(got[name] == data, f"{name} is {got[name]!r}, and {data!r} is due")


class Gateway(Server):
    """The gateway in one of its modes, with its files in a folder of its own, and a home that ann and anybody share."""

    def __init__(self, words, mode="pooled", home=None, users=None, keys=None, prefix=(), **more):
        self.folder = Path(tempfile.mkdtemp(prefix="celuviamo-gateway-"))
        self.folder.chmod(0o755)
        self.program, self.prefix = list(words), list(prefix)
        self.home = home or self.folder / "home"
        self.home.mkdir(exist_ok=True)
        self.keys = {"users_file": self.folder / "users", "control_socket": self.folder / "control", **AS_SERVE, **(keys or {})}
        self.write_users(users or self.usual_users())
        try:
            super().__init__(words, mode, **more)
        except BaseException:
            shutil.rmtree(self.folder, ignore_errors=True)
            raise

    def usual_users(self):
        return [
            user_line(WRITER, self.home),
            user_line(READER, self.home, "ro"),
            user_line("anonymous", self.home, secret="*"),
            user_line("gone", self.home, secret="!"),
        ]

    def write_users(self, lines):
        (self.folder / "users").write_text("# The users of a trial.\n\n" + "".join(line + "\n" for line in lines))

    def write_keys(self, at):
        ports = {"pasv_min_port": self.first, "pasv_max_port": self.last}
        proxy = {"proxy_control_port": self.control} if self.mode == "proxy" else {}
        keys = {"listen": f"{at}:{self.port}", "mode": self.mode, **ports, **proxy, **self.keys}
        (self.folder / "gateway.toml").write_text(toml_of(keys))

    def words(self, command, at):
        self.write_keys(at)
        return [*self.prefix, *command, "serve", str(self.folder / "gateway.toml")]

    def tells(self, word, patience=OPENING):
        """Runs the program beside it, with a word and the control socket: its status and what it writes."""
        words = [*self.program, word, str(self.keys["control_socket"])]
        done = subprocess.run(words, capture_output=True, stdin=subprocess.DEVNULL, timeout=patience, check=False)
        return done.returncode, done.stdout.decode("latin-1")

    def stop(self):
        super().stop()
        shutil.rmtree(self.folder, ignore_errors=True)


class HomePlace(Place):
    """A place whose files come from the directory itself, and are compared with it."""

    extra_words = """ALLO CDUP CLNT DELE EPSV FEAT HELP MDTM MFMT MKD MLST MODE OPTS PWD RMD RNFR RNTO SIZE STAT STRU
    SYST XCUP XMKD XPWD XRMD""".split()
    lists_files = True

    def __init__(self, door, home, source="127.0.0.1"):
        super().__init__(door, source)
        self.home = home

    def changed(self, name, form):
        """When a file was last changed, by the directory."""
        return time.strftime(form, time.gmtime((self.home / name).stat().st_mtime))

    def long_line(self, name, size):
        mode = stat.filemode((self.home / name).stat().st_mode)
        return f"{mode} 1 ftp ftp {size:12} {self.changed(name, '%b %d %H:%M')} {name}"

    def facts(self, name, size):
        return {**super().facts(name, size), "modify": self.changed(name, "%Y%m%d%H%M%S")}

    def put(self, name, data):
        (self.home / name).write_bytes(data)

    def stored(self, name):
        got = super().stored(name)
        same(got, (self.home / name).read_bytes(), "those of the directory")
        return got
