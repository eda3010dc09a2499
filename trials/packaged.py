"""The cases on what stands beside the gateway: the example that tries it, and what packaging/ has, which trials/gateway.py runs."""

import os
import shlex
import shutil
import signal
import subprocess
import tempfile
import time
from pathlib import Path

import wire
from cases import Skipped, holds, same
from endings import LARGE
from gateways import ROUNDS, Gateway
from homes import DATA, is_let_in, let_in
from programs import OPENING, TOP, Program, free_ports

PACKAGING = TOP / "packaging"


def is_tried_with_one_command(command, _):
    """The example serves a directory to a user with a password of its own, and the lines that it writes work as they stand."""
    port = free_ports(1)
    with tempfile.TemporaryDirectory(prefix="celuviamo-") as folder:
        home = Path(folder) / "home"
        (Path(folder) / "FILE").write_bytes(DATA)
        words = {"FTP_GATEWAY": shlex.join(command), "GATEWAY_ROUNDS": str(ROUNDS)}
        with Program([str(TOP / "examples" / "try_gateway"), str(home), str(port)], **words) as program:
            program.wait_for(port)
            put, get = [line.strip() for line in program.text().splitlines() if line.startswith("    curl ")]
            for line in put, get + " -o got":
                done = subprocess.run(shlex.split(line), cwd=folder, capture_output=True, timeout=OPENING, check=False)
                holds(done.returncode == 0, f"{line} ends with {done.returncode}: {done.stderr.decode()}")
        same((home / "FILE").read_bytes(), DATA, "those of the directory")
        same((Path(folder) / "got").read_bytes(), DATA, "those of the client")


class Entered(Gateway):
    """A gateway that the entry script of the container starts."""

    def words(self, command, at):
        super().words(command, at)
        program = self.folder / "bin" / "ftp_gateway"
        program.parent.mkdir()
        program.write_text(f'#!/bin/sh\nexec {shlex.join(command)} "$@"\n')
        program.chmod(0o755)
        own = {
            "PATH": f"{program.parent}:{os.environ['PATH']}",
            "FTP_GATEWAY_CONFIG": self.folder / "gateway.toml",
            "FTP_GATEWAY_CONTROL": self.keys["control_socket"],
        }
        return ["env", *(f"{name}={value}" for name, value in own.items()), str(PACKAGING / "entry.sh")]


def is_stopped_by_a_signal_to_its_entry(command, _):
    """The first process of a container is told to end: the download that runs comes whole, and the status is the gateway's."""
    with Entered(command, keys={"shutdown_grace": 60}) as gateway:
        (gateway.home / "large").write_bytes(LARGE)
        with let_in(gateway) as session:
            stream = session.link()
            session.tell("RETR large", 150)
            got = stream.recv(1)
            os.kill(gateway.process.pid, signal.SIGTERM)
            time.sleep(1)
            holds(gateway.is_running(), "it does not wait for the download")
            got += wire.drained(stream)
        same(got, LARGE)
        holds(gateway.process.wait(20) == 0, f"it ends with {gateway.process.returncode}: {gateway.text()}")


def is_let_in_after(seconds, gateway, name):
    time.sleep(seconds)
    return is_let_in(gateway, name)


def is_read_anew_by_a_signal_to_its_entry(command, _):
    with Entered(command) as gateway:
        gateway.write_users([line.replace("ann:", "eve:") for line in gateway.usual_users()])
        os.kill(gateway.process.pid, signal.SIGHUP)
        # Five failed logins lock the address.
        holds(any(is_let_in_after(4, gateway, "eve") for _ in range(4)), "a new name is refused")
        holds(not is_let_in(gateway, "ann"), "a name that is gone is let in")


def has_examples_that_it_takes(command, _):
    """Every key of the example has a value that the program takes, and so has each without its mark of a comment; and so has each user,
    whose home is there."""
    with tempfile.TemporaryDirectory() as folder:
        users = (TOP / "examples" / "users").read_text().replace("/srv/ftp", folder)
        for line in users.splitlines():
            if line and not line.startswith("#"):
                Path(line.split(":")[3]).mkdir(exist_ok=True)
        (Path(folder) / "users").write_text(users)
        text = (TOP / "examples" / "ftp_gateway.toml").read_text()
        keys = text.replace("/etc/ftp_gateway/users", f"{folder}/users")
        lines = [line.removeprefix("# ") if line.startswith("# ") and " = " in line else line for line in keys.splitlines()]
        for made in keys, "\n".join(lines):
            (Path(folder) / "made.toml").write_text(made)
            done = subprocess.run([*command, "check", f"{folder}/made.toml"], capture_output=True, timeout=OPENING, check=False)
            holds((done.returncode, done.stdout) == (0, b""), f"check is answered {done.returncode} {done.stdout!r}")


def has_a_unit_that_systemd_takes(_, __):
    if not shutil.which("systemd-analyze"):
        raise Skipped("systemd-analyze is not installed")
    words = ["systemd-analyze", "verify", "--man=no", str(PACKAGING / "ftp_gateway.service")]
    done = subprocess.run(words, capture_output=True, timeout=OPENING, check=False)
    said = [line for line in done.stderr.decode().splitlines() if "is not executable" not in line]
    holds(not said, f"it says {said}")


def has_manual_pages_without_faults(_, __):
    if not shutil.which("mandoc"):
        raise Skipped("mandoc is not installed")
    for page in "ftp_gateway.8", "ftp_gateway.toml.5":
        done = subprocess.run(["mandoc", "-Tlint", "-Wwarning", str(PACKAGING / page)], capture_output=True, timeout=OPENING, check=False)
        holds(not done.stdout, f"{page}: {done.stdout.decode()}")


CASES = [
    is_tried_with_one_command,
    is_stopped_by_a_signal_to_its_entry,
    is_read_anew_by_a_signal_to_its_entry,
    has_examples_that_it_takes,
    has_a_unit_that_systemd_takes,
    has_manual_pages_without_faults,
]


def run(tally, command):
    for case in CASES:
        tally.case(f"the gateway {case.__name__.replace('_', ' ')}", case, command, "pooled")
