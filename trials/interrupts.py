"""The cases on clients that stop their own download, which trials/clients.py runs."""

import os
import pty
import select
import shutil
import signal
import time

import sessions
from aborts import LENGTH, WITHIN
from cases import PART, body, holds, same

PATIENCE = 20
INTERRUPT = b"\x03"


class Terminal:
    """A program at a terminal of its own, and what it has written there so far."""

    def __init__(self, *words):
        self.text = b""
        self.pid, self.terminal = pty.fork()
        if self.pid == 0:
            # A script that runs in the background ignores it.
            signal.signal(signal.SIGINT, signal.SIG_DFL)
            os.execvpe(words[0], words, {**os.environ, "TERM": "dumb", "LC_ALL": "C"})

    def __enter__(self):
        return self

    def __exit__(self, *_):
        os.close(self.terminal)
        os.kill(self.pid, signal.SIGKILL)
        os.waitpid(self.pid, 0)

    def types(self, text):
        os.write(self.terminal, text)

    def shows(self, word, since=0):
        """Waits until the word stands behind so many bytes, and gives the place behind it."""
        until = time.monotonic() + PATIENCE
        while word not in self.text[since:]:
            left = until - time.monotonic()
            holds(left > 0 and select.select([self.terminal], [], [], left)[0], f"no {word} in {self.text[since:]}")
            self.text += os.read(self.terminal, 65536)
        return self.text.index(word, since) + len(word)


def lftp(place, name):
    """^C at a download that lftp takes slowly: it sends its ABOR as urgent data, and goes on in the same session."""
    place.put(name, body(LENGTH))
    place.put(name + "-next", place.bytes)
    words = place.words(name)
    open_it = f"set net:limit-rate 65536; set net:socket-bind-ipv4 {place.source}; debug 5; "
    open_it += f"open -u ann,secret ftp://{place.door.ip}:{place.door.port}\n"
    with Terminal("lftp", "--norc") as program:
        program.types(open_it.encode())
        program.types(f"get {name} -o {words['got']}\n".encode())
        at = program.shows(b"<--- 150")
        time.sleep(1)
        program.types(INTERRUPT)
        at = program.shows(b"---> ABOR", at)
        # It reads the replies with its next command.
        program.types(f"set net:limit-rate 0; get {name}-next -o {words['got']}-next\n".encode())
        began = time.monotonic()
        at = program.shows(b"<--- 426", at)
        at = program.shows(b"<--- 226", at)
        took = time.monotonic() - began
        holds(took < WITHIN, f"the replies took {took:.1f} seconds")
        at = program.shows(b"<--- 226", at)
        # The reply may be there before the last bytes are in the file.
        program.shows(b"bytes transferred", at)
        program.types(b"exit kill\n")
    holds(program.text.count(b"---> USER") == 1, "a second login")
    same((place.folder / (words["got"].name + "-next")).read_bytes(), place.bytes)


def curl(place, name):
    """A part of a file from its start: curl takes it, sends an ABOR and closes the session behind the 426."""
    data = body(LENGTH)
    place.put(name, data)
    words = place.words(name)
    told = "curl -sSv --interface {source} -r 0-" + str(PART) + " -o {got} {url}/{name}"
    began = time.monotonic()
    status, _, said = place.run(told, words)
    took = time.monotonic() - began
    holds(status == 0, f"status {status}: {said}")
    same(words["got"].read_bytes(), data[: PART + 1])
    holds("> ABOR" in said and "< 426" in said, f"no ABOR that is answered by 426 in {said}")
    holds(took < 2 * WITHIN, f"it took {took:.1f} seconds")
    same(place.stored(name), data)


def ftplib(place, name):
    """Python's library sends an ABOR whose LF is urgent data, twice in a session, which goes on."""
    data = body(LENGTH)
    place.put(name, data)
    with sessions.client(place) as ftp:
        for _ in range(2):
            ftp.voidcmd("TYPE I")
            with ftp.transfercmd(f"RETR {name}") as stream:
                same(stream.recv(1), data[:1])
                began = time.monotonic()
                holds(ftp.abort().startswith("426"), "no 426")
                ftp.voidresp()
                took = time.monotonic() - began
            holds(took < WITHIN, f"the replies took {took:.1f} seconds")
        same(sessions.fetched(ftp, name), data)


# Those whose ABOR a relay passes on, which takes no urgent byte.
RELAYED = lftp, curl
CLIENTS = *RELAYED, ftplib


def run(tally, mode, place, clients=CLIENTS):
    for client in clients:
        name = f"{mode} interrupt of {client.__name__}"
        if client is ftplib or shutil.which(client.__name__):
            tally.case(name, client, place, place.name())
        else:
            tally.skip(name, f"{client.__name__} is not installed")
