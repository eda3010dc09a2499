"""The cases of several gateways over one directory behind one HAProxy, and of TLS that HAProxy ends, which trials/gateway.py runs."""

import contextlib
import shutil
import subprocess

import balanced
import operations
import sessions
import wire
from cases import holds, same
from gateways import PASSWORD, WRITER, Gateway, HomePlace, same_tree
from homes import DATA, is_refused, let_in, wait_for
from programs import HOST, TOP, Program, Proxy


def all_see_one_directory(door, gateways):
    """An address stores a file by its gateway, and all addresses find it, whichever gateway theirs is."""
    for address in balanced.ADDRESSES:
        with wire.Session(door, address).login() as session:
            session.store(f"STOR {balanced.file_of(address)}", balanced.data_of(address))
    due = {balanced.file_of(address): balanced.data_of(address) for address in balanced.ADDRESSES}
    same_tree(gateways[0].home, due)
    for gateway in gateways:
        with let_in(gateway) as session:
            for name, data in due.items():
                same(session.fetch(f"RETR {name}"), data, f"those of {name}")


def one_upload_of_a_path_in_all(gateways):
    """Two gateways do not write one file at a time."""
    with let_in(gateways[0]) as first, let_in(gateways[1]) as second:
        stream = first.link()
        first.tell("STOR one", 150)
        stream.sendall(DATA)
        first.tell("NOOP", 200)
        holds(wait_for((gateways[0].home / "one").exists), "no file of the first upload")
        is_refused(second, "STOR one", 450, b"other")
        stream.close()
        first.expect(226)
        same((gateways[0].home / "one").read_bytes(), DATA)
        second.store("STOR one", b"other")


def goes_on_without_the_other(words, door, gateways):
    """One gateway ends by a stop; the sessions of the other go on, and files are there once it is back."""
    for address in balanced.ADDRESSES:
        with wire.Session(door, address).login() as session:
            session.store(f"STOR {balanced.file_of(address)}", balanced.data_of(address))
    gone = gateways[1]
    holds(gone.tells("stop")[0] == 0, "stop fails")
    ours = [address for address in balanced.ADDRESSES if is_served(door, address)]
    holds(0 < len(ours) < len(balanced.ADDRESSES), f"{len(ours)} addresses are served by one gateway of two")
    for address in ours:
        with wire.Session(door, address).login() as session:
            same(session.fetch(f"RETR {balanced.file_of(address)}"), balanced.data_of(address))
    called = (gone.control, gone.first, gone.last)
    with Gateway(words, "proxy", home=gateways[0].home, called=called, port=gone.port):
        for address in balanced.ADDRESSES:
            with wire.Session(door, address).login() as session:
                same(session.fetch(f"RETR {balanced.file_of(address)}"), balanced.data_of(address))


def is_served(door, address):
    try:
        with door.dial(address) as stream:
            return bool(stream.recv(1))
    except OSError:
        return False


def run_all(tally, words, gateways, door):
    tally.case("two gateways, all see one directory", all_see_one_directory, door, gateways)
    tally.case("two gateways, one upload of a path in all", one_upload_of_a_path_in_all, gateways)
    tally.case("two gateways, all addresses at once", balanced.all_at_once, door)
    for address in balanced.BOUND:
        with HomePlace(door, gateways[0].home, address) as place:
            operations.run(tally, f"two gateways, {address},", place, only_bound=True)
            for case in sessions.FTPLIB:
                tally.case(f"two gateways, {address}, {case.__name__.replace('_', ' ')}", case, place, place.name())
    tally.case("two gateways, one goes on without the other", goes_on_without_the_other, words, door, gateways)


def run(tally, words):
    with Gateway(words, "proxy") as one:
        called = (one.control, one.first, one.last)
        with Gateway(words, "proxy", home=one.home, called=called) as two, Proxy([one, two]) as proxy:
            run_all(tally, words, (one, two), proxy.door())


TLS = TOP / "examples" / "haproxy-tls.cfg"
LFTP = "set ssl:verify-certificate no; set ftps:initial-prot P; set cmd:fail-exit true; set net:timeout 20; set net:max-retries 1; "
CURL = f"curl -sS --insecure -u {WRITER}:{PASSWORD} "
# What each client is told.
UNDER_TLS = {
    "lftp upload": "put {file} -o {name}",
    "lftp download": "get {name} -o {got}",
    "curl upload": CURL + "-T {file} ftps://{host}:{port}/{name}",
    "curl download": CURL + "-o {got} ftps://{host}:{port}/{name}",
}


class TlsProxy(Program):
    """HAProxy as examples/haproxy-tls.cfg has it, in front of a gateway."""

    def __init__(self, gateway):
        self.port = gateway.control
        certificate = gateway.folder / "certificate.pem"
        make_certificate(gateway.folder, certificate)
        super().__init__(
            ["haproxy", "-db", "-f", str(TLS)],
            FTP_ADDRESS=HOST,
            FTP_CONTROL=str(gateway.control),
            FTP_PASSIVE=f"{gateway.first}-{gateway.last}",
            FTP_GATEWAY=f"{HOST}:{gateway.port}",
            FTP_CERTIFICATE=str(certificate),
        )
        self.wait_for(self.port)

    def door(self):
        return wire.Door(HOST, self.port)


def make_certificate(folder, certificate):
    """A key and a certificate that it signs itself."""
    key, crt = folder / "key.pem", folder / "crt.pem"
    words = ["req", "-x509", "-newkey", "rsa:2048", "-nodes", "-subj", "/CN=localhost", "-days", "2"]
    subprocess.run(["openssl", *words, "-keyout", str(key), "-out", str(crt)], capture_output=True, check=True)
    certificate.write_text(crt.read_text() + key.read_text())


def moves_under_tls(place, told, name, line):
    if line.startswith("lftp download") or line.startswith("curl download"):
        place.put(name, place.bytes)
    words = place.words(name)
    if line.startswith("lftp"):
        told = f"lftp --norc -c '{LFTP}open -u {WRITER},{PASSWORD} ftps://{{host}}:{{port}}; {told}'"
    status, _, said = place.run(told, words)
    holds(status == 0, f"status {status}: {said}")
    if line.endswith("download"):
        same(words["got"].read_bytes(), place.bytes)
    same((place.home / name).read_bytes(), place.bytes, "those of the directory")


def run_tls(tally, words):
    if not (shutil.which("openssl") and shutil.which("lftp")):
        tally.skip("TLS", "openssl or lftp is not installed")
        return
    with contextlib.ExitStack() as stack:
        gateway = stack.enter_context(Gateway(words, "proxy", keys={"tls_at_proxy": True}))
        proxy = stack.enter_context(TlsProxy(gateway))
        place = stack.enter_context(HomePlace(proxy.door(), gateway.home))
        for line, told in UNDER_TLS.items():
            tally.case(f"TLS by HAProxy, {line}", moves_under_tls, place, told, place.name(), line)
        tally.runs_on("TLS by HAProxy", gateway)
