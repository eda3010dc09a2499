"""The cases with two servers behind one HAProxy, which trials/clients.py runs."""

import operations
import sessions
import wire
from cases import Place, body, holds, same
from programs import Proxy, Server

ADDRESSES = [f"127.0.0.{n}" for n in range(2, 18)]
# The addresses that programs come from: a few on each server.
BOUND = ADDRESSES[:4]


def data_of(address, turn=0):
    return body(100000 + turn, address)


def file_of(address):
    return f"of-{address}"


def names_at(door, source):
    with wire.Session(door, source).login() as session:
        return set(session.fetch("NLST").decode().split())


def each_finds_its_own(door):
    """An address stores a file and finds it, session by session."""
    for address in ADDRESSES:
        with wire.Session(door, address).login() as session:
            session.store(f"STOR {file_of(address)}", data_of(address))
            session.quit()
    for address in ADDRESSES:
        with wire.Session(door, address).login() as session:
            same(session.fetch(f"RETR {file_of(address)}"), data_of(address), f"those of {address}")


def each_has_one_server(door, servers):
    """Each file is on one server, both have some, and an address sees the files of one server and no others."""
    each_finds_its_own(door)
    held = [names_at(server.door(), "192.0.2.1") for server in servers]
    due = {file_of(address) for address in ADDRESSES}
    holds(held[0] and held[1], f"a server has no files: {held}")
    holds(not held[0] & held[1], f"both servers have {held[0] & held[1]}")
    holds(held[0] | held[1] == due, f"the servers have {held}")
    for address in ADDRESSES:
        own = next(names for names in held if file_of(address) in names)
        same(sorted(names_at(door, address)), sorted(own), f"the names that {address} sees")


def all_at_once(door):
    """All addresses at the same time, with several transfers each."""

    def one(i):
        address = ADDRESSES[i]
        with wire.Session(door, address).login() as session:
            for turn in range(8):
                session.store(f"STOR {file_of(address)}", data_of(address, turn))
                same(session.fetch(f"RETR {file_of(address)}"), data_of(address, turn), f"those of {address}")
            session.quit()

    sessions.at_once(one, len(ADDRESSES))


def goes_on_without_the_other(words, door, servers):
    """The end of one server ends its own sessions, and its addresses wait for it; those of the other go on."""
    each_finds_its_own(door)
    held = names_at(servers[0].door(), "192.0.2.1")
    ours = next(address for address in ADDRESSES if file_of(address) in held)
    theirs = next(address for address in ADDRESSES if file_of(address) not in held)
    with wire.Session(door, ours).login() as session, wire.Session(door, theirs).login() as other:
        servers[1].stop()
        holds(other.reply()[0] == 0, "a session of a server that has ended")
        with door.dial(theirs) as stream:
            holds(not stream.recv(1), "an address comes to the other server")
        session.store(f"STOR {file_of(ours)}", data_of(ours))
        same(session.fetch(f"RETR {file_of(ours)}"), data_of(ours))
    with wire.Session(door, ours).login() as session:
        same(session.fetch(f"RETR {file_of(ours)}"), data_of(ours))
    is_back(words, door, servers[1], theirs)


def is_back(words, door, gone, address):
    """A server that is started again has the addresses that it had, and none of its files."""
    with Server(words, "proxy", called=(gone.control, gone.first, gone.last), port=gone.port):
        with wire.Session(door, address).login() as session:
            same(session.fetch("NLST"), b"", "the names on a server that was started again")
            session.store("STOR again", data_of(address))
            same(session.fetch("RETR again"), data_of(address))


def run_all(tally, name, words, servers, door):
    tally.case(f"{name}, each address finds its own", each_finds_its_own, door)
    tally.case(f"{name}, each address has one of them", each_has_one_server, door, servers)
    tally.case(f"{name}, all addresses at once", all_at_once, door)
    for address in BOUND:
        with Place(door, address) as place:
            operations.run(tally, f"{name}, {address},", place, only_bound=True)
            for case in sessions.FTPLIB:
                tally.case(f"{name}, {address}, {case.__name__.replace('_', ' ')}", case, place, place.name())
    tally.case(f"{name}, one goes on without the other", goes_on_without_the_other, words, door, servers)


def run(tally, name, words, header):
    with Server(words, "proxy") as one:
        with Server(words, "proxy", called=(one.control, one.first, one.last)) as two:
            with Proxy([one, two], header) as proxy:
                run_all(tally, name, words, (one, two), proxy.door())
