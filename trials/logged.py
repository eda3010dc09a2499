"""The cases on what the gateway writes of its journal, which trials/gateway.py runs."""

import calendar
import time

import wire
from cases import body, holds
from gateways import PASSWORD, WRITER, Gateway
from homes import DATA, is_let_in, is_refused, let_in, wait_for

# More than the buffers of a connection take.
LARGE = body(32 << 20)


def logs_each_transfer(command, mode):
    """A line of wu-ftpd's form for each file that was sent or received, whole or not, in their order, with the moment of its end. What is
    refused before its 150 has none."""
    with Gateway(command, mode) as other:
        log = other.folder / "transfers.log"
        began = time.time()
        with Gateway(command, mode, keys={"xferlog_file": log}) as gateway:
            (gateway.home / "large").write_bytes(LARGE)
            with let_in(gateway, source="127.0.0.7") as session:
                session.store("STOR a name", DATA)
                session.fetch("RETR a name")
                session.fetch("RETR a name", 1000)
                is_refused(session, "RETR none", 550)
                with session.link() as stream:
                    session.tell("RETR large", 150)
                    wire.reset(stream)
                session.expect(426, 451)
                session.fetch("NLST")
                session.quit()
            holds(gateway.tells("stop")[0] == 0, "stop fails")
        lines = [line.split() for line in log.read_text().splitlines()]
        due = [(len(DATA), "/a_name", "i", "c"), (len(DATA), "/a_name", "o", "c"), (len(DATA) - 1000, "/a_name", "o", "c"), (None, "/large", "o", "i")]
        holds(len(lines) == len(due), f"{len(lines)} lines of {len(due)}: {lines}")
        for line, (length, path, way, end) in zip(lines, due):
            holds(began - 1 <= moment(line) <= time.time() + 1, f"another moment: {line}")
            holds(int(line[7]) < len(LARGE) if length is None else int(line[7]) == length, f"{line[7]} bytes of {length}")
            fields = ["127.0.0.7", line[7], path, "b", "_", way, "r", WRITER, "ftp", "0", "*", end]
            holds(line[6:] == fields, f"{line[6:]}, and {fields} is due")


def logs_who_comes_and_who_fails(command, mode):
    """The own form has a line for each control connection, login, failed login, transfer and ending."""
    with Gateway(command, mode) as other:
        log = other.folder / "gateway.log"
        with Gateway(command, mode, keys={"log_file": log, "lockout": "ip", "lockout_failures": 2}) as gateway:
            with let_in(gateway, source="127.0.0.7") as session:
                session.store("STOR a name", DATA)
                session.quit()
            for name, password in (WRITER, "wrong"), ("nobody", "wrong"), (WRITER, "wrong"), (WRITER, PASSWORD):
                holds(not is_let_in(gateway, name, password), f"{name} is let in with {password}")
            holds(gateway.tells("stop")[0] == 0, "stop fails")
        lines = [line.split(" ") for line in log.read_text().splitlines()]
        holds(all(len(line) == 9 for line in lines), f"lines have other fields: {lines}")
        got = [(line[3], line[4], line[5], line[7], line[8]) for line in lines if line[2] == "127.0.0.7"]
        due = [
            ("unknown", "connect", "0", "ok", "-"),
            (WRITER, "login", "0", "ok", "-"),
            (WRITER, "STOR", str(len(DATA)), "ok", "/a\\x20name"),
            (WRITER, "end", "0", "quit", "-"),
        ]
        holds(got == due, f"{got}, and {due} is due")
        logins = [(line[3], line[7]) for line in lines if line[4] == "login" and line[2] != "127.0.0.7"]
        due = [(WRITER, "failed"), ("nobody", "failed"), (WRITER, "failed"), (WRITER, "locked")]
        holds(logins == due, f"{logins}, and {due} is due")


def goes_on_in_a_new_log(command, mode):
    """A log that was renamed is written on until a reload, and from then on a new one is: no line is lost, and none stands twice."""
    with Gateway(command, mode) as other:
        log, old = other.folder / "transfers.log", other.folder / "transfers.log.1"
        with Gateway(command, mode, keys={"xferlog_file": log}) as gateway:
            with let_in(gateway) as session:
                session.store("STOR first", DATA)
                wait_for(lambda: log.read_text().count("\n") == 1)
                log.rename(old)
                session.store("STOR second", DATA)
                wait_for(lambda: old.read_text().count("\n") == 2)
                holds(not log.exists(), "a log is made before a reload")
                holds(gateway.tells("reload")[0] == 0, "reload fails")
                session.store("STOR third", DATA)
                session.quit()
            holds(gateway.tells("stop")[0] == 0, "stop fails")
        names = [[line.split()[8] for line in file.read_text().splitlines()] for file in (old, log)]
        holds(names == [["/first", "/second"], ["/third"]], f"the logs have {names}")


def samples(file):
    """The numbers of a file of counts, by their names with their labels."""
    lines = [line for line in file.read_text().splitlines() if not line.startswith("#")]
    return {line.rsplit(" ", 1)[0]: int(line.rsplit(" ", 1)[1]) for line in lines}


def counts_what_it_does(command, mode):
    """The counts are there from the start, follow within some seconds, and are whole whenever they are read."""
    with Gateway(command, mode) as other:
        file = other.folder / "gateway.prom"
        with Gateway(command, mode, keys={"metrics_file": file}) as gateway:
            holds(samples(file)["ftp_auth_failures_total"] == 0, "there are no counts at the start")
            opened = samples(file)["ftp_sessions_total"]
            holds(not is_let_in(gateway, WRITER, "wrong"), "a wrong password is let in")
            with let_in(gateway) as session:
                session.store("STOR one", DATA)
                session.fetch("RETR one")
                wait_for(lambda: samples(file)["ftp_sessions"] == 1 and samples(file)["ftp_auth_failures_total"] == 1, 30)
                got = samples(file)
                holds(got["ftp_sessions"] == 1, f"{got['ftp_sessions']} sessions are live, and one is")
                session.quit()
            holds(gateway.tells("stop")[0] == 0, "stop fails")
        got = samples(file)
        due = {
            "ftp_sessions": 0,
            "ftp_auth_failures_total": 1,
            'ftp_bytes_total{command="STOR",direction="received"}': len(DATA),
            'ftp_bytes_total{command="RETR",direction="sent"}': len(DATA),
            'ftp_transfers_total{command="STOR",result="success"}': 1,
            'ftp_transfers_total{command="RETR",result="success"}': 1,
            'ftp_transfers_total{command="APPE",result="success"}': 0,
        }
        holds(due.items() <= got.items(), f"the counts are {got}, and {due} is due")
        holds(got["ftp_sessions_total"] >= opened + 2, f"{got['ftp_sessions_total']} sessions were opened")
        holds(not file.with_name(file.name + ".new").exists(), "a file is left beside the counts")


def moment(line):
    return calendar.timegm(time.strptime(" ".join(line[:5]), "%a %b %d %H:%M:%S %Y"))


CASES = [logs_each_transfer, logs_who_comes_and_who_fails, goes_on_in_a_new_log, counts_what_it_does]


def run(tally, command, mode, cases=CASES):
    for case in cases:
        tally.case(f"{mode} the gateway {case.__name__.replace('_', ' ')}", case, command, mode)
