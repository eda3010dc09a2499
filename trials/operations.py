"""What each operation of a client needs, and what is compared behind it."""

import shutil

from cases import PART, holds, same
from commands import CLIENTS, INSTALLED


def ran(place, told, words):
    status, out, said = place.run(told, words)
    holds(status == 0, f"status {status}: {said}")
    return out


def uploads(place, told, name, first=0):
    """The client stores a file of which the first bytes are there already."""
    if first:
        place.put(name, place.bytes[:first])
    ran(place, told, place.words(name))
    same(place.stored(name), place.bytes)


def downloads(place, told, name, first=0, last=None, have=0):
    """The client fetches a file, or a part of it, whose first bytes it may have."""
    place.put(name, place.bytes)
    words = place.words(name)
    if have:
        words["got"].write_bytes(place.bytes[:have])
    ran(place, told, words)
    same(words["got"].read_bytes(), place.bytes[first:last])


def lists(place, told, name, line):
    """The client's output has the line of a file."""
    place.put(name, place.bytes)
    out = ran(place, told, place.words(name)).decode().splitlines()
    due = line.format(long=place.long_line(name, len(place.bytes)), facts=place.facts_line(name, len(place.bytes)), name=name)
    holds(out.count(due) == 1, f"no line {due!r} in {out}")


def uploads_many(place, told, name):
    ran(place, told, place.words(name))
    for one, due in place.many.items():
        same(place.stored(one), due, one)


def downloads_many(place, told, name):
    for one, due in place.many.items():
        place.put(one, due)
    words = place.words(name)
    ran(place, told, words)
    for one, due in place.many.items():
        same((words["folder"] / one).read_bytes(), due, one)


def is_refused(place, told, name):
    """The client says that it failed, and the server goes on."""
    words = place.words(name)
    status, _, _ = place.run(told, words)
    holds(status != 0, "status 0")
    holds(not words["got"].exists() or not words["got"].read_bytes(), "bytes of a file that is not there")
    goes_on(place, name)


def goes_on(place, name):
    place.put(name, place.bytes)
    same(place.stored(name), place.bytes)


def keeps_its_part(place, told, name):
    """The client leaves the part that it has as it is, and the server goes on."""
    place.put(name, place.bytes)
    words = place.words(name)
    words["got"].write_bytes(place.bytes[:PART])
    place.run(told, words)
    same(words["got"].read_bytes(), place.bytes[:PART])
    goes_on(place, name)


def downloads_by_name(place, told, name):
    """The client fetches the files of an NLST of each of them, where files are listed."""
    fetches = downloads_many if place.lists_files else fetches_nothing
    fetches(place, told, name)


def fetches_nothing(place, told, name):
    """The client fetches none of many files, and the server goes on."""
    for one, due in place.many.items():
        place.put(one, due)
    words = place.words(name)
    place.run(told, words)
    come = [path.name for path in words["folder"].iterdir()]
    holds(not come, f"it has fetched {come}")
    goes_on(place, name)


OPERATIONS = {
    "upload": uploads,
    "resumed upload": lambda *case: uploads(*case, first=PART),
    "append": lambda *case: uploads(*case, first=PART),
    "download": downloads,
    "download by wget": downloads,
    "resumed download": lambda *case: downloads(*case, have=PART),
    "range": lambda *case: downloads(*case, first=1000, last=PART + 1),
    "list": lambda *case: lists(*case, "{long}"),
    "names": lambda *case: lists(*case, "{name}"),
    "facts": lambda *case: lists(*case, "{facts}"),
    "many uploads": uploads_many,
    "many downloads": downloads_many,
    "refused download": is_refused,
    "refused list": is_refused,
    "vain resumed download": keeps_its_part,
    "many downloads by name": downloads_by_name,
}


def is_bound(told):
    """Whether the client can come from an address that it is told."""
    return isinstance(told, str) and "{source}" in told


# What becomes of an operation where the server answers words beside the profile, as SIZE; None where trials/tasks.py has it.
BY_WORDS = {"vain resumed download": "resumed download", "refused list": None}


def run(tally, mode, place, only_bound=False, clients=CLIENTS, has_words=False):
    """Each operation of these clients, or of those of them that can come from an address of their own."""
    for client in clients:
        for operation, told in CLIENTS[client].items():
            if has_words:
                operation = BY_WORDS.get(operation, operation)
            name = f"{mode} {client} {operation}"
            if operation is None or (only_bound and not is_bound(told)):
                continue
            if shutil.which(INSTALLED.get(client, client)):
                tally.case(name, OPERATIONS[operation], place, told, place.name())
            else:
                tally.skip(name, f"{client} is not installed")
