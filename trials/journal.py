"""The printed log that a server writes as it grows, read entry by entry, and what it has to have of sessions that are known."""

from collections import Counter, defaultdict

from cases import holds, same

# What the server goes by beside its words.
RULES = "connection passive 600 off restart"
# The events that are lines of a client, each of which names its session first.
LINES = {"user", "pass", "pasv", "stor", "rest", "retr", "quit"}


class Entry:
    """An event, with its words behind its moment, the decision on it, and the actions."""

    def __init__(self, event):
        self.event = event.split(" ")[2:]
        self.answer, self.decision, self.actions = None, None, []

    def is_of(self, session):
        return self.event[0] in LINES and self.event[1] == session

    def line(self):
        """Its word, and what the client says with it."""
        word, _, *said = self.event
        return word if word == "pasv" else " ".join([word, *said[:1]])


def read(text, words):
    """The entries of the log of a server that was started with these words."""
    holds(text.endswith("\n"), f"it ends in the middle of a line: {text[-100:]!r}")
    first, *lines = text.splitlines()
    same(first, " ".join(["options", *words, RULES]), "the line of the options")
    entries = []
    for number, line in enumerate(lines, 2):
        last = entries[-1] if entries else None
        if line.startswith("> "):
            holds(last is None or last.decision, f"an entry is not whole before line {number}")
            entries.append(Entry(line))
        elif line.startswith("? ") and last and not last.answer and not last.decision:
            last.answer = line.split(" ")[1:]
        elif line.startswith("= ") and last and not last.decision:
            last.decision = line.split(" ")[1:]
        elif line.startswith("- ") and last and last.decision:
            last.actions.append(line.split(" ")[1:])
        else:
            holds(False, f"line {number} is no line of a log here: {line!r}")
    holds(not entries or entries[-1].decision, "the last entry is not whole")
    return entries


def actions(entries, word):
    """The words behind this one of the actions that it begins, in order."""
    return [action[1:] for entry in entries for action in entry.actions if action[0] == word]


def holds_together(entries):
    """Each session opens once, its notices are counted from 1 on, and each transfer that was queued begins once at most and ends once."""
    opened = Counter(entry.event[1] for entry in entries if entry.decision == ["opened"])
    same(str([one for one in opened if opened[one] > 1]), "[]", "sessions that open twice")
    told = defaultdict(list)
    for session, place, *_ in actions(entries, "notify"):
        told[session].append(int(place))
    for session, places in told.items():
        same(str(places), str(list(range(1, len(places) + 1))), f"the places of the notices of session {session}")
    queued = Counter(entry.decision[1] for entry in entries if entry.decision[0] == "queued")
    begun = Counter(words[0] for words in actions(entries, "start"))
    over = Counter(words[0] for word in ("completed", "cancelled") for words in actions(entries, word))
    same(str(sorted(over.items())), str(sorted((one, 1) for one in queued)), "how often transfers are over")
    holds(all(begun[one] == 1 and one in queued for one in begun), f"a transfer begins twice, or was not queued: {begun}")


def sessions_of(entries, user):
    return [entry.event[1] for entry in entries if entry.event[0] == "user" and entry.event[2] == user]


def has_session(entries, user, lines, notices):
    """The user has one session, with exactly these lines and notices, in order, and each of its transfers attached and begun."""
    found = sessions_of(entries, user)
    holds(len(found) == 1, f"{user} has the sessions {found}")
    session = found[0]
    same("\n".join(entry.line() for entry in entries if entry.is_of(session)), "\n".join(lines), f"the lines of {user}")
    told = [f"{what[3]} {what[4]}" for what in actions(entries, "notify") if what[0] == session]
    same("\n".join(told), "\n".join(notices), f"the notices of {user}")
    attached = [entry for entry in entries if entry.decision == ["attached", session]]
    begun = [words[0] for words in actions(entries, "start") if words[0].startswith(f"{session}.")]
    same(str((len(attached), begun)), str((2, [f"{session}.1", f"{session}.2"])), f"the transfers of {user}")
