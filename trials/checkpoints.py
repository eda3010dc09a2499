"""The cases on scripts that are saved and resumed.

    trials/checkpoints.py [COMMAND ..]

COMMAND is as that of trials/audits.py. Each drawn script is cut at a line. The first part is saved, and the second resumed from that
state, with the files and the links as the first left them: what is printed for each event has to be what the whole script prints for it,
byte for byte, and the same files have to be left. Each case prints a line; the status is 1 if one failed.
"""

import random
import sys

sys.dont_write_bytecode = True
from audits import Differs, drawn, main, run, told  # noqa: E402

SCRIPTS = 1000
LOCKS = ["off", "1:100:both", "2:0:ip", "0:1000:user"]


def parts(printed):
    """The lines of the entries, those behind them, and whether they say what is left."""
    lines = printed.split(b"\n")[:-1]
    entries = [line for line in lines if line[:2] in (b"> ", b"? ", b"= ", b"- ")]
    return entries, lines[len(entries) :]


def done(program, word, lines):
    status, printed = run(program, word, b"".join(line + b"\n" for line in lines))
    if status != 0:
        raise Differs(f"{word} ended with {status}: {printed[-200:]!r}")
    return parts(printed)


def names(state):
    """The links that a state names, each with how many of its bytes were taken."""
    links = {}
    for line in state:
        word, *fields = line.split(b" ")
        if word == b"slot" and fields[2] == b"link":
            links[fields[3]] = 0
        elif word == b"job":
            links[fields[5]] = int(fields[3]) if fields[6] in (b"stor", b"appe") else 0
    return links


def left(line, taken):
    """The line of a link of which so many bytes were taken."""
    *front, held = line.split(b" ")
    return b" ".join([*front, held[2 * taken :] or b"."])


def resumes(program, lines, cut):
    """The script with its options line, cut before a later line. It gives how much there is in the state."""
    first, second = lines[:cut], lines[cut:]
    entries, behind = done(program, "script", lines)
    early, state = done(program, "save", first)
    kept = done(program, "script", first)[1]
    set_up = {line.split(b" ")[1]: line for line in first if line.startswith(b"link ")}
    taken = names(state)
    links = [left(line, taken.get(number, 0)) for number, line in set_up.items()]
    files = [line for line in kept if line.startswith(b"file ")]
    late, later = done(program, "resume", [lines[0], *state, b"--", *files, *links, *second])
    if early + late != entries:
        pairs = zip(early + late, entries)
        raise Differs(next((f"{got!r} in place of {due!r}" for got, due in pairs if got != due), "lines are missing, or too many"))
    if [line for line in later if line.startswith(b"file ")] != [line for line in behind if line.startswith(b"file ")]:
        raise Differs("other files are left")
    return {line.split(b" ")[0] for line in state}


def lines_of(seed):
    """A drawn script: stories of some sessions, or events of a stress run."""
    chance = random.Random(seed)
    script = told(seed, chance.randrange(2, 9)) if chance.random() < 0.8 else drawn(seed, chance.randrange(1, 6))
    lines = script.split(b"\n")[:-1]
    lines[0] = lines[0].replace(b" off ", b" %s " % chance.choice(LOCKS).encode())
    return lines, chance.randrange(1, len(lines) + 1)


def of_drawn_scripts(program):
    seen = set()
    for seed in range(SCRIPTS):
        lines, cut = lines_of(seed)
        try:
            seen |= resumes(program, lines, cut)
        except Differs as why:
            raise Differs(f"script {seed}, cut before line {cut + 1}: {why}") from why
    if seen != {b"checkpoint", b"used", b"record", b"session", b"slot", b"queued", b"job"}:
        raise Differs(f"the states have no more than {seen}")


def of_each_line(program):
    lines = told(1, 6).split(b"\n")[:-1]
    for cut in range(1, len(lines) + 1):
        resumes(program, lines, cut)


def of_a_state_without_its_links(program):
    """An event before the links that the state names is a bad line."""
    lines = told(1, 6).split(b"\n")[:-1]
    for cut in range(1, len(lines)):
        state = done(program, "save", lines[:cut])[1]
        if names(state):
            head = [lines[0], *state, b"--"]
            script = b"".join(line + b"\n" for line in [*head, b"9 sweep"])
            if run(program, "resume", script) != (2, b"bad line %d\n" % (len(head) + 1)):
                raise Differs(f"cut before line {cut + 1}, the event is taken")


CASES = {
    "drawn scripts, each cut at a line": of_drawn_scripts,
    "a script, cut at each line": of_each_line,
    "an event before a link of the state": of_a_state_without_its_links,
}


if __name__ == "__main__":
    sys.exit(main(sys.argv[1:], CASES))
