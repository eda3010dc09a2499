"""The cases on printed logs, which ftp_check has to find right or wrong.

    trials/logs.py [COMMAND ..]

COMMAND is the checker; without one it is FTP_CHECK of the environment, or else crates/ftp_check/out/ftp_check, which `rt ci` builds.
Each printed log of examples/ has to be right as it is. Then one place of it is changed, each in turn: a decision or one of its fields,
an action, which is left out, told twice or told behind the next one, and each of its fields. The log has to be refused at the entry that
was changed, with the decision that is due there; where the changed line can stand in no log, as a bad text, of which nothing is printed.
Of some logs entries have to be explained, by earlier ones that are written down here.
Each case prints a line; the status is 1 if one failed.
"""

import os
import shlex
import subprocess
import sys
from concurrent.futures import ThreadPoolExecutor
from pathlib import Path

TOP = Path(__file__).resolve().parent.parent
PROGRAM = TOP / "crates" / "ftp_check" / "out" / "ftp_check"
PATIENCE = 60
BAD_TEXT = 2, b""
# In place of a word, another one that can stand there.
OTHERS = {
    "delivered": "lost",
    "lost": "delivered",
    "login": "logout",
    "logout": "login",
    "got": "put",
    "put": "got",
    "deleted": "madedir",
    "madedir": "removeddir",
    "removeddir": "deleted",
    "none": "reached",
    "reached": "locked",
    "locked": "none",
    "transientfile": "local",
    "permanentfile": "permanentdir",
    "permanentdir": "permanentfile",
    "notproxy": "decode",
    "decode": "notproxy",
}
MOVES = "got", "put"
# Behind the two ports of the range that are granted at entries 12 and 13, and the PASV that finds it full: the holder of the first one
# connects to it, and again; a stranger connects to the second one; session 2 gives it up, and its client connects to it.
LATER = """> 2 data 11 10.0.0.1:4001 50000
= attached 1
> 2 data 12 10.0.0.1:4001 50000
= turned
- close 12
> 2 data 13 10.0.0.2:4001 50001
= turned
- close 13
> 2 abor 2
= aborted
- reply 2 0 226 Closed data channel
> 2 data 14 10.0.0.1:4001 50001
= turned
- close 14
"""
WHY = {14: "full 12 13", 0: "plain", 12: "plain", 15: "held 12", 16: "free 15", 17: "free -", 18: "plain", 19: "free 18"}


class Differs(Exception):
    """The checker says something else than what is due."""


def log_of(printed):
    """The lines of a log: the options line of its script, and what was printed, without the lines on links and files."""
    script = printed.with_suffix(".script").read_text().splitlines()
    options = [line for line in script if line.startswith("options ")][:1]
    return options + [line for line in printed.read_text().splitlines() if line[:1] in ">?=-"]


def checked(program, lines, words=("check",)):
    text = "".join(line + "\n" for line in lines).encode()
    done = subprocess.run([*program, *words], input=text, capture_output=True, timeout=PATIENCE)
    return done.returncode, done.stdout


def one_more(word):
    """A number, a trace id or a ticket, one more than this."""
    if word.startswith("0x"):
        return f"0x{int(word, 16) + 1:x}"
    session, dot, nr = word.rpartition(".")
    return f"{session}{dot}{int(nr) + 1}"


def other(word):
    return OTHERS.get(word) or one_more(word)


def with_word(words, place, word):
    return " ".join([*words[:place], word, *words[place + 1 :]])


def changed_decisions(line):
    """The line with another decision, and with each of its fields changed."""
    words = line.split(" ")
    yield "= used" if line != "= used" else "= unknown"
    for place in range(2, len(words)):
        yield with_word(words, place, other(words[place]))


def changed_reply(words):
    for place in 2, 3:
        yield place, one_more(words[place])
    yield 4, "250" if words[4] != "250" else "226"
    for place in range(5, len(words)):
        yield place, words[place] + "~"


def changed_notice(words):
    for place in 2, 3, 4:
        yield place, one_more(words[place])
    if words[5] in OTHERS:
        yield 5, OTHERS[words[5]]
    if words[5] in MOVES:
        yield 6, one_more(words[6])
    for place in range(9, len(words)):
        if words[place][:1] not in ("", "\\"):
            yield place, "~" + words[place][1:]


def changed_fields(line):
    """The line of an action with each of its fields changed to another that can stand there."""
    words = line.split(" ")
    if words[1] == "reply":
        places = changed_reply(words)
    elif words[1] == "notify":
        places = changed_notice(words)
    else:
        places = ((place, other(words[place])) for place in range(2, len(words)))
    for place, word in places:
        yield with_word(words, place, word)


def changed_actions(line, behind):
    """In place of the line of an action and those behind it: none, twice the same, the next one first, and each field changed."""
    yield behind
    yield [line, line, *behind]
    if behind and behind[0].startswith("- ") and behind[0] != line:
        yield [behind[0], line, *behind[1:]]
    for new in changed_fields(line):
        yield [new, *behind]


def unlawful_actions(line):
    """The line with numbers that do not suit its text or its kind."""
    words = line.split(" ")
    if words[1] != "notify":
        return
    if words[5] not in MOVES:
        yield with_word(words, 6, "1")
    if words[5] != "renamed":
        yield line + "~"
        for place in 7, 8:
            yield with_word(words, place, one_more(words[place]))


def misspelled(line):
    """The line with each word in turn, up to its text, in a spelling that nothing has."""
    words = line.split(" ")
    ends = {"reply": 5, "notify": 9} if words[0] == "-" else {}
    for place in range(min(ends.get(words[1], len(words)), len(words))):
        yield with_word(words, place, words[place] + "\\")


def changes(lines):
    """Every change: the new lines, and how the checker has to end with them."""
    entry = -1
    for at, line in enumerate(lines):
        before, behind = lines[:at], lines[at + 1 :]
        bad = [*misspelled(line), "", "# " + line]
        if line.startswith(">"):
            entry += 1
        elif line.startswith("="):
            due = line.split(" ")[1]
            for new in changed_decisions(line):
                yield [*before, new, *behind], (1, f"wrong {entry} due {due}\n".encode())
        elif line.startswith("-"):
            for new in changed_actions(line, behind):
                yield before + new, (1, f"actions {entry}\n".encode())
            bad += unlawful_actions(line)
        for new in bad:
            yield [*before, new, *behind], BAD_TEXT


def is_checked(program, lines, due, words=("check",)):
    told = checked(program, lines, words)
    if told != due:
        raise Differs(f"{words}: {told} in place of {due}, of\n" + "\n".join(lines))


def of_example(program, printed):
    lines = log_of(printed)
    count = sum(line.startswith(">") for line in lines)
    is_checked(program, lines, (0, f"right {count}\n".encode()))
    todo = list(changes(lines))
    if len(todo) < 10 * count:
        raise Differs(f"only {len(todo)} changes of {count} entries")
    with ThreadPoolExecutor(os.cpu_count()) as pool:
        for done in [pool.submit(is_checked, program, *change) for change in todo]:
            done.result()
    return len(todo)


def of_reasons(program):
    """Why the entries of a log were decided, and what is told where it has no such entry or is not right."""
    folder = TOP / "crates" / "ftp_script"
    options = (folder / "stdin").read_text().splitlines()[:1]
    lines = options + [line for line in (folder / "stdout").read_text().splitlines() if line[:1] in ">?=-"] + LATER.splitlines()
    is_checked(program, lines, (0, b"right 20\n"))
    for entry, evidence in WHY.items():
        is_checked(program, lines, (0, f"{evidence}\n".encode()), ("why", str(entry)))
    for place in "20", "18446744073709551615", "18446744073709551616", "9" * 300:
        is_checked(program, lines, (6, b""), ("why", place))
    for words in ("why",), ("why", "07"), ("why", "-1"), ("why", "+1"), ("why", ""), ("why", "1", "2"), ("why", "1 "):
        is_checked(program, lines, (64, b""), words)
    other = [line.replace("= aborted", "= used") for line in lines]
    is_checked(program, other, (1, b"wrong 18 due aborted\n"), ("why", "14"))
    is_checked(program, lines[:-1], (1, b"actions 19\n"), ("why", "14"))
    is_checked(program, [*lines, "= used"], BAD_TEXT, ("why", "14"))
    return len(WHY)


def main(words):
    program = words or shlex.split(os.environ.get("FTP_CHECK", "")) or [str(PROGRAM)]
    failed = 0
    logs = sorted((TOP / "examples").glob("*.printed"))
    for printed in logs:
        try:
            count = of_example(program, printed)
        except Exception as why:  # whatever the checker did, the next log is tried
            failed += 1
            print(f"FAIL  {printed.name}: {type(why).__name__}: {why}", flush=True)
        else:
            print(f"pass  {printed.name}, and {count} changes of it", flush=True)
    try:
        count = of_reasons(program)
    except Exception as why:
        failed += 1
        print(f"FAIL  reasons: {type(why).__name__}: {why}", flush=True)
    else:
        print(f"pass  the reasons for {count} entries", flush=True)
    print(f"{len(logs) + 1 - failed} passed, {failed} failed")
    return 1 if failed or not logs else 0


if __name__ == "__main__":
    sys.exit(main(sys.argv[1:]))
