"""The picture and the table of crates in docs/ARCHITECTURE.md: by the groups of crates.txt, the lowest last in the picture and first
in the table, where each crate has the first sentence of its root file, and crates of tests have one row."""

import re

from crates import TOP

ARCHITECTURE = TOP / "docs" / "ARCHITECTURE.md"
BEGIN, END = "<!-- written by .ci/documents --write -->\n", "<!-- end of what is written -->\n"
# The columns of a line of the picture.
WIDTH = 120
# So many words before a colon say enough of a crate.
SAID = 6


def groups():
    """The groups of crates.txt, lowest first: the heading of each, and its crates."""
    found = []
    for line in (TOP / "crates.txt").read_text().splitlines():
        if line.startswith("# "):
            found.append((line[2:], []))
        elif line:
            found[-1][1].append(line.partition(":")[0].split()[0])
    return found


def sentence(name):
    """The first sentence of a crate's documentation, without what follows a semicolon, or a colon after many words."""
    root = TOP / "crates" / name / "src"
    text = (root / "lib.rt" if (root / "lib.rt").is_file() else root / "main.rt").read_text()
    first = " ".join(line[3:].strip() for line in text.split("//!\n")[0].splitlines() if line.startswith("//!"))
    first = re.split(r"(?<=\.)\s|; ", first.removeprefix(f"{name}: "))[0].rstrip(".")
    head, _, _ = first.partition(": ")
    first = head if len(head.split()) > SAID else first
    return first[:1].lower() + first[1:]


def picture():
    """A line for each group, more where its crates take more."""
    heads = [re.split(",| of the ", head)[0] for head, _ in groups()]
    margin = max(map(len, heads)) + 2
    lines = []
    for head, (_, names) in reversed(list(zip(heads, groups()))):
        rows = [""]
        for name in names:
            if rows[-1] and margin + len(rows[-1]) + len(name) + 2 > WIDTH:
                rows.append("")
            rows[-1] += ("  " if rows[-1] else "") + name
        lines += [f"{head if number == 0 else '':{margin}}{row}" for number, row in enumerate(rows)]
    return "```text\n" + "\n".join(lines) + "\n```\n"


def table():
    lines = ["| crate | does |", "|---|---|"]
    for head, names in groups():
        if head.startswith("tests"):
            lines.append(f"| {', '.join(f'`{name}`' for name in names)} | {head} |")
        else:
            lines += [f"| `{name}` | {sentence(name)} |" for name in names]
    return "\n".join(lines) + "\n"


def with_layers(text):
    """The document with picture and table as they have to be."""
    head, _, rest = text.partition(BEGIN)
    return head + BEGIN + "\n" + picture() + "\n" + table() + "\n" + END + rest.partition(END)[2]
