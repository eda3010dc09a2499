"""The page of claims: a table for each crate, of the calls that another crate can make, with their clauses."""

from crates import TOP

CLAIMS = TOP / "docs" / "CLAIMS.md"
HEAD = """\
# Claims

Every call that another crate can make, and of a program each `pub` function, with its clauses. `.ci/documents --write` writes
this page from the crates, and `.ci/run` refuses one that differs. The headline, what is trusted, and what nothing says is in
[PROVED.md](PROVED.md).

- *clauses*: the names of its `ensures`; (unnamed) is one without a name. A method of a trait keeps the clauses of the trait
  besides its own.
- *needs*: the names of its `requires`.
- *definitions*: the words of `specs/` that its contract cites, and their file there; of another crate with its name.
- *wrong bodies refused*: the edits of `must-fail/` that change a line of this function.

Below a table stands what is proved of its calls in plain words, from their comments, each with the clauses that say so; those behind
*also* are of the calls that are named before them.
"""


def ticked(words):
    return " ".join(f"`{word}`" if word else "(unnamed)" for word in words)


def table(heads, rows):
    lines = ["| " + " | ".join(heads) + " |", "|" + "---|" * len(heads)]
    return lines + ["| " + " | ".join(row) + " |" for row in rows] + [""]


def cited(function):
    files = {}
    for word, where in sorted(function.cited.items()):
        files.setdefault(where.removeprefix(function.crate + "/"), []).append(word)
    return ", ".join(f"{ticked(words)} ({where})" for where, words in sorted(files.items()))


def named(function):
    of = f" of `{function.trait}`" if function.trait not in ("", function.owner) else ""
    return ticked(function.names) + of


def claims_of(crate, own_traits):
    calls = [f for f in crate.functions if f.names]
    lines = [f"## {crate.name}", ""]
    rows = [[named(f), ticked(f.clauses), ticked(f.requires), cited(f), ticked(f.edits)] for f in calls if f.clauses]
    if rows:
        lines += table(["call", "clauses", "needs", "definitions", "wrong bodies refused"], rows)
    for f in (f for f in crate.functions if f.proved):
        lines += [f"`{f.call()}`:", "", *(line for point in f.proved for line in point), ""]
    bare = sorted({named(f) for f in calls if not f.clauses and f.trait not in own_traits})
    if bare:
        lines += ["Without a clause of its own: " + ", ".join(bare) + ".", ""]
    inside = [(edit, f) for edit, f in crate.edits.items() if not (f and f.names)]
    if inside:
        lines += ["Wrong bodies in what only this crate calls:", ""]
        rows = [[f"`{edit}`", f"`{f.call()}`" if f else "a constant", ticked(f.clauses) if f else ""] for edit, f in inside]
        lines += table(["wrong body refused", "function", "clauses"], rows)
    if crate.definitions:
        rows = [[f"`{name}.antt`", subject, ticked(words)] for name, (subject, words) in crate.definitions.items()]
        lines += table(["file of `specs/`", "about", "definitions"], rows)
    return lines if len(lines) > 2 else []


def claims(crates):
    own_traits = {name for crate in crates for (_, name), (kind, _) in crate.types.items() if kind == "trait"}
    lines = [line for crate in crates for line in claims_of(crate, own_traits)]
    return HEAD + "\n" + "\n".join(lines).rstrip("\n") + "\n"
