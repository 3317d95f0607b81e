#!/usr/bin/env python3
"""Brings the names of this repository's definitions and lemmas to the spelling of today's Rattle, after port.py has run.

usage: python3 tools/respell.py      once, at the top of the repository

A definition, a lemma, a field or a helper is spelled in snake case (pairingFault and pairing-fault become pairing_fault);
a type keeps its capitals. Renamed are the names that specs/ and proofs/ declare, wherever specs/, proofs/ and the clauses
of src/ use them, and in the pages and comments where they are in camel case. Goals that Rattle makes keep their names.
Where two names would fall together, SETTLED says what each is called. The script stops, and writes nothing, where two
names of one file still do. A definition may have the name of a function of src/: clauses call no function.
"""

import collections
import glob
import os
import re

# What would fall together with another name of its file or its module.
SETTLED = {
    "pairing-at": "pairing_at_lem",
    "two-chains": "two_chains_lem",
    "no-members": "no_members_lem",
    "by-stream": "by_stream_lem",
    "by-lane": "by_lane_lem",
    "stream-fault": "stream_fault_lem",
    "fault-at": "fault_at_lem",
    "place_at": "place_at_lem",
    "of-kind": "is_of_kind",
    "in_order": "in_order_lem",
    "goes_on": "goes_on_lem",
    "choice-words": "choice_part",
}

NAME = r"[^\s(){}\[\];:,.\"λ→×⊎≡∷∙⌜⌝@|`]+"
DECLARED = re.compile(r"^\s*(?:abbrev |unfoldable |pub |axiom )*(?:(?:data|record) )?(" + NAME + r")\s*(?:[({][^)}]*[)}]\s*)*:\s+(.*)$")
TOKEN = re.compile(NAME)


def read(path):
    with open(path, encoding="utf-8") as f:
        return f.read()


def declared():
    """The names that specs/ and proofs/ declare, but for the goals of Rattle's."""
    names = set()
    for path in sources(".antt"):
        for line in read(path).split("\n"):
            if line.lstrip().startswith("--"):
                continue
            m = DECLARED.match(line)
            if m and not re.fullmatch(r"(?:goal|given|need|choice)\." + re.escape(m.group(1)), m.group(2).strip()):
                names.add(m.group(1))
    return names


def snake(name):
    """The name in snake case; a part that begins with a capital, as a type does, keeps its capitals."""
    parts = [re.sub(r"(?<=[a-z0-9])[A-Z]", lambda m: "_" + m.group(0).lower(), p) if re.match(r"[a-z]", p) else p for p in name.split("-")]
    return "_".join(parts)


def sources(*endings):
    for part in ("specs", "proofs", "src"):
        for path in sorted(glob.glob(f"crates/*/{part}/**/*", recursive=True)):
            if path.endswith(endings):
                yield path


def renamed(table, text, only_camel=False):
    def one(m):
        word = m.group(0)
        if only_camel and "-" in word:
            return word
        return table.get(word, word)

    return TOKEN.sub(one, text)


def comment_at(line, mark):
    """Where a comment begins in a line, or its end."""
    if line.lstrip().startswith(mark):
        return 0
    at = line.find(" " + mark + " ")
    return len(line) if at < 0 else at


def turned(table, path, text):
    if path.endswith(".md"):
        return re.sub(r"`[^`\n]*`", lambda m: renamed(table, m.group(0), True), text)
    mark = "--" if path.endswith(".antt") else "//"
    out = []
    for line in text.split("\n"):
        at = comment_at(line, mark)
        out.append(renamed(table, line[:at]) + renamed(table, line[at:], True))
    return "\n".join(out)


def functions():
    return {m.group(1) for path in sources(".rt") for m in re.finditer(r"\bfn (\w+)", read(path))}


def together(table, path, text):
    """Names of one file that would fall together."""
    mark = "--" if path.endswith(".antt") else "//"
    seen = collections.defaultdict(set)
    for line in text.split("\n"):
        for m in TOKEN.finditer(line[: comment_at(line, mark)]):
            seen[table.get(m.group(0), m.group(0))].add(m.group(0))
    return [(new, sorted(old)) for new, old in sorted(seen.items()) if len(old) > 1]


def main():
    table = {name: SETTLED.get(name, snake(name)) for name in declared()}
    table |= {old: new for old, new in SETTLED.items() if old in table}
    table = {old: new for old, new in table.items() if old != new}
    own = functions()
    bad = [(path, pair) for path in sources(".antt", ".rt") for pair in together(table, path, read(path)) if pair[0] not in own]
    for path, (new, old) in bad:
        print(f"{path}: {' and '.join(old)} would both be {new}")
    if bad:
        return 1
    pages = ["README.md", "CONTRIBUTING.md", *sorted(glob.glob("docs/*.md"))]
    for path in [*sources(".antt", ".rt"), *pages]:
        text = read(path)
        new = turned(table, path, text)
        if new != text:
            with open(path, "w", encoding="utf-8") as f:
                f.write(new)
    print(f"respell: {len(table)} names")
    return 0


if __name__ == "__main__":
    raise SystemExit(main())
