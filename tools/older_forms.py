#!/usr/bin/env python3
"""Lists the places in crates/*/src that may stand in an older form, by the points of docs/DESIGN-PASS.md.

Usage: tools/older_forms.py [FOLDER]. FOLDER is a checkout, this one if left out. Each place is a line `point file:line text`; the
last lines count them, the tests' apart. What it lists is where to look: whether a place is one of the older forms is read there.
"""
import collections
import pathlib
import re
import sys

root = pathlib.Path(sys.argv[1] if len(sys.argv) > 1 else pathlib.Path(__file__).parent.parent)
NUMBER = r"(?:u8|u16|u32|u64|usize|bool)"
LINES = [
    ("1 flag", rf"^\s*(?:pub(?:\(crate\))? )?\w+: bool,$"),
    ("1 number that stands for a case", r"^(?:pub(?:\(crate\))? )?const (?!MOST|FEWEST|TABLE|TEXT_ROOM|BLOCK|START)\w+: u(?:8|16|32) "),
    ("1 tuple of numbers", rf"-> .*\({NUMBER}(?:, {NUMBER})+\)"),
    ("1 arm of a case without a value", r"^\s*(?:None|Err\(_\)) =>"),
    ("3 loop over a range", r"^\s*(?:'\w+: )?for .* in .*\.\."),
    ("3 loop by a condition", r"^\s*(?:'\w+: )?(?:while|loop)\b"),
    ("4 method that tells a value apart", r"^\s*match (?:\*?self|finding|somebody|held|rank|answer|first|\(first, second\)) \{"),
    ("6 array in a struct", r"^\s*(?:pub(?:\(crate\))? )?\w+: \[+[\w<>]+; ?\w+\](?:; ?\w+\])?,$"),
    ("6 place in a flat table", r"\[\w+ \* \w+ .*\+|\b(?:16|32) \* \w+ as usize"),
    ("7 function in a value", r"\bdyn \w|: fn\("),
]


def files():
    for path in sorted(root.glob("crates/*/src/**/*.rt")):
        yield path, path.read_text().splitlines()


def signatures(lines):
    """Each function's line, parameters and contract."""
    at = 0
    while at < len(lines):
        if re.match(r"\s*(?:#\[.*\]\s*)?(?:pub(?:\(crate\))? )?(?:extern \"C\" )?fn ", lines[at]):
            start, text = at, lines[at].strip()
            while not re.search(r"[{;]\s*$", lines[at]) or re.match(r"\s*(?:ensures|requires)\b.*\}$", lines[at]):
                at += 1
                if at >= len(lines):
                    break
                text += "\n" + lines[at].strip()
            yield start, text
        at += 1


def shape(body):
    """A function's body with other names and numbers."""
    return re.sub(r"\b(?!fn|if|else|for|in|match|return|let|mut|self|None|Some|Ok|Err)\w+\b", "_", body)


found = collections.Counter()
in_tests = collections.Counter()


def say(point, path, line, text):
    tests = path.name == "tests.rt"
    (in_tests if tests else found)[point] += 1
    print(f"{point:34} {path.relative_to(root / 'crates')}:{line + 1} {text.strip()[:110]}")


shapes, pairs, facts = (collections.defaultdict(list) for _ in range(3))
for path, lines in files():
    for number, line in enumerate(lines):
        if re.match(r"\s*//", line):
            continue
        for point, pattern in LINES:
            if re.search(pattern, line):
                say(point, path, number, line)
    if path.name == "tests.rt":
        continue
    for number, text in signatures(lines):
        head = text.split("\n    ")[0]
        inside = re.search(r"\((.*?)\)(?: ->|\s*(?:requires|ensures|where|\{|;|$))", text.replace("\n", " "))
        parameters = [p.strip() for p in inside.group(1).split(",") if ":" in p] if inside else []
        for i, a in enumerate(parameters):
            for b in parameters[i + 1:]:
                pairs[a.replace("mut ", ""), b.replace("mut ", "")].append((path, number, text.split("(")[0]))
        for clause in set(re.findall(r"(?:requires|ensures) \w+ \{ (.*) \}", text)):
            facts[clause].append((path, number, clause))
    starts = [n for n, _ in signatures(lines)] + [len(lines)]
    for a, b in zip(starts, starts[1:]):
        body = [x.strip() for x in lines[a:b] if x.strip() and not re.match(r"\s*(?://|ghost|ensures|requires|#\[|impl|pub (?:struct|enum|const)|pub\w* fn|fn )", x)]
        if len(body) >= 4:
            shapes[shape("\n".join(body))].append((path, a, lines[a]))
for places in shapes.values():
    if len(places) > 1:
        for place in places:
            say("2 bodies of one shape", *place)
for places in pairs.values():
    if len({(p, n) for p, n, _ in places}) >= 3:
        for place in places:
            say("5 parameters that go together", *place)
for clause, places in facts.items():
    if len(places) >= 3:
        for place in places:
            say("5 fact in three contracts or more", *place)

answers = [p.read_text() for p in root.glob("crates/*/proofs/**/Answers.antt")]
lemmas = [p.read_text() for p in root.glob("crates/*/proofs/*.antt")]
print()
for point in sorted(set(found) | set(in_tests)):
    print(f"{point}: {found[point]}, and {in_tests[point]} in tests")
print(f"8 files of answers: {len(answers)}")
print(f"8 answers: {sum(len(re.findall(r'^pub [^ ]+ : goal[.]', t, re.M)) for t in answers)}")
print(f"8 lines of answers: {sum(t.count(chr(10)) for t in answers)}")
print(f"8 lemmas beside them: {sum(len(re.findall(r'^(?:pub )?[a-z][^ ]* : ', t, re.M)) for t in lemmas)}")
print(f"8 lines of lemmas: {sum(t.count(chr(10)) for t in lemmas)}")
