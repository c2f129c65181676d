#!/usr/bin/env python3
"""Brings the project's own names in specs/ and proofs/ to snake case: usage: tools/respell.py [--dry] at the top of the project, once, after port.py.

A name is the project's own where a file of specs/, or a file right in proofs/ or in a folder of laws there, declares it: a definition, a lemma, a field, a constructor. Such a name that begins with a
small letter loses its capitals and hyphens (`earliestOf` is `earliest_of`, `case-of` is `case_of`). Types, modules, names of the library and what Rattle itself makes keep theirs. It goes by words, in
.antt, .rt and .edit files and in the pages; in a .rt file's code no such word stands, since functions and variables there are in snake case already. What would fall together with another word is listed
and kept, or has a name of its own in OTHER."""
import os
import re
import sys

# would fall together with a word that stands already: another name
OTHER = {
    "all-below": "all_below_law", "lowest-off": "lowest_off_law", "answer-of": "answer_for", "in-range": "index_in_range", "inOrder": "signs_in_order", "isDigit": "digit_byte", "line-end": "end_of_line", "next-at": "next_part_at",
    "number-below": "below_number", "of-test": "stands_of_test", "ofWord": "of_number", "oneMore": "one_added", "plainRow": "row_of_plain", "readAs": "as_read", "readRule": "rule_read",
    "readTest": "test_read", "readWalk": "walk_read", "run-read": "read_of_run", "sheetLines": "lines_of_sheet", "signOf": "sign_meant", "smallest-first": "smallest_is_first",
    "stateAt": "state_before", "test-walk": "walk_of_test", "variableAt": "variable_meant", "versionOf": "version_meant", "with-reading": "reading_width", "withLog": "and_log",
    "withReading": "and_reading", "after-part": "after_part_law", "ask-at": "ask_at_law", "effect-cases": "effect_cases_law", "end-cases": "end_cases_law", "further-text": "further_text_law",
    "masks-text": "masks_text_law", "no-values": "no_values_law", "of-walk": "stands_of_walk", "possible-row": "possible_row_law", "step-cases": "step_cases_law", "test-free": "test_free_law",
    "test-sign": "test_sign_law", "test-varies": "test_varies_law", "three-values": "three_values_law", "two-values": "two_values_law",
}
# kept as they are
KEEP = set()

WORD = re.compile(r"[^\W\d]['\w◌-]*")
HEAD = re.compile(r"^(?:  |    )?((?:[^\s:(){},;=]+\s+)+)(?=[({:])")
MARKS = {"unfoldable", "abbrev", "pub", "data", "record", "ghost"}


def files(root, ends):
    for top in ("crates", "docs", "tests", "work", "README.md", "CHANGELOG.md"):
        top = os.path.join(root, top)
        if os.path.isfile(top):
            yield top
        for folder, dirs, names in os.walk(top):
            dirs[:] = [d for d in dirs if d not in ("out", "target", ".git")]
            for n in sorted(names):
                p = os.path.join(folder, n)
                if n.endswith(ends) and not os.path.islink(p):
                    yield p


def of_function(path):
    """Whether a file answers the goals of a function: it stands in a folder that is named as a function or a cycle."""
    parts = path.split("/proofs/")
    return len(parts) == 2 and any(not d[0].isupper() for d in parts[1].split("/")[:-1])


def declared(line):
    """The names that a line declares."""
    if line.lstrip().startswith(("use ", "--", "let ", "in ", "|", "λ", "elim ", "mutual", "infix")):
        return []
    m = HEAD.match(line)
    if not m:
        return []
    words = m[1].split()
    while words and words[0] in MARKS:
        words.pop(0)
    after = line[m.end():].lstrip()
    # before a `:` each word is a name; before a bracket only the first is, and the line has to say what it is of
    if after.startswith(":"):
        return words
    return words[:1] if len(words) == 1 and " : " in line else []


def snake(name):
    s = re.sub(r"(?<=[a-z0-9])([A-Z])", lambda m: "_" + m[1].lower(), name)
    return s.replace("-", "_")


def main():
    dry = "--dry" in sys.argv
    root = "."
    antt = [p for p in files(root, (".antt",))]
    own, outside, words = {}, set(), {}
    for p in antt:
        text = open(p, encoding="utf-8").read()
        for line in text.split("\n"):
            if m := re.match(r"\s*use (?!Rattle\.(?!std))([\w.◌·'-]+)\.\{([^}]*)\}", line):
                outside.update(w.split(" as ")[0].strip() for w in m[2].split(","))
            else:
                for name in declared(line):
                    if not of_function(p):
                        own.setdefault(name, p)
        for w in WORD.findall(text):
            words[w] = words.get(w, 0) + 1
    for p in files(root, (".rt",)):
        for w in WORD.findall(open(p, encoding="utf-8").read()):
            words[w] = words.get(w, 0) + 1
    to = {}
    for name, where in sorted(own.items()):
        if not re.match(r"[a-z]", name) or not re.fullmatch(r"[\w'-]+", name) or snake(name) == name:
            continue
        new = OTHER.get(name, snake(name))
        if name in KEEP:
            continue
        why = [w for w, has in (("of the library too", name in outside), ("stands already: " + new, new in words)) if has]
        if why:
            print(f"kept: {name} ({where}): {'; '.join(why)}")
            continue
        to[name] = new
    back = {}
    for a, b in to.items():
        if b in back:
            print(f"two become {b}: {back[b]}, {a}")
        back[b] = a
    print(f"{len(to)} names")
    if dry:
        return

    for p in files(root, (".antt", ".rt", ".edit")):
        text = open(p, encoding="utf-8").read()
        # a file that answers a function's goals has names that Rattle makes, which may be as a lemma's elsewhere
        mine = {n for line in text.split("\n") for n in declared(line)} if of_function(p) else ()
        new = WORD.sub(lambda m: m[0] if m[0] in mine else to.get(m[0], m[0]), text)
        if new != text:
            open(p, "w", encoding="utf-8").write(new)
    camel = {a: b for a, b in to.items()}
    ticked = re.compile(r"`[^`\n]*`")
    for p in files(root, (".md",)):
        text = open(p, encoding="utf-8").read()
        new = ticked.sub(lambda m: WORD.sub(lambda k: camel.get(k[0], k[0]), m[0]), text)
        if new != text:
            open(p, "w", encoding="utf-8").write(new)


main()
