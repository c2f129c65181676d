#!/usr/bin/env python3
"""Lists the places of older forms in crates/*/src at a commit: what docs/DESIGN-PASS.md counts.

forms.py REV [POINT]: for each point what is found, a line each, and how many; REV is a commit, or . for the files as they lie here."""
import re
import subprocess
import sys
from collections import defaultdict
from pathlib import Path

ROOT = Path(__file__).resolve().parent.parent
SIGNATURE = re.compile(r"^( *)(?:pub(?:\(crate\))? )?(?:extern \"C\" )?fn (\w+)", re.M)
TOKEN = re.compile(r"b?'(?:\\.|[^'])+'|b\"[^\"]*\"|[A-Za-z_]\w*|\d+\w*|[^\s\w]")
WORDS = set("fn let mut if else while for in match return crate u8 u32 u64 usize bool true false self Self as break continue Ok Err Some None".split())
# parameters that may be seen to travel together
TOGETHER = ["s masks log", "text ends", "text ends rows", "rows vars", "domain reading", "fluents actions domain", "ons offs", "sheet above"]


def git(*args):
    return subprocess.run(["git", "-C", ROOT, *args], check=True, capture_output=True, text=True).stdout


def sources(rev):
    """The path of each source with its text, comments blanked out."""
    if rev == ".":
        texts = {str(p.relative_to(ROOT)): p.read_text() for p in sorted(ROOT.glob("crates/*/src/**/*.rt"))}
    else:
        names = [n for n in git("ls-tree", "-r", "--name-only", rev, "crates").split() if "/src/" in n and n.endswith(".rt")]
        texts = {n: git("show", f"{rev}:{n}") for n in names}
    return {n.removeprefix("crates/"): re.sub(r"//[^\n]*", "", t) for n, t in texts.items()}


def lines(texts, pattern):
    return [f"{n}:{i}: {line.strip()}" for n, t in texts.items() for i, line in enumerate(t.splitlines(), 1) if re.search(pattern, line)]


def functions(text):
    """Name, parameters and body of each function."""
    for m in SIGNATURE.finditer(text):
        rest = text[m.start():]
        start = re.search(rf"^{m[1]}(?:\{{|(?:fn|pub|\)).*\{{)\n", rest, re.M)
        end = start and re.search(rf"^{m[1]}\}}", rest[start.end():], re.M)
        if end:
            head = rest[:start.end()]
            yield m[2], re.findall(r"(?:\(|,)\s*(?:mut )?(\w+)\s*:(?!:)", head), rest[start.end():start.end() + end.start()]


def shape(body):
    """The body with each name by its place of first use, and each number, byte and byte string as one."""
    names, out = {}, []
    for token in TOKEN.findall(body):
        if token[0].isdigit() or token[-1] in "'\"":
            out.append("0")
        elif re.match(r"[A-Za-z_]", token) and token not in WORDS:
            out.append(names.setdefault(token, f"v{len(names)}"))
        else:
            out.append(token)
    return " ".join(out)


def twins(texts):
    groups = defaultdict(list)
    for n, t in texts.items():
        for name, _, body in functions(t):
            form = shape(body)
            if len(form.split()) >= 8:
                groups[form].append(f"{n}:{name}")
    return [", ".join(g) for g in groups.values() if len(g) > 1]


def travelling(texts):
    found = []
    for names in TOGETHER:
        many = [f"{n}:{name}" for n, t in texts.items() for name, params, _ in functions(t) if set(names.split()) <= set(params)]
        if many:
            found.append(f"{names}: {len(many)} functions: {', '.join(many)}")
    return found


POINTS = [
    ("1 enums", lambda t: lines(t, r"^ *(pub(\(crate\))? )?enum ")),
    ("1 numbers for refusals and kinds", lambda t: lines(t, r"refusal: (&mut )?u8|refusal: [0-9]|return [356];|kind: u8")),
    ("2 functions that differ in names and numbers alone", twins),
    ("3 loops by while", lambda t: lines(t, r"^ *while ")),
    ("4 conversions, orders and choices by hand", lambda t: lines(t, r"\bfn (wide|larger|least|either|joined|within|number_of|same|line_end)\b")),
    ("5 parameters that travel together", travelling),
    ("6 buffers", lambda t: lines(t, r"let mut \w+ = \[")),
    ("7 choices of the function to run", lambda t: lines(t, r"match kind")),
]


def main():
    texts = sources(sys.argv[1])
    for title, find in POINTS:
        if len(sys.argv) < 3 or title.startswith(sys.argv[2]):
            found = find(texts)
            print(f"{title}: {len(found)}", *found, sep="\n    ")


main()
