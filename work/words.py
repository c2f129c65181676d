"""Texts of Rattle (.rt) and antt (.antt) as words: comments taken away, what a file imports, and which names the rest of it says. It reads text alone and proves nothing."""
import re
from dataclasses import dataclass
from pathlib import Path

# a name of antt is any run of characters but these; a dot before it makes it a field, or a member of a module
NAME = re.compile(r'[^\s(){}.;,@"«»]+')
WORD = re.compile(r"[A-Za-z_]\w*")
USE = re.compile(r"^[ \t]*(?P<shown>pub\s+)?(?P<ghost>ghost\s+)?use\s+(?P<path>[^\s{};]+?)(?:(?:\.|::)\{(?P<names>[^}]*)\})?(?:\s+as\s+(?P<alias>[^\s;]+))?[ \t]*;?[ \t]*$", re.M)
# a requires, an ensures, or what a ghost field or member of an impl is
CLAUSE = re.compile(r"\b(?:requires\b|ensures\b|ghost (?!use\b)\w+ ?[:=])[^{;]*\{")


@dataclass
class Import:
    line: int
    path: str
    source: str  # its name where it comes from
    name: str  # its name here
    ghost: bool
    shown: bool  # passed on by `pub use`
    whole: bool  # a module and not a name of one


def blank(text):
    return re.sub(r"[^\n]", " ", text)


def without_comments(text, code):
    """The text with blanks for its comments, so that every line keeps its number."""
    if code:
        return re.sub(r"//[^\n]*|/\*.*?\*/", lambda m: blank(m[0]), text, flags=re.S)
    return re.sub(r"(?:(?<=\s)|(?<![^\n]))--[^\n]*|\{-.*?-\}", lambda m: blank(m[0]), text, flags=re.S)


def imports_and_rest(text):
    """The imports of a text without comments, and the text with blanks for its use lines."""
    found = []
    for use in USE.finditer(text):
        line = text.count("\n", 0, use.start("path")) + 1
        path, ghost, shown = use["path"], bool(use["ghost"]), bool(use["shown"])
        if use["names"] is None:
            source = re.split(r"::|\.", path)[-1]
            found.append(Import(line, path, source, use["alias"] or source, ghost, shown, True))
            continue
        for part in filter(None, map(str.strip, use["names"].split(","))):
            source, _, alias = part.partition(" as ")
            found.append(Import(line, path, source.strip(), alias.strip() or source.strip(), ghost, shown, False))
    return found, USE.sub(lambda m: blank(m[0]), text)


def clauses(code):
    """The contracts of a Rattle file, and the rest of it."""
    told, left, at = [], [], 0
    for opening in CLAUSE.finditer(code):
        if opening.start() < at:
            continue
        depth, end = 1, opening.end()
        while depth and end < len(code):
            depth += {"{": 1, "}": -1}.get(code[end], 0)
            end += 1
        told.append(code[opening.end() : end])
        left.append(code[at : opening.start()])
        at = end
    return "\n".join(told), "\n".join(left + [code[at:]])


def is_field(text, start):
    return text[start - 1 : start] == "." and text[start - 2 : start - 1] != "."


def names(text):
    """The names that a text of antt says, fields and members of modules left out, each operator also by its parts."""
    said = {m[0] for m in NAME.finditer(text) if not is_field(text, m.start())}
    return said | {part for name in said if "◌" in name for part in name.split("◌") if part}


def words(code):
    return {m[0] for m in WORD.finditer(code) if not is_field(code, m.start())}


def is_said(name, said):
    """An operator is said by its whole name, or by all of its parts."""
    parts = [part for part in name.split("◌") if part]
    return name in said or ("◌" in name and all(part in said for part in parts))


def sources(root):
    """Every .rt and .antt file of the crates, in order, but for what rt makes of them in out/."""
    files = (f for part in ("src", "specs", "proofs") for f in (Path(root) / "crates").glob(f"*/{part}/**/*"))
    return sorted(f for f in files if f.suffix in (".rt", ".antt"))
