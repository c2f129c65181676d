"""The lines that the measuring programs wrote, and numbers as a reader wants them."""
import math
import pathlib

ROOT = pathlib.Path(__file__).resolve().parents[2]
MEASURED = ROOT / "target" / "bench"
DOCS = ROOT / "docs"


def lines(name):
    """The rows of a file of columns; none where the file is missing."""
    path = MEASURED / name
    if not path.exists():
        return []
    return [line.split("\t") for line in path.read_text().splitlines()]


def time(told):
    """Microseconds; nothing where one was not asked any more."""
    return None if told == "over" else float(told)


def growth():
    """Plot, then series, then points (x, ours, plain, quick)."""
    plots = {}
    for plot, series, x, *times in lines("growth.tsv"):
        plots.setdefault(plot, {}).setdefault(series, []).append((int(x), *map(time, times)))
    return plots


def work():
    """Family, then rows (k, ours, quick, visits, bound)."""
    families = {}
    for _, family, k, ours, quick, visits, bound in lines("work.tsv"):
        families.setdefault(family, []).append((int(k), time(ours), float(quick), int(visits), int(bound)))
    return families


def search():
    """Family, then rows (k, ours, quick, plain's turns, quick's turns)."""
    families = {}
    for kind, *row in lines("search.tsv"):
        if kind == "search":
            family, k, ours, quick, plain_turns, turns = row
            families.setdefault(family, []).append((int(k), time(ours), float(quick), plain_turns, int(turns)))
    return families


def binders():
    """Rule and values, then rows (k, ours, written out, plain, quick); nothing written out where it does not fit."""
    families = {}
    for _, rule, k, values, ours, written, *others in lines("binders.tsv"):
        told = None if written == "none" else float(written)
        families.setdefault((rule, int(values)), []).append((int(k), float(ours), told, *map(float, others)))
    return families


def figures(value, wanted=3):
    """A positive number with at least so many figures and no exponent."""
    decimals = max(0, wanted - 1 - math.floor(math.log10(value)))
    return f"{value:,.{decimals}f}"


def ratio(over, under):
    return f"{over / under:.2f}" if over / under < 10 else f"{over / under:,.0f}"
