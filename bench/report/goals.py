"""The goals beside what was measured. They are reported and decide nothing."""
from lines import binders, figures, growth, lines, search, work

FASTER = 100
WITHIN = 1.2
LONGEST = 10_000.0


def beside_interpreter():
    ratios = []
    for _, name, _, ours, _, theirs in lines("interpreter.tsv"):
        ratios.append(((20e6 if theirs == "over" else float(theirs)) / float(ours), name))
    if not ratios:
        return ["at least 100 times faster than the interpreter", "not in this run", "SWI-Prolog was not there: the table below is of an earlier run"]
    missed = sorted(r for r in ratios if r[0] < FASTER)
    told = "; ".join(f"{name} ({r:.1f})" for r, name in missed) or "nowhere"
    return ["at least 100 times faster than the interpreter", f"{len(ratios) - len(missed)} of {len(ratios)} sheets", told]


def beside_plain(column, words):
    rows = [(float(r[3]) / float(r[column]), f"{r[0]}, {r[1]}") for r in lines("compare.tsv") if r[0] != "sheet"]
    missed = sorted((r for r in rows if r[0] > WITHIN), reverse=True)
    told = "; ".join(f"{name} ({r:.2f})" for r, name in missed) or "nowhere"
    return [words, f"{len(rows) - len(missed)} of {len(rows)} questions", told]


def under_ten_milliseconds():
    every = [(name, points) for series in growth().values() for name, points in series.items()] + list(work().items()) + list(search().items())
    every += [(f"{rule}, {values} values", points) for (rule, values), points in binders().items()]
    missed = []
    for name, points in every:
        over = [(x, ours) for x, ours, *_ in points if ours and ours > LONGEST]
        if over:
            missed.append(f"{name}: from {over[0][0]} on ({figures(over[0][1] / 1000)} ms)")
    return ["no accepted sheet of these families over 10 ms", f"{len(every) - len(missed)} of {len(every)} series", "; ".join(missed) or "nowhere"]


def goals():
    return [
        beside_interpreter(),
        beside_plain(4, "within 1.2 of plain Rust, the same steps"),
        beside_plain(5, "within 1.2 of quick plain Rust"),
        under_ten_milliseconds(),
    ]
