"""Makes the tables from what was measured, prints them, and puts each in its place in docs/BENCHMARKS.md (between `<!-- table NAME -->` and `<!-- end -->`)."""
import re
import statistics

from goals import goals
from lines import DOCS, binders, figures, growth, lines, ratio, search, work

TARGET = DOCS / "BENCHMARKS.md"


def table(head, rows):
    """Columns of numbers stand to the right."""
    marks = ["---:" if "µs" in h or "/" in h or "bytes" in h else "---" for h in head]
    cells = [head, marks] + [[str(c).replace("|", "\\|") for c in row] for row in rows]
    return "\n".join("| " + " | ".join(row) + " |" for row in cells)


def code(rule):
    return "`" + (rule if len(rule) <= 40 else rule[:36] + "..") + "`"


def against_plain(which):
    rows = [(r[1], r[2], *map(float, r[3:])) for r in lines("compare.tsv") if r[0] == which]
    head = ["Question", "Answer", "Ours, µs", "Plain, µs", "Ours / plain", "Quick plain, µs", "Ours / quick"]
    return table(head, [[n, a, figures(o), figures(p), ratio(o, p), figures(q), ratio(o, q)] for n, a, o, p, q in rows])


def sheets():
    rows = [r[1:] for r in lines("compare.tsv") if r[0] == "sheet"]
    return table(["Sheet", "Length", "Ours, µs"], [[n, size, figures(float(t))] for n, size, t in rows])


def interpreter():
    rows = []
    for _, name, rule, ours, verdict, theirs in lines("interpreter.tsv"):
        over = theirs == "over"
        time = "over 20 s" if over else figures(float(theirs))
        times = ratio(20e6 if over else float(theirs), float(ours))
        rows.append([name, code(rule), verdict, figures(float(ours)), time, ("over " if over else "") + times])
    return table(["Sheet", "Rule", "Verdict", "Ours, µs", "Interpreter, µs", "Interpreter / ours"], rows)


def grown():
    rows = []
    for plot, series in growth().items():
        for name, points in series.items():
            (x, first, *_), (y, last, *_) = points[0], points[-1]
            middles = [ratio(statistics.median(p[1] / p[k] for p in points if p[k]), 1) for k in (2, 3)]
            longest = max(ours for _, ours, *_ in points)
            rows.append([f"{plot}: {name}", f"{x} to {y}", figures(first), figures(last), figures(longest), *middles])
    head = ["Series", "From, to", "First, µs", "Last, µs", "Longest, µs", "Ours / plain, median", "Ours / quick, median"]
    return table(head, rows)


def worked():
    rows = []
    for name, points in work().items():
        for k, ours, quick, visits, bound in points:
            told = figures(ours) if ours else "not asked"
            rows.append([name, k, told, figures(quick), f"{visits:,}", f"{bound:,}"])
    return table(["Family", "k", "Ours, µs", "Quick plain, µs", "Visits / call", "Bound / call"], rows)


def sought():
    rows = []
    for name, points in search().items():
        for k, ours, quick, plain_turns, turns in points:
            told = figures(ours) if ours else "not asked"
            counted = "over 20,000" if plain_turns == "over" else f"{int(plain_turns):,}"
            rows.append([name, k, told, figures(quick), counted, f"{turns:,}"])
    return table(["Family", "k", "Ours, µs", "Quick plain, µs", "Plain, turns / call", "Quick plain, turns / call"], rows)


def factory():
    [[_, jobs, finished, over, limit, median, most, longest]] = [row for row in lines("search.tsv") if row[0] == "factory"]
    told = f"Of {jobs} factory jobs with `n`, {finished} of which can be finished, {over} take plain over {int(limit):,} turns. "
    return told + f"Quick plain takes {int(median):,} in the median and {int(most):,} at most, {figures(float(longest))} µs."


def bound():
    rows = []
    for (rule, values), points in binders().items():
        for k, ours, written, plain, quick in points:
            beside = [figures(written), ratio(ours, written)] if written else ["does not fit", ""]
            rows.append([rule, k, values, figures(ours), *beside, figures(plain), ratio(ours, plain), figures(quick), ratio(ours, quick)])
    head = ["Rule", "Binders", "Values", "Ours, µs", "Written out, µs", "Ours / written out", "Plain, µs", "Ours / plain", "Quick plain, µs", "Ours / quick"]
    return table(head, rows)


def stack():
    taken = {(word, call): (int(size), rule) for _, word, call, size, rule in lines("stack.tsv")}
    calls = sorted({call.split(",")[0] for _, call in taken}, key=["verdict", "board", "reach", "finish", "read_rule", "normal", "answer"].index)
    rows = []
    for call in calls:
        accepted, refused = taken["accepted", call], taken["refused", call]
        plain = taken.get(("accepted", call + ", plain"))
        beside = f"{plain[0]:,}" if plain else ""
        rows.append([f"`{call}`", f"{accepted[0]:,}", code(accepted[1]), beside, f"{refused[0]:,}", code(refused[1])])
    head = ["Call", "Accepted, bytes", "Its rule", "Plain, bytes", "Refused, bytes", "Its text"]
    return table(head, rows)


def tally():
    """What the verdict costs beside one append and one quick yes together."""
    rows = [(name, *map(float, times)) for name, *times in lines("tally.tsv")]
    head = ["Job", "Append, µs", "Quick yes, µs", "Made afresh, µs", "Verdict, µs", "Verdict / append and quick yes"]
    return table(head, [[n, figures(a), figures(q), figures(f), figures(v), ratio(v, a + q)] for n, a, q, f, v in rows])


def board():
    rows = [(name, float(one), float(single)) for name, one, single in lines("board.tsv")]
    head = ["Job", "One board of 64, µs", "64 single calls, µs", "Board / single calls"]
    return table(head, [[n, figures(b), figures(s), ratio(b, s)] for n, b, s in rows])


def machine():
    return "\n".join(f"- {what}: {value}" for what, value in lines("machine.tsv"))


TABLES = {
    "verdict": lambda: against_plain("verdict"),
    "reach": lambda: against_plain("reach"),
    "finish": lambda: against_plain("finish"),
    "interpreter": interpreter,
    "sheets": sheets,
    "growth": grown,
    "work": worked,
    "search": sought,
    "binders": bound,
    "factory": factory,
    "stack": stack,
    "tally": tally,
    "board": board,
    "machine": machine,
    "goals": lambda: table(["Goal", "Measured", "Where it is missed"], goals()),
}


def main():
    page = TARGET.read_text()
    for name, make in TABLES.items():
        if name == "interpreter" and not lines("interpreter.tsv"):
            continue
        made = make()
        print(f"\n{name}\n\n{made}")
        place = re.compile(rf"(<!-- table {name} -->\n).*?(\n<!-- end -->)", re.S)
        page, found = place.subn(lambda m: m.group(1) + made + m.group(2), page)
        if not found:
            raise SystemExit(f"docs/BENCHMARKS.md has no place for the table {name}")
    TARGET.write_text(page)


main()
