"""Pages of ./picture: which example sheet has which page, and what a page shows, read from its elements as a browser or a file has them. It reads marks on the page, numbers and words, and
nothing of the program that made it."""
import re
from html.parser import HTMLParser
from pathlib import Path

ROOT = Path(__file__).resolve().parent.parent
PAGES = ROOT / "docs" / "pages"
VOID = {"meta", "br", "hr", "img", "link", "input"}


def examples():
    """Each example sheet with its names, if it has any, and its page."""
    for sheet in sorted((ROOT / "examples").glob("*.sheet")) + sorted((ROOT / "examples" / "refused").glob("*.sheet")):
        names = sheet.with_suffix(".names")
        yield sheet, names if names.exists() else None, (PAGES / sheet.relative_to(ROOT / "examples")).with_suffix(".html")


class Element:
    def __init__(self, tag, attributes):
        self.tag, self.attributes, self.inside = tag, dict(attributes), []

    def classes(self):
        return (self.attributes.get("class") or "").split()

    def text(self):
        return "".join(part if isinstance(part, str) else part.text() for part in self.inside)

    def all(self, tag=None, *classes):
        """The elements below this one, in order, with this tag and these classes."""
        for part in self.inside:
            if isinstance(part, Element):
                if tag in (None, part.tag) and set(classes) <= set(part.classes()):
                    yield part
                yield from part.all(tag, *classes)

    def one(self, identity):
        return next(part for part in self.all() if part.attributes.get("id") == identity)


class Reader(HTMLParser):
    def __init__(self, text):
        super().__init__()
        self.open = [Element("page", [])]
        self.feed(text)
        self.close()

    def handle_starttag(self, tag, attrs):
        element = Element(tag, attrs)
        self.open[-1].inside.append(element)
        if tag not in VOID:
            self.open.append(element)

    def handle_startendtag(self, tag, attrs):
        self.open[-1].inside.append(Element(tag, attrs))

    def handle_endtag(self, tag):
        if tag not in VOID:
            if self.open[-1].tag != tag:
                raise ValueError(f"</{tag}> closes <{self.open[-1].tag}>")
            self.open.pop()

    def handle_data(self, data):
        self.open[-1].inside.append(data)


def read(text):
    reader = Reader(text)
    if len(reader.open) > 1:
        raise ValueError(f"<{reader.open[-1].tag}> is not closed")
    return reader.open[0]


class Shown:
    """What a page shows of an accepted sheet."""

    def __init__(self, page):
        drawings = list(page.all("svg", "log"))
        self.answer = page.one("answer").text()
        self.verdict = next(page.all("h1")).text()
        self.states = [text.text() for text in page.all("text", "state") if "again" not in text.classes()]
        marks = [mark for mark in page.all("g", "verdict") if "again" not in mark.classes()]
        self.verdicts = [mark.text() if mark.text() in mark.classes() else "?" for mark in marks]
        steps = [step for drawing in drawings for step in drawing.all("g", "step")]
        self.log = [step.attributes["data-action"] for step in steps if "missing" not in step.classes()]
        self.forced = ["forced" in step.classes() for step in steps if "missing" not in step.classes()]
        self.missing = [step.attributes["data-action"] for step in steps if "missing" in step.classes()]
        self.words = [" ".join(text.text() for text in step.all("text") if "flag" not in text.classes()) for step in steps]
        self.lanes = [self.lanes_of(drawing) for drawing in drawings]

    @staticmethod
    def lanes_of(drawing):
        """For each state of a drawing the fluents whose lane is drawn on there."""
        columns = [(int(text.attributes["x"]), text.text()) for text in drawing.all("text", "state")]
        lanes = {}
        for lane in drawing.all("g", "lane"):
            bars = [bar for path in lane.all("path", "on") for bar in re.findall(r"M(\d+) \d+h(\d+)", path.attributes["d"])]
            lanes[int(lane.attributes["data-fluent"])] = [(int(x), int(x) + int(wide)) for x, wide in bars]
        return [(state, {fluent for fluent, bars in lanes.items() if any(a <= x <= b for a, b in bars)}) for x, state in columns]
