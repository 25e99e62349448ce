"""Reads the parts of a picture: an SVG of `chart`, parsed as XML."""
import re
import xml.etree.ElementTree as ElementTree

from told import Bar

SVG = "{http://www.w3.org/2000/svg}"
GROUP = re.compile(r"scale\((\d+)\.(\d{6}),(\d+)\) translate\((-?\d+),0\)")
SHAPE = re.compile(r"M(-?\d+) (\d+)\.15H(-?\d+)V(\d+)\.85H(-?\d+)z")
MARK = re.compile(r"M(\d+) (\d+)l6 6-6 6-6-6z")
LINE = re.compile(r"M(\d+) \d+V\d+")
STRIPE = re.compile(r"M(-?\d+) (\d+)\.7H(-?\d+)V(\d+)\.85H(-?\d+)z")
OUTLINE = re.compile(r"M(\d+) (\d+)h(\d+)v14h-(\d+)z")
MARK_CLASS = re.compile(r"([jd])[0-7] edge")
BAR_CLASS = re.compile(r"([jp])([0-7])")


class Picture:
    """A picture, with the place of its rows and ticks. Raises ValueError or ParseError if it has another form."""

    def __init__(self, data):
        self.top = ElementTree.fromstring(data)
        (inner,) = self.top.findall(f"{SVG}svg")
        (self.group,) = inner.findall(f"{SVG}g")
        whole, part, self.height, back = map(int, matched(GROUP, self.group.get("transform")).groups())
        self.left, self.above, self.width, self.first = int(inner.get("x")), int(inner.get("y")), int(inner.get("width")), -back
        self.scale = whole * 1_000_000 + part

    def x(self, tick):
        """Where a tick is, in pixels."""
        return self.left + (tick - self.first) * self.scale // 1_000_000

    def row(self, y):
        return (y - self.above) // self.height

    def title(self):
        """The title, which the label and the first text give too."""
        title = self.top.find(f"{SVG}title").text
        if (self.top.get("role"), self.top.get("aria-label"), self.top.find(f"{SVG}text").text) != ("img", title, title):
            raise ValueError(f"a label or a text other than the title: {title}")
        return title

    def is_keyed(self):
        """Whether each line of the key has a text."""
        return all(any(it.get("y") == str(line) for it in self.top.findall(f"{SVG}text")) for line in (46, 66))

    def labels(self, anchor):
        """The names of the rows at one end."""
        return [it.text for it in self.top.findall(f"{SVG}text") if it.get("class") == "ink" and it.get("text-anchor") == anchor]

    def bars(self):
        found = []
        for path in self.group:
            form = STRIPE if path.get("class") == "mode" else SHAPE
            begin, row, end, row_again, begin_again = map(int, matched(form, path.get("d")).groups())
            if (row, begin) != (row_again, begin_again):
                raise ValueError(f"no bar: {path.get('d')}")
            if path.get("class") in ("cross", "mode"):
                if (row, begin, end) != found[-1][:3]:
                    raise ValueError(f"a cross or a stripe beside its bar: {path.get('d')}")
                found[-1] = found[-1]._replace(**{"is_crossed" if path.get("class") == "cross" else "is_striped": True})
                continue
            kind, colour = matched(BAR_CLASS, path.get("class")).groups()
            found.append(Bar(row, begin, end, path.find(f"{SVG}title").text, int(colour), kind == "j", False, False))
        return found

    def deliveries(self):
        """The row, the place in pixels and the title of each mark, and whether it is hollow."""
        for path in self.top.findall(f"{SVG}path"):
            if path.get("class").endswith(" edge"):
                x, y = map(int, matched(MARK, path.get("d")).groups())
                yield self.row(y), x, path.find(f"{SVG}title").text, matched(MARK_CLASS, path.get("class"))[1] == "d"

    def moment_lines(self):
        """The places of the lines at the moment, in pixels: one at most."""
        return [int(matched(LINE, it.get("d"))[1]) for it in self.top.findall(f"{SVG}path") if it.get("class") == "now"]

    def bands(self):
        """The row, the place and the width of each grey band, in pixels, its kind and its title."""
        for rect in self.top.findall(f"{SVG}rect"):
            if rect.get("class") in ("jam", "off", "stuck", "out") and int(rect.get("y")) >= self.above:
                yield self.row(int(rect.get("y"))), int(rect.get("x")), int(rect.get("width")), rect.get("class"), rect.find(f"{SVG}title").text

    def changeovers(self):
        """The row, the place and the width of each outline of a changeover, in pixels, and its title."""
        for path in self.top.findall(f"{SVG}path"):
            if path.get("class") == "over" and path.find(f"{SVG}title") is not None:
                x, y, width, width_again = map(int, matched(OUTLINE, path.get("d")).groups())
                if width != width_again:
                    raise ValueError(f"no outline: {path.get('d')}")
                yield self.row(y), x, width, path.find(f"{SVG}title").text


def matched(form, text):
    found = form.fullmatch(text)
    if not found:
        raise ValueError(f"{text!r} is not of the form of a picture")
    return found
