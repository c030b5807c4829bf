"""Reading a record in tenths, or a log by seconds, and drawing some seconds of it as SVG, with breaches marked."""
import bisect
import re
from dataclasses import dataclass, field
from html import escape

from common.reading import Refused, log_of

RECORD_LINE = re.compile(r"((?:0|[1-9][0-9]{0,7})\.[0-9])\|(.*)")
WIDTH, LEFT, RIGHT, ROW, HEAD, LANE = 1000, 92, 8, 22, 30, 17
ASPECTS = {"R": "red", "U": "red-amber", "G": "green", "A": "amber", "?": "not known"}
STYLE = {"red": "#c4161c", "amber": "#ffd500", "green": "#00843d", "least": "#00532a", "grid": "#d5d9dd", "ink": "#000"}
STEPS = (1, 2, 5, 10, 20, 30, 60)


@dataclass
class Record:
    """The pictures of a record by the tenths at which they begin, each up to the next one, the last up to `end`. Of a log the
    second k lies between 10 k and 10 k + 10."""
    names: list
    lines: list
    end: int
    is_log: bool

    @property
    def first(self):
        return self.lines[0][0] if self.lines else self.end

    def unknown(self):
        """The tenths of which nothing is known."""
        ends = [at for at, _ in self.lines[1:]] + [self.end]
        return sum(end - at for (at, letters), end in zip(self.lines, ends) if letters == "?")


@dataclass
class Mark:
    """A breach in a picture: from where to where what was shown lasted, and up to where it was needed, in tenths."""
    number: int
    text: str
    begin: int
    end: int
    needed: int | None
    framed: list = field(default_factory=list)  # the groups whose bar has a frame
    joined: list = field(default_factory=list)  # the groups whose moments are joined to the line below


def tenths_of(text):
    """The tenths of a time as the programs write it, `47.3` or `47`."""
    whole, _, tenth = text.partition(".")
    return 10 * int(whole) + int(tenth or 0)


def read_record(text):
    """The record of a text whose form the judge has accepted."""
    if text.startswith("VAPLOG 1 "):
        names, records = log_of(text)
        lines = [(10 * second, letters) for second, letters, _ in records]
        return Record(names, lines, lines[-1][0] + 10 if lines else 10, True)
    if not text.startswith("VAPRECORD 1 "):
        raise Refused(1, "this is neither a record (VAPRECORD 1) nor a log (VAPLOG 1)")
    rows = text.replace("\r\n", "\n").rstrip("\n").split("\n")
    lines = []
    for line, row in enumerate(rows[1:], 2):
        found = RECORD_LINE.fullmatch(row)
        if not found:
            raise Refused(line, "this is no line of a record, as `12.3|RUG`")
        lines.append((tenths_of(found[1]), found[2]))
    if not lines or lines[-1][1] != "-":
        raise Refused(len(rows) + 1, "the record has no end, `TIME|-`")
    return Record(rows[0].split(" ")[2:], lines[:-1], lines[-1][0], False)


def bars_of(record, place, begin, end):
    """The stretches (from, to, letter, whole) of a group in a window; `whole` is the stretch as far as the lines around tell."""
    bars, ats = [], [at for at, _ in record.lines]
    low, high = max(0, bisect.bisect_right(ats, begin) - 2), bisect.bisect_left(ats, end) + 1
    ends = ats[low + 1:high] + [ats[high] if high < len(ats) else record.end]
    for (at, letters), stop in zip(record.lines[low:high], ends):
        letter = "?" if letters == "?" else letters[place]
        if bars and bars[-1][2] == letter:
            bars[-1][1] = stop
        else:
            bars.append([at, stop, letter])
    return [(max(at, begin), min(stop, end), letter, (at, stop)) for at, stop, letter in bars if at < end and stop > begin]


class Canvas:
    """The drawing of a window of a record: its scale, and the elements."""

    def __init__(self, begin, end):
        self.begin, self.end, self.out = begin, end, []
        self.scale = (WIDTH - LEFT - RIGHT) / (end - begin)

    def x(self, at):
        return round(LEFT + (at - self.begin) * self.scale, 2)

    def add(self, name, text=None, **attributes):
        words = "".join(f' {key.replace("_", "-")}="{value}"' for key, value in attributes.items())
        self.out.append(f"<{name}{words}/>" if text is None else f"<{name}{words}>{escape(text)}</{name}>")

    def word(self, x, y, text, size=11, anchor="start", **more):
        self.add("text", text, x=x, y=y, font_size=size, text_anchor=anchor, **more)

    def line(self, x1, y1, x2, y2, colour="#000", width=1, dashes=None):
        more = {"stroke_dasharray": dashes} if dashes else {}
        self.add("line", x1=x1, y1=y1, x2=x2, y2=y2, stroke=colour, stroke_width=width, **more)

    def box(self, x1, y, x2, height, fill, stroke="none", width=0.6):
        self.add("rect", x=x1, y=y, width=round(max(x2 - x1, 0.5), 2), height=height, fill=fill, stroke=stroke, stroke_width=width)

    def stripes(self, x1, y, x2, height, colour, apart, width):
        """Slanted stripes in a box."""
        at = x1 - height
        while at < x2:
            low, high = max(0, x1 - at), min(height, x2 - at)
            if low < high:
                self.line(round(at + low, 2), round(y + height - low, 2), round(at + high, 2), round(y + height - high, 2), colour, width)
            at += apart


def draw_bar(canvas, y, bar, least):
    """A stretch of a group: red is a line, all else a bar."""
    at, stop, letter, (whole_at, whole_stop) = bar
    x1, x2 = canvas.x(at), canvas.x(stop)
    if letter == "R":
        canvas.box(x1, y + 8, x2, 2.4, STYLE["red"])
    elif letter == "U":
        canvas.box(x1, y + 3, x2, 6.5, STYLE["red"])
        canvas.box(x1, y + 9.5, x2, 6.5, STYLE["amber"])
        canvas.box(x1, y + 3, x2, 13, "none", "#000")
    elif letter == "G":
        canvas.box(x1, y + 3, x2, 13, STYLE["green"], "#000")
        if least and whole_at >= canvas.begin:
            canvas.box(x1, y + 3, min(x2, canvas.x(whole_at + least)), 13, STYLE["least"])
        seconds = f"{(whole_stop - whole_at) / 10:g}"
        if (at, stop) == (whole_at, whole_stop) and x2 - x1 > 8 * len(seconds):
            canvas.word((x1 + x2) / 2, y + 13, seconds, 10, "middle", fill="#fff")
    elif letter == "A":
        canvas.box(x1, y + 3, x2, 13, STYLE["amber"])
        canvas.stripes(x1, y + 3, x2, 13, "#000", 7, 2)
        canvas.box(x1, y + 3, x2, 13, "none", "#000")
    else:
        canvas.box(x1, y + 3, x2, 13, "#fff", "#777")
        canvas.stripes(x1, y + 3, x2, 13, "#999", 4, 0.7)


def draw_axes(canvas, bottom, clock):
    """The seconds of the record above, and the times of the day below."""
    length = (canvas.end - canvas.begin) / 10
    step = next((step for step in STEPS if length / step <= 16), 120)
    for second in range(-(-canvas.begin // 10), canvas.end // 10 + 1):
        x, is_told = canvas.x(10 * second), second % step == 0
        if is_told:
            canvas.line(x, HEAD - 4, x, bottom, STYLE["grid"])
            canvas.word(x, HEAD - 14, str(second), 10, "middle")
            if clock:
                canvas.word(x, bottom + 12, clock(10 * second), 9, "middle")
        canvas.line(x, HEAD - (10 if is_told else 7), x, HEAD - 4)


def draw_mark(canvas, mark, y, rows):
    """A breach: a frame in the row, and below all rows a line as long as what was shown, and a broken one up to what is needed."""
    x1, x2 = canvas.x(max(mark.begin, canvas.begin)), canvas.x(min(mark.end, canvas.end))
    for name in mark.framed:
        canvas.box(x1 - 1.5, rows[name] + 0.5, x2 + 1.5, 18, "none", "#000", 2.4)
    for name, x in zip(mark.joined, (x1, x2)):
        canvas.line(x, rows[name] + 1, x, y + 8, "#000", 1, "2 2")
    canvas.line(x1, y + 4, x2, y + 4, "#000", 2.4)
    for x in (x1, x2):
        canvas.line(x, y, x, y + 8, "#000", 1.4)
    right = x2
    if mark.needed is not None and mark.needed != mark.end:
        needed = canvas.x(min(max(mark.needed, canvas.begin), canvas.end))
        canvas.line(x2, y + 4, needed, y + 4, "#000", 1, "3 2")
        canvas.line(needed, y + 1, needed, y + 7, "#000", 1)
        right = max(x2, needed)
    return x1, right


def draw_text(canvas, mark, y, x1, x2):
    """The words of a breach, beside its line."""
    width = 6.6 * len(mark.text)
    is_right = x2 + width + 6 < WIDTH
    canvas.box(x2 + 3 if is_right else x1 - width - 6, y - 2, x2 + width + 6 if is_right else x1 - 3, 13, "#fff")
    canvas.word(x2 + 5 if is_right else x1 - 5, y + 8, mark.text, 10.5, "start" if is_right else "end", font_weight="bold")


def picture(record, begin, end, marks, least, clock, title, names=None):
    """Some tenths of a record as SVG: a row for each of the groups `names`, and below them a line for each mark. `least` has of
    each group its minimum green in tenths; `clock` tells a tenth's time of the day."""
    canvas = Canvas(begin, end)
    names = names or record.names
    rows = {name: HEAD + ROW * k for k, name in enumerate(names)}
    bottom = HEAD + ROW * len(names)
    height = bottom + (18 if clock else 6) + LANE * len(marks) + 4
    draw_axes(canvas, bottom, clock)
    for name, y in rows.items():
        canvas.word(LEFT - 6, y + 13, name, 11, "end")
        for bar in bars_of(record, record.names.index(name), begin, end):
            draw_bar(canvas, y, bar, least.get(name))
    lanes = [bottom + (18 if clock else 6) + LANE * k for k in range(len(marks))]
    reach = [draw_mark(canvas, mark, y, rows) for mark, y in zip(marks, lanes)]
    for mark, y, (x1, x2) in zip(marks, lanes, reach):
        draw_text(canvas, mark, y, x1, x2)
    head = (f'<svg xmlns="http://www.w3.org/2000/svg" viewBox="0 0 {WIDTH} {height}" width="{WIDTH}" height="{height}" role="img" '
            f'font-family="\'DejaVu Sans\',Arial,sans-serif"><title>{escape(title)}</title>')
    return head + f'<rect width="{WIDTH}" height="{height}" fill="#fff"/>' + "".join(canvas.out) + "</svg>"


def legend():
    """How each aspect looks, and a mark."""
    canvas, x = Canvas(0, 1000), 4
    for letter, words in list(ASPECTS.items()):
        canvas.begin, canvas.scale = 0, 1
        width = 26
        at = x - LEFT
        draw_bar(canvas, 0, (at, at + width, letter, (at - 1, at + width)), None)
        canvas.word(x + width + 6, 13, words, 11)
        x += width + 22 + 7 * len(words)
    canvas.box(x, 3, x + 26, 13, STYLE["green"], "#000")
    canvas.box(x, 3, x + 14, 13, STYLE["least"])
    canvas.word(x + 32, 13, "dark: minimum green", 11)
    x += 175
    canvas.box(x, 1, x + 26, 17, "none", "#000", 2.4)
    canvas.word(x + 32, 13, "breach: shown, and up to what is needed", 11)
    return (f'<svg xmlns="http://www.w3.org/2000/svg" viewBox="0 0 {WIDTH} 20" width="{WIDTH}" height="20" role="img" '
            f'font-family="\'DejaVu Sans\',Arial,sans-serif"><title>Legend</title>{"".join(canvas.out)}</svg>')
