"""From changes of signals to a record in tenths of a second (VAPRECORD) or to a log by seconds: what the scripts share that
write one."""
import math
import sys
from dataclasses import dataclass
from fractions import Fraction

from common.reading import MOST_SECONDS, NAME, Refused, moment, stamp_of, table_of, text_of, told, whole_from

WEEK = 10 * MOST_SECONDS
MOST_TIME = 999_999_999  # of a line, in tenths
MOST_GROUPS = 64
WORDS = {"R": "red", "U": "red-amber", "G": "green", "A": "amber", None: "not known"}
FOLLOWS = {"RU", "RG", "UG", "GA", "GR", "AR"}
ALL = "the signals"  # the name in a change that is of all groups
UNKNOWN = "?"


@dataclass
class Change:
    """From this moment on a group shows an aspect, or nothing is known of it."""
    line: int
    time: Fraction
    name: str
    aspect: str | None
    before: str | None = None  # what the group showed before, where this is its first change


@dataclass
class Stretch:
    """The changes between which nothing was lost, with the first and the last moment at which the recording is known to run."""
    begin: Fraction
    end: Fraction
    changes: list


def tenth_of(time, zero):
    """The nearest tenth, counted from `zero`."""
    return math.floor((time - zero) * 10 + Fraction(1, 2))


def tenths_in(tenths):
    """A number of tenths as seconds with one decimal."""
    return f"{tenths // 10}.{tenths % 10}"


def stretches_of(changes, beats, silence):
    """The changes, cut where no line came for longer than `silence` seconds; `beats` are the lines and times of all lines."""
    found = [Stretch(beats[0][1], beats[0][1], [])]
    for (_, before), (_, time) in zip(beats, beats[1:]):
        if silence is not None and time - before > silence:
            found[-1].end = before
            found.append(Stretch(time, time, []))
    found[-1].end = beats[-1][1]
    at = 0
    for change in changes:
        while change.time > found[at].end:
            at += 1
        found[at].changes.append(change)
    return found


class Lines:
    """The lines (tenth, letters) of a record, and what is to be told of them."""

    def __init__(self, names, zero):
        self.names, self.zero = names, zero
        self.lines, self.steps, self.again, self.rounded = [], [], 0, 0

    def put(self, at, shown):
        """A picture from a tenth on; one with an unknown group isn't known."""
        letters = UNKNOWN if None in shown.values() else "".join(shown[name] for name in self.names)
        if self.lines and self.lines[-1][0] == at:
            self.lines.pop()
        if not self.lines or self.lines[-1][1] != letters:
            self.lines.append((at, letters))

    def turn(self, shown, change, last):
        """Takes a change into the picture; `last` has of each group its last change."""
        was, name, at = shown[change.name], change.name, tenth_of(change.time, self.zero)
        if (change.time - self.zero) * 10 != at:
            self.rounded += 1
        if was == change.aspect:
            self.again += 1
            return
        if was and change.aspect and was + change.aspect not in FOLLOWS:
            self.steps.append(f"line {change.line}: {name} becomes {WORDS[change.aspect]} and is {WORDS[was]}")
        before = last.get(name)
        if before and was and change.aspect and tenth_of(before.time, self.zero) == at:
            if before.time != change.time or was not in ("U", "A"):
                raise Refused(change.line, f"{name} is {WORDS[was]} for so short a time, from line {before.line} on, "
                                           "that no tenth shows it")
        shown[name], last[name] = change.aspect, change

    def add(self, stretch):
        """The lines of a stretch. What a group showed before its first change is what that one needs."""
        shown, last, first = dict.fromkeys(self.names), {}, {}
        for change in stretch.changes:
            for name in self.names if change.name == ALL else [change.name]:
                first.setdefault(name, change)
        for name, change in first.items():
            if change.name != ALL:
                shown[name] = change.before
        self.put(tenth_of(stretch.begin, self.zero), shown)
        for change in stretch.changes:
            if change.name == ALL:
                shown.update(dict.fromkeys(self.names))
                last.clear()
            else:
                self.turn(shown, change, last)
            self.put(tenth_of(change.time, self.zero), shown)


def cut(lines, first, last):
    """The lines from the tenth `first` on, and before the tenth `last`."""
    if last <= first or not any(at < last for at, _ in lines):
        raise Refused(0, "nothing is left between --begin and --end")
    before = [letters for at, letters in lines if at <= first]
    return [(first, before[-1] if before else UNKNOWN)] + [line for line in lines if first < line[0] < last]


def record_of(changes, beats, names, given):
    """The lines of a record from --begin, or the first line, up to --end, or a tenth behind the last one; and that end."""
    begin = Fraction(math.floor((beats[0][1] if given.begin is None else given.begin) * 10), 10)
    zero = math.floor(begin / 86_400) * 86_400 if given.clock else begin
    lines = Lines(names, zero)
    stretches = stretches_of(changes, beats, given.silence)
    for k, stretch in enumerate(stretches):
        lines.add(stretch)
        if k + 1 < len(stretches):
            lines.put(tenth_of(stretch.end, zero) + 1, dict.fromkeys(names))
    first = tenth_of(begin, zero)
    last = tenth_of(beats[-1][1], zero) + 1 if given.end is None else tenth_of(given.end, zero)
    lines.lines = cut(lines.lines, first, last)
    if last - first > WEEK:
        raise Refused(beats[-1][0], f"the record has {tenths_in(last - first)} s, more than {tenths_in(WEEK)}")
    return lines, last


def text_of_record(lines, last, names):
    rows = ["VAPRECORD 1 " + " ".join(names)]
    rows += [f"{tenths_in(at)}|{letters}" for at, letters in lines.lines]
    return "\n".join([*rows, f"{tenths_in(last)}|-"])


def turns_of(lines, place):
    """The changes (tenth, aspect) of the group at a place."""
    turns = []
    for at, letters in lines:
        if not turns or turns[-1][1] != letters[place]:
            turns.append((at, letters[place]))
    return turns


def seconds_of(name, turns, first):
    """The changes of a group by whole seconds from the tenth `first`: each at the second in which it lies, but ambers and
    red-ambers keep their own length, rounded to the nearest second."""
    found = []
    for k, (at, aspect) in enumerate(turns):
        second = (at - first) // 10
        length = (at - turns[k - 1][0] + 5) // 10 if k else 0
        if k and turns[k - 1][1] == "A":
            second = found[-1][0] + length
        if k and turns[k - 1][1] == "U":
            found[-1] = (second - length, "U")
        if k and length == 0 and turns[k - 1][1] in "AU":
            found.pop()
        if k and found and second <= found[-1][0] or len(found) > 1 and found[-1][0] <= found[-2][0]:
            raise Refused(0, f"{name} is {WORDS[found[-1][1]]} for so short a time, at {tenths_in(at)}, that no second shows it")
        found.append((second, aspect))
    return found


def text_of_log(lines, last, names):
    """A log by seconds: the picture of a second is the one at its end."""
    for at, letters in lines.lines:
        if letters == UNKNOWN:
            raise Refused(0, f"at {tenths_in(at)} nothing is known, which a log by seconds can't say: cut with --begin and --end")
    first, rows = lines.lines[0][0], []
    count = -(-(last - first) // 10)
    for place, name in enumerate(names):
        row, aspect = [], None
        for second, turned in seconds_of(name, turns_of(lines.lines, place), first):
            row += [aspect] * (min(max(second, 0), count) - len(row))
            aspect = turned
        rows.append(row + [aspect] * (count - len(row)))
    log = ["VAPLOG 1 " + " ".join(names)]
    return "\n".join(log + [f"{k + 1}|-|{''.join(row[k] for row in rows)}|-|-|-" for k in range(count)])


def notes_of(lines, last, changes, beats, passed):
    """What is told on standard error."""
    first, zero = lines.lines[0][0], lines.zero
    begin = stamp_of(zero + Fraction(first, 10), 1)
    yield f"{tenths_in(first)} is {begin}; the record has {tenths_in(last - first)} s and {len(lines.lines)} lines"
    if lines.rounded:
        yield f"moments that were rounded to the nearest tenth: {lines.rounded} of {len(changes)}"
    if lines.again:
        yield f"what was told again: {lines.again} of {len(changes)}"
    if passed:
        yield "passed over: " + ", ".join(passed)
    ends = [at for at, _ in lines.lines[1:]] + [last]
    unknown = sum(end - at for (at, letters), end in zip(lines.lines, ends) if letters == UNKNOWN)
    if unknown:
        yield f"not known: {tenths_in(unknown)} of {tenths_in(last - first)} s, which nothing is judged of"
    for step in lines.steps[:3]:
        yield f"a step that no signal may make, so a line may be missing before it: {step}"
    if len(lines.steps) > 3:
        yield f"and {len(lines.steps) - 3} more of such steps"
    silences = [(time - before, line) for (_, before), (line, time) in zip(beats, beats[1:])]
    if silences:
        silence, line = max(silences, key=lambda one: one[0])
        yield f"the longest time without a line: {float(silence):g} s, before line {line}"


def add_words(words):
    """The options that all these scripts have."""
    words.add_argument("--times", metavar="TIMES", help="the table of times: the groups and their order")
    words.add_argument("--begin", type=moment, metavar="TIME", help="begin here; what was before it counts")
    words.add_argument("--end", type=moment, metavar="TIME", help="the end; else a tenth behind the last line")
    words.add_argument("--clock", action="store_true", help="times count from midnight; else from the begin")
    words.add_argument("--silence", type=whole_from(1, MOST_SECONDS), metavar="N",
                       help="behind N seconds without a line nothing is known")
    words.add_argument("--log", action="store_true", help="write a log by seconds")


def names_in(times):
    """The groups of a table of times, in its order."""
    with told(times):
        return [row["group"] for row in table_of(text_of(times), "group")]


def check_names(names):
    for name in names:
        if not NAME.fullmatch(name):
            raise Refused(0, f"'{name}' is no name of a group, which has letters, digits and _ and no digit first: --map")
    if len({name.lower() for name in names}) != len(names):
        raise Refused(0, "a group stands twice")
    if not 1 <= len(names) <= MOST_GROUPS:
        raise Refused(0, f"{len(names)} groups, where 1 to {MOST_GROUPS} may be")


def written(changes, beats, names, given, passed):
    """The text of the record, or of the log, and the notes."""
    check_names(names)
    lines, last = record_of(changes, beats, names, given)
    text = (text_of_log if given.log else text_of_record)(lines, last, names)
    return text, list(notes_of(lines, last, changes, beats, passed))


def write(text, notes):
    """Tells the notes once the text is out, so that a reader who stops early loses none of it."""
    print(text, flush=True)
    for note in notes:
        print(note, file=sys.stderr)
