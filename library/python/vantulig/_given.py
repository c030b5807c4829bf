"""What a caller gives in a second: counts and commands, as the numbers of junction.h; and the tape that keeps them."""

import array
import importlib
import os
from typing import Any, Dict, Iterable, Iterator, List, Mapping, Optional, Sequence, Tuple, Union

from ._records import NoCommand

# NumPy is wanted for arrays alone
numpy: Any
try:
    numpy = importlib.import_module("numpy")
except ImportError:
    numpy = None

CountsMapping = Mapping[int, Tuple[int, int]]
Seen = List[Tuple[int, int, int]]
TextLike = Union[str, bytes, bytearray, memoryview, "os.PathLike[str]"]
PathLike = Union[str, "os.PathLike[str]"]
Wish = Union[None, bool, str]
NO_COUNTS = bytes(512)
NO_COMMANDS = bytes(68)
WISHES = {None: 0, "green": 1, "red": 2, "G": 1, "R": 2, True: 1, False: 2}
LETTERS = {".": 0, "G": 1, "R": 2}


def text_of(text: TextLike) -> bytes:
    """The bytes of a text: bytes as they are, a str as UTF-8, a path as the file's content."""
    if isinstance(text, str):
        return text.encode()
    if isinstance(text, os.PathLike):
        with open(text, "rb") as file:
            return file.read()
    return bytes(text)


def put_counts(counts: Any, numbers: memoryview) -> Seen:
    """Puts counts into 128 numbers that are 0; answers those that are not 0. They are a mapping of detectors, or an array (2,
    64)."""
    if isinstance(counts, Mapping):
        return _put_mapping(counts, numbers)
    if numpy is not None and isinstance(counts, numpy.ndarray):
        if counts.shape != (2, 64):
            raise ValueError(f"whole numbers of the form (2, 64) are wanted, and not {counts.dtype} {counts.shape}")
        if counts.dtype != numpy.uint32 or not counts.flags.c_contiguous:
            counts = array_of(counts[None])[0]
        numbers[:] = memoryview(counts).cast("B").cast("I")
        places = counts.ravel().nonzero()[0].tolist()
        return [(d + 1, numbers[d], numbers[d + 64]) for d in sorted({place & 63 for place in places})]
    kind = type(counts).__name__
    raise TypeError(f"counts are a mapping of detectors to (fronts, rears), or an array (2, 64), and not {kind}")


def _put_mapping(counts: CountsMapping, numbers: memoryview) -> Seen:
    seen = []
    for d, pair in counts.items():
        try:
            f, r = pair
            if not 1 <= d <= 64:
                raise ValueError(f"detector {d}: detectors are 1 to 64")
            numbers[d - 1] = f
            numbers[d + 63] = r
        except (TypeError, ValueError) as why:
            raise type(why)(_said(d, pair, why)) from None
        if f or r:
            seen.append((int(d), numbers[d - 1], numbers[d + 63]))
    return seen


def _said(detector: Any, pair: Any, why: Exception) -> str:
    text = str(why)
    if text.startswith("detector"):
        return text
    return f"detector {detector!r}: {pair!r} are no fronts and rears, two whole numbers from 0 to 4294967295"


def seen_of(counts: Any) -> Seen:
    """Counts without those that are 0."""
    return put_counts(counts, memoryview(bytearray(512)).cast("I"))


def array_of(counts: Any) -> Any:
    """Counts as numbers of the form (seconds, 2, 64)."""
    if not isinstance(counts, numpy.ndarray):
        counts = list(counts)
        numbers = memoryview(bytearray(512 * len(counts))).cast("I")
        for at, one in enumerate(counts):
            put_counts(one, numbers[128 * at : 128 * at + 128])
        counts = numpy.asarray(numbers, numpy.uint32).reshape(len(counts), 2, 64)
    if counts.ndim != 3 or counts.shape[1:] != (2, 64) or counts.dtype.kind not in "iub":
        raise ValueError(f"whole numbers of the form (seconds, 2, 64) are wanted, and not {counts.dtype} {counts.shape}")
    if counts.dtype != numpy.uint32 and counts.size and not (0 <= counts.min() and counts.max() < 1 << 32):
        raise ValueError("a count is below 0 or over 4294967295")
    return numpy.ascontiguousarray(counts, numpy.uint32)


def number_below(what: str, number: Any, bound: int) -> int:
    """A whole number from 0 to below the bound; else a NoCommand that names it."""
    try:
        whole = int(number)
    except (TypeError, ValueError):
        raise TypeError(f"{what}: {number!r} is no whole number") from None
    if whole != number or not 0 <= whole < bound:
        raise NoCommand(f"{what}: {number!r} names none of the plan")
    return whole


def put_groups(groups: Mapping[Union[str, int], Wish], names: Sequence[str], commands: bytearray) -> None:
    """Puts the wishes of groups, by their names or their places from 0."""
    for group, wish in groups.items():
        if isinstance(group, str):
            if group not in names:
                raise NoCommand(f"group {group!r} names none of the plan")
            place = names.index(group)
        else:
            place = number_below("group", group, len(names))
        if wish not in WISHES:
            raise ValueError(f"group {group!r}: a wish is 'green', 'red' or None, and not {wish!r}")
        commands[4 + place] = WISHES[wish]


def put_letters(wishes: str, names: Sequence[str], commands: bytearray) -> None:
    """Puts a letter for each group: G, R, or a dot for none."""
    if len(wishes) != len(names):
        raise ValueError(f"{len(wishes)} wishes for {len(names)} groups: one letter for each is wanted, G, R or a dot")
    for place, letter in enumerate(wishes):
        if letter not in LETTERS:
            raise ValueError(f"group {names[place]!r}: a wish is G, R or a dot, and not {letter!r}")
        commands[4 + place] = LETTERS[letter]


def order_of(order: Any) -> Tuple[Any, Any]:
    try:
        from_stage, to = order
    except (TypeError, ValueError):
        raise ValueError(f"a stage command has two stages, as (1, 2), and not {order!r}") from None
    return from_stage, to


# ---- the tape: what a controller was given since its first second, from which its state can be made again

BY_PROGRAM, BY_COMMANDS, BY_THE_SAME = 0, 1 << 8, 2 << 8


class Tape:
    """Of each second a number that says how many detectors counted something and who decided it, then the three numbers of
    each of these detectors, and then the 17 numbers of its commands, where they are not those of the second by commands
    before it."""

    def __init__(self, kept: bytes = b""):
        self.numbers = array.array("I")
        self.numbers.frombytes(kept)
        self.seconds, self.last = 0, b""
        for _, commands in self:
            self.seconds += 1
            self.last = commands or self.last

    def program(self, seen: Seen) -> None:
        numbers = self.numbers
        numbers.append(len(seen))
        for one in seen:
            numbers.extend(one)
        self.seconds += 1

    def commands(self, seen: Seen, commands: bytes) -> None:
        numbers = self.numbers
        same = commands == self.last
        numbers.append(len(seen) | (BY_THE_SAME if same else BY_COMMANDS))
        for one in seen:
            numbers.extend(one)
        if not same:
            self.last = commands
            numbers.frombytes(commands)
        self.seconds += 1

    def array(self, counts: Any, commands: Optional[Any]) -> None:
        """Many seconds, as numbers of the form (seconds, 2, 64) and (seconds, 68)."""
        if not len(counts):
            return
        second, place = numpy.nonzero(counts.any(axis=1))
        seen = numpy.bincount(second, minlength=len(counts))
        heads, sizes, anew = seen.astype(numpy.uint32), 1 + 3 * seen, None
        if commands is not None:
            before = numpy.frombuffer(self.last.ljust(68, b"\377"), numpy.uint8)
            anew = (commands != numpy.concatenate([before[None], commands[:-1]])).any(axis=1)
            heads |= numpy.where(anew, BY_COMMANDS, BY_THE_SAME).astype(numpy.uint32)
            sizes += 17 * anew
        ends = sizes.cumsum()
        starts, numbers = ends - sizes, numpy.zeros(int(ends[-1]), numpy.uint32)
        numbers[starts] = heads
        first = numpy.arange(len(second)) - (seen.cumsum() - seen)[second]
        for at, value in enumerate((place + 1, counts[second, 0, place], counts[second, 1, place])):
            numbers[starts[second] + 1 + 3 * first + at] = value
        if anew is not None and anew.any():
            words = numpy.ascontiguousarray(commands[anew]).view(numpy.uint32)
            numbers[(ends[anew] - 17)[:, None] + numpy.arange(17)] = words
            self.last = words[-1].tobytes()
        self.numbers.frombytes(numbers.tobytes())
        self.seconds += len(counts)

    def __iter__(self) -> Iterator[Tuple[Seen, Optional[bytes]]]:
        numbers, at, last = self.numbers, 0, b""
        while at < len(numbers):
            head = numbers[at]
            count, kind = head & 255, head & ~255
            at += 1
            seen = [(numbers[k], numbers[k + 1], numbers[k + 2]) for k in range(at, at + 3 * count, 3)]
            at += 3 * count
            if kind == BY_COMMANDS:
                last = numbers[at : at + 17].tobytes()
                at += 17
            yield seen, None if kind == BY_PROGRAM else last

    def kept(self) -> bytes:
        return self.numbers.tobytes()

    def totals(self) -> Tuple[List[int], List[int]]:
        """The fronts and the rears of each detector so far; place 0 is none."""
        fronts, rears = [0] * 65, [0] * 65
        for seen, _ in self:
            for d, f, r in seen:
                fronts[d] += f
                rears[d] += r
        return fronts, rears


MOST_SECONDS, MOST_FRONTS = 604801, 2147483647


Why = Tuple[str, Optional[int], Optional[str]]


def why_not(tape: Optional[Tape], seconds: int, seen: Iterable[Tuple[int, int, int]]) -> Why:
    """Why these counts are not taken after what was given so far: what is said, the detector and the reason."""
    if seconds >= MOST_SECONDS:
        return "a week and a second are over: no second is left", None, "TooManySeconds"
    if tape is None:
        return "the counts are not taken", None, None
    fronts, rears = tape.totals()
    for d, f, r in sorted(seen):
        if fronts[d] + f > MOST_FRONTS:
            return f"detector {d}: {fronts[d] + f} fronts so far, more than {MOST_FRONTS}", d, "Range"
        if rears[d] + r > fronts[d] + f:
            return f"detector {d}: {rears[d] + r} rears so far and only {fronts[d] + f} fronts", d, "RearsAhead"
    return "the counts are not taken", None, None
