"""What a second tells, what a mask tells, and how a call fails."""

from typing import Any, NamedTuple, Optional, Tuple

from ._library import FAULTS, NEVER, NONE_IN_THE_WAY, RULES


class Refused(ValueError):
    """A text is refused. `status` is 5, or 7 for one that is too long; `file` is one of FILES, `path` the path that was
    opened, if one was, `line` counts from 1 and is None for the text as a whole, `reason` is a word of the formats' pages
    with what belongs to it, and `note` is the line that `junction run` writes."""

    def __init__(self, status: int, file: str, line: Optional[int], reason: str, note: str, path: Optional[str] = None):
        said = note.rstrip("\n")
        super().__init__(f"{path}: {said}" if path else said)
        self.status, self.file, self.line, self.reason, self.note, self.path = status, file, line, reason, note, path

    def __reduce__(self) -> Tuple[Any, ...]:
        return Refused, (self.status, self.file, self.line, self.reason, self.note, self.path)


class NotTaken(ValueError):
    """The counts are not taken; they have changed nothing. `reason` is RearsAhead (a rear before its front), Range (more than
    2,147,483,647 fronts of a detector), TooManySeconds (a week and a second are over) or None where it isn't known;
    `detector` is the detector of the first two. `made` is what `run` had made of the counts before them."""

    def __init__(self, text: str, made: Any = None, detector: Optional[int] = None, reason: Optional[str] = None):
        super().__init__(text)
        self.made, self.detector, self.reason = made, detector, reason


class NoCommand(ValueError):
    """A command names no stage or group of the plan; it has changed nothing."""


class NoNames(LookupError):
    """The controller is of a code file, in which variables and timers have no names."""


class Ended(ValueError):
    """The controller has ended."""


class Busy(RuntimeError):
    """Another thread makes seconds of this controller."""


class StageRefusal(NamedTuple):
    from_stage: int
    to: int
    rule: str


class Turn(NamedTuple):
    group: str
    rule: str
    other: Optional[str]


class Record(NamedTuple):
    """A second: what `junction run` writes as a line of the log."""

    second: int
    place: str
    aspects: str
    counts: Tuple[Tuple[int, int, int], ...]
    stages: Tuple[StageRefusal, ...]
    turns: Tuple[Turn, ...]
    fault: Optional[Tuple[str, int]]

    def line(self) -> str:
        counts = " ".join([f"{d}:{f}:{r}" for d, f, r in self.counts]) or "-"
        refused = [f"{a}-{b}:{rule}" for a, b, rule in self.stages]
        refused += [":".join(filter(None, turn)) for turn in self.turns]
        fault = "%s@%d" % self.fault if self.fault else "-"
        return f"{self.second}|{self.place}|{self.aspects}|{counts}|{' '.join(refused) or '-'}|{fault}\n"


class TurnMask(NamedTuple):
    """The turn that a group can be wished to make in the second that comes: a start by a wish of green, an end by one of red.
    `rule` is None where it is obeyed if no other group turns by a wish, `other` the group in its way. `wait` is the least
    number of seconds by nature after which it is obeyed, 0 where the second that comes obeys it, and None for never."""

    group: str
    is_end: bool
    rule: Optional[str]
    other: Optional[str]
    wait: Optional[int]


class Mask(NamedTuple):
    """What the second that comes would refuse. `place` is the place before its commands; `stages` has the rule that refuses
    the command from the active stage to each stage, from stage 1 on; None where it is obeyed, or the stage is active."""

    place: str
    turns: Tuple[TurnMask, ...]
    stages: Tuple[Optional[str], ...]


def place_text(kind: int, from_stage: int, to: int, t: int) -> str:
    """A place as the log spells it."""
    if kind == 1:
        return f"S{to}"
    return f"I{from_stage}-{to}+{t}" if kind == 2 else "-"


def mask_of(raw: Any, names: Tuple[str, ...]) -> Mask:
    """A mask in words."""
    turns = tuple(
        TurnMask(
            name,
            raw.turns[g] == 2,
            RULES[raw.rules[g]],
            None if raw.others[g] == NONE_IN_THE_WAY else names[raw.others[g]],
            None if raw.waits[g] == NEVER else int(raw.waits[g]),
        )
        for g, name in enumerate(names)
    )
    place = place_text(raw.place, raw.from_stage, raw.to, raw.t)
    return Mask(place, turns, tuple(RULES[raw.stage_rules[s]] for s in range(raw.stages)))


def fault_of(kind: int, line: int) -> Optional[Tuple[str, int]]:
    name = FAULTS[kind]
    return (name, line) if name else None


def rule_of(number: int) -> str:
    return RULES[number] or "?"
