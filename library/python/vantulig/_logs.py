"""A reader of logs, as `junction run`, `line` and `lines` write them: columns, as pandas and NumPy take them."""

import os
import re
from typing import Any, Dict, Iterable, Iterator, List, Optional, Sequence, Tuple, Union

from ._library import FAULTS, RULES
from ._records import Record, StageRefusal, Turn

_PLACE = re.compile(r"S(\d+)|I(\d+)-(\d+)\+(\d+)|-")
_STAGE = re.compile(r"(\d+)-(\d+):(\w+)")
_COUNT = re.compile(r"(\d+):(\d+):(\d+)")
_FAULT = re.compile(r"(\w+)@(\d+)")
_ASPECTS = re.compile(r"[RUGA]*")


class WrongLog(ValueError):
    """A line of a log is none: `line` counts from 1."""

    def __init__(self, line: int, why: str):
        super().__init__(f"line {line}: {why}")
        self.line = line

    def __reduce__(self) -> Tuple[Any, ...]:
        return WrongLog, (self.line, str(self).split(": ", 1)[1])


class Log:
    """A log: `names` are its groups, `records` its seconds. Each of the tables is a mapping of columns to lists of one
    length, as `pandas.DataFrame(log.seconds())` takes it."""

    def __init__(self, names: Tuple[str, ...], records: List[Record]):
        self.names, self.records = names, records

    def __len__(self) -> int:
        return len(self.records)

    def __iter__(self) -> Iterator[Record]:
        return iter(self.records)

    def __repr__(self) -> str:
        return f"<Log of {len(self)} seconds of {' '.join(self.names)}>"

    def seconds(self) -> Dict[str, List[Any]]:
        """A row a second: `second`, `place`, `refused` (how much), `fault` (None for none), and the aspect of each group
        under its name."""
        columns: Dict[str, List[Any]] = {
            "second": [one.second for one in self.records],
            "place": [one.place for one in self.records],
            "refused": [len(one.stages) + len(one.turns) for one in self.records],
            "fault": [one.fault[0] if one.fault else None for one in self.records],
        }
        for at, name in enumerate(self.names):
            columns[name] = [one.aspects[at] for one in self.records]
        return columns

    def counts(self) -> Dict[str, List[int]]:
        """A row for each detector that counted something in a second: `second`, `detector`, `fronts`, `rears`."""
        rows = [(one.second, *counted) for one in self.records for counted in one.counts]
        return _columns(("second", "detector", "fronts", "rears"), rows)

    def refusals(self) -> Dict[str, List[Any]]:
        """A row for each refusal: `second`, `what` (the group, or the stages as 1-2), `rule`, `other` (the group in the way,
        or None)."""
        rows: List[Tuple[Any, ...]] = []
        for one in self.records:
            rows += [(one.second, f"{stage.from_stage}-{stage.to}", stage.rule, None) for stage in one.stages]
            rows += [(one.second, *turn) for turn in one.turns]
        return _columns(("second", "what", "rule", "other"), rows)

    def faults(self) -> Dict[str, List[Any]]:
        """A row for each fault: `second`, `fault`, `line`."""
        return _columns(("second", "fault", "line"), [(one.second, *one.fault) for one in self.records if one.fault])


def _columns(names: Iterable[str], rows: Sequence[Tuple[Any, ...]]) -> Dict[str, List[Any]]:
    return {name: [row[at] for row in rows] for at, name in enumerate(names)}


def read_log(log: Union[str, bytes, "os.PathLike[str]"]) -> Log:
    """Reads a log: a path, or the text itself as str or bytes. A WrongLog names the first line that is none."""
    if isinstance(log, os.PathLike):
        with open(log, encoding="ascii", errors="replace", newline="\n") as file:
            text = file.read()
    else:
        text = log.decode("ascii", "replace") if isinstance(log, bytes) else log
    lines = text.split("\n")
    head = lines[0].split(" ")
    if head[:2] != ["VAPLOG", "1"]:
        raise WrongLog(1, "a log begins with VAPLOG 1")
    if lines[-1]:
        raise WrongLog(len(lines), "its end isn't there")
    names = tuple(head[2:])
    return Log(names, [_record(at, line, names) for at, line in enumerate(lines[1:-1], 2)])


def _record(at: int, line: str, names: Tuple[str, ...]) -> Record:
    parts = line.split("|")
    if len(parts) != 6 or not parts[0].isdigit():
        raise WrongLog(at, "a second has six parts, the first of them its number")
    second, place, aspects, counts, refused, fault = parts
    if not _PLACE.fullmatch(place):
        raise WrongLog(at, f"no place: {place!r}")
    if len(aspects) != len(names) or not _ASPECTS.fullmatch(aspects):
        raise WrongLog(at, f"no aspects of {len(names)} groups: {aspects!r}")
    seen = tuple(_counted(at, word) for word in _words(counts))
    stages, turns = _refused(at, _words(refused), names)
    return Record(int(second), place, aspects, seen, stages, turns, _fault(at, fault))


def _words(part: str) -> List[str]:
    return [] if part == "-" else part.split(" ")


def _counted(at: int, word: str) -> Tuple[int, int, int]:
    found = _COUNT.fullmatch(word)
    if not found:
        raise WrongLog(at, f"no counts of a detector: {word!r}")
    return int(found[1]), int(found[2]), int(found[3])


def _refused(at: int, words: List[str], names: Tuple[str, ...]) -> Tuple[Tuple[StageRefusal, ...], Tuple[Turn, ...]]:
    stages: List[StageRefusal] = []
    turns: List[Turn] = []
    for word in words:
        parts = word.split(":")
        group, rule, other = parts[0], parts[1] if len(parts) > 1 else "", parts[2] if len(parts) == 3 else None
        stage = _STAGE.fullmatch(word)
        if rule not in RULES[1:] or len(parts) > 3 or (other is not None and other not in names):
            raise WrongLog(at, f"no refusal: {word!r}")
        if group in names:
            turns.append(Turn(group, rule, other))
        elif stage:
            stages.append(StageRefusal(int(stage[1]), int(stage[2]), rule))
        else:
            raise WrongLog(at, f"no refusal: {word!r}")
    return tuple(stages), tuple(turns)


def _fault(at: int, word: str) -> Optional[Tuple[str, int]]:
    if word == "-":
        return None
    found = _FAULT.fullmatch(word)
    if not found or found[1] not in FAULTS[1:]:
        raise WrongLog(at, f"no fault: {word!r}")
    return found[1], int(found[2])
