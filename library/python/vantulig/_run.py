"""Many seconds, as an array of what each told."""

from typing import Any, Dict, Iterator, List, Tuple

from ._given import numpy
from ._library import NONE_IN_THE_WAY
from ._records import Record, StageRefusal, Turn, fault_of, place_text, rule_of

class Run:
    """What `run` tells. `told` is an array of records with the fields of junction_told, which stands behind the brackets too
    (`run["second"]`, `run[-1]`, `len(run)`); `names` are the groups, `counts` what was given, and `stage_refusals` the
    refused stage commands, an array with the fields second, from_stage, to and rule."""

    def __init__(self, told: Any, names: Tuple[str, ...], counts: Any, listed: Any):
        self.told, self.names, self.counts = told, names, counts
        self.stage_refusals = listed[["second", "from_stage", "to", "rule"]]

    def __len__(self) -> int:
        return len(self.told)

    def __getitem__(self, key: Any) -> Any:
        return self.told[key]

    def __array__(self, dtype: Any = None, copy: Any = None) -> Any:
        return self.told if dtype is None else self.told.astype(dtype)

    def __repr__(self) -> str:
        return f"<Run of {len(self)} seconds of {' '.join(self.names)}>"

    @property
    def aspects(self) -> Any:
        """Of each second the aspects as a text of one letter a group."""
        letters = numpy.ascontiguousarray(self.told["aspects"][:, : len(self.names)])
        return letters.view(f"S{len(self.names)}").astype(str).ravel()

    def records(self) -> Iterator[Record]:
        """Of each second its record."""
        stages: Dict[int, List[StageRefusal]] = {}
        for second, from_stage, to, rule in self.stage_refusals.tolist():
            stages.setdefault(second, []).append(StageRefusal(from_stage, to, rule_of(rule)))
        for one, aspects, counts in zip(self.told, self.aspects.tolist(), self.counts):
            second = int(one["second"])
            places = numpy.flatnonzero(counts.any(axis=0)).tolist()
            yield Record(
                second,
                place_text(int(one["place"]), int(one["from_stage"]), int(one["to"]), int(one["t"])),
                aspects,
                tuple((d + 1, int(counts[0, d]), int(counts[1, d])) for d in places),
                tuple(stages.get(second, ())),
                tuple(self._turns(one)),
                fault_of(int(one["fault"]), int(one["fault_line"])),
            )

    def _turns(self, one: Any) -> Iterator[Turn]:
        for place in range(int(one["turns"])):
            other = int(one["turn_others"][place])
            yield Turn(
                self.names[one["turn_groups"][place]],
                rule_of(int(one["turn_rules"][place])),
                None if other == NONE_IN_THE_WAY else self.names[other],
            )

    def lines(self) -> Iterator[str]:
        """Of each second its line of the log."""
        return (record.line() for record in self.records())

    def columns(self) -> Dict[str, Any]:
        """Of each second its number, place, how much was refused, the fault and one column a group:
        `pandas.DataFrame(run.columns())`."""
        told = self.told
        columns: Dict[str, Any] = {
            "second": told["second"],
            "place": numpy.array([place_text(*map(int, one)) for one in told[["place", "from_stage", "to", "t"]]]),
            "stages_refused": told["stages"],
            "turns_refused": told["turns"],
            "fault": told["fault"],
        }
        for at, name in enumerate(self.names):
            columns[name] = numpy.ascontiguousarray(told["aspects"][:, at]).view("S1").astype(str)
        return columns
