"""A proved traffic signal controller in this process.

    with Controller(program, plan, times, intergreens) as c:    # bytes, str or pathlib.Path
        record = c.step({3: (1, 1), 11: (1, 0)})                # one second; {detector: (fronts, rears)}
        record.aspects                                          # "RRUURRGG"
        c.header(), record.line()                               # the log, byte for byte that of `junction run`

    with Guarded.of(plan, times, intergreens) as g:             # the guard under decisions of the caller
        g.decide(stage=2), g.wish("GRRG"), g.mask()

`Controller` makes seconds by a program in VAP, `Guarded` by a program or by commands of the caller, `Many` one second of
several junctions in one call; `read_log` reads a log into columns, and `vantulig.environment`
is an environment for learners."""

from ._controller import Controller, State
from ._given import numpy
from ._guarded import Guarded
from ._library import FAULTS, FILES, RULES
from ._logs import Log, WrongLog, read_log
from ._many import Many
from ._records import (
    Busy,
    Ended,
    Mask,
    NoCommand,
    NoNames,
    NotTaken,
    Record,
    Refused,
    StageRefusal,
    Turn,
    TurnMask,
)
from ._run import Run
from ._version import __version__

__all__ = [
    "Busy",
    "Controller",
    "Ended",
    "FAULTS",
    "FILES",
    "Guarded",
    "Log",
    "Many",
    "Mask",
    "NoCommand",
    "NoNames",
    "NotTaken",
    "RULES",
    "Record",
    "Refused",
    "Run",
    "StageRefusal",
    "State",
    "Turn",
    "TurnMask",
    "WrongLog",
    "__version__",
    "numpy",
    "read_log",
]
