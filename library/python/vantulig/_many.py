"""One second of several junctions in one call."""

import ctypes
from typing import Any, Iterable, Optional, Tuple

from . import _given as given
from . import _library as lib
from ._given import numpy
from ._guarded import Guarded
from ._records import Ended, NoCommand, NotTaken


class Many:
    """Several junctions, which make their seconds together; NumPy is wanted. `junctions` are different ones; each may be used
    alone between the calls. `told` has what the last second of each told, an element a junction, with the fields of `struct
    junction_told`, and `masks` what the next one would refuse, with those of `struct junction_mask`. Other threads go on
    during a call.

        many = Many([Guarded.of(plan, times, intergreens) for _ in range(64)])
        many.decide(stages=numpy.ones(64, int))
        many.told["aspects"], many.masks["waits"]"""

    def __init__(self, junctions: Iterable[Guarded]):
        self.junctions: Tuple[Guarded, ...] = tuple(junctions)
        if len(set(map(id, self.junctions))) != len(self.junctions):
            raise ValueError("a junction is there twice")
        count = len(self.junctions)
        self._handles = (ctypes.c_void_p * count)()
        self._each = lib.library().free.junction_each
        self.told = numpy.zeros(count, numpy.dtype(lib.Told))
        self.masks = numpy.zeros(count, numpy.dtype(lib.RawMask))
        self.statuses = numpy.zeros(count, numpy.uint32)
        self._stages = numpy.array([one.stages for one in self.junctions], numpy.int64)
        self._groups = numpy.array([len(one.names) for one in self.junctions], numpy.int64)
        self.refresh()

    def __len__(self) -> int:
        return len(self.junctions)

    def __repr__(self) -> str:
        return f"<Many of {len(self)} junctions>"

    def refresh(self) -> None:
        """Takes `told` and `masks` anew, after a junction was used alone, or began anew."""
        for at, one in enumerate(self.junctions):
            self.told[at] = one.told
            self.masks[at] = one.mask_array()

    def step(self, counts: Any = None) -> Any:
        """Makes one second of each by its program; answers `told`. `counts` are numbers of the form (junctions, 2, 64), or
        None."""
        return self._make(counts, None)

    def decide(self, counts: Any = None, *, orders: Any = None, stages: Any = None, groups: Any = None) -> Any:
        """Makes one second of each by commands; answers `told`. `orders` are numbers (junctions, 2), `stages` (junctions,),
        `groups` (junctions, any width up to 64): 0 nothing, 1 green, 2 red. Where one of them names nothing it is a
        NoCommand, and no second is made."""
        commands = numpy.zeros((len(self), 68), numpy.uint8)
        put = (("orders", orders, 0, 2), ("stages", stages, 2, 1), ("groups", groups, 4, 64))
        for name, numbers, at, width in put:
            if numbers is not None:
                self._put(name, numpy.asarray(numbers), commands[:, at : at + width])
        if ((commands[:, 0] == 0) != (commands[:, 1] == 0)).any():
            raise NoCommand("orders: a stage command has two stages, or 0 and 0 for none")
        return self._make(counts, commands)

    def _put(self, name: str, numbers: Any, place: Any) -> None:
        if name == "stages" and numbers.ndim == 1:
            numbers = numbers[:, None]
        width = place.shape[1]
        fits = numbers.ndim == 2 and len(numbers) == len(self) and numbers.dtype.kind in "iub"
        if not fits or (numbers.shape[1] > width if name == "groups" else numbers.shape[1] != width):
            found = f"{numbers.dtype} {numbers.shape}"
            raise ValueError(f"{name}: whole numbers of {len(self)} junctions are wanted, and not {found}")
        if name == "groups":
            most = numpy.where(numpy.arange(numbers.shape[1]) < self._groups[:, None], 2, 0)
        else:
            most = self._stages[:, None]
        wrong = ((numbers < 0) | (numbers > most)).any(axis=1)
        if wrong.any():
            at = int(wrong.argmax())
            raise NoCommand(f"{name}: junction {at}: {numbers[at].tolist()} names none of its plan")
        place[:, : numbers.shape[1]] = numbers

    def _make(self, counts: Any, commands: Any) -> Any:
        counts = numpy.zeros((len(self), 2, 64), numpy.uint32) if counts is None else given.array_of(counts)
        if len(counts) != len(self):
            raise ValueError(f"counts of {len(self)} junctions are wanted, and not of {len(counts)}")
        held = [one._handle for one in self.junctions]
        for at, one in enumerate(self.junctions):
            if held[at] is None:
                raise Ended(f"junction {at} has ended, or another thread makes its seconds")
            self._handles[at] = held[at].value  # type: ignore[union-attr]
        for one in self.junctions:
            one._handle, one._running = None, True
        try:
            self._each(
                len(self), self._handles, counts.ctypes.data, None if commands is None else commands.ctypes.data,
                self.told.ctypes.data, self.masks.ctypes.data, self.statuses.ctypes.data,
            )  # fmt: skip
        finally:
            for one, handle in zip(self.junctions, held):
                one._handle, one._running = handle, False
        self._keep(counts, commands)
        return self.told

    def _keep(self, counts: Any, commands: Optional[Any]) -> None:
        """Puts what was made into each junction; a NotTaken where one made none."""
        told, size = memoryview(self.told.tobytes()), self.told.itemsize
        saw, statuses = counts.reshape(len(self), -1).any(axis=1).tolist(), self.statuses.tolist()
        for at, one in enumerate(self.junctions):
            if not statuses[at]:
                seen = given.seen_of(counts[at]) if saw[at] else []
                one._take(told[at * size : at * size + size], seen, None if commands is None else commands[at].tobytes())
        if any(statuses):
            at = int(self.statuses.argmax())
            one = self.junctions[at]
            text, detector, reason = given.why_not(one._tape, one.seconds, given.seen_of(counts[at]))
            raise NotTaken(f"junction {at}: {text}", self.told, detector, reason)
