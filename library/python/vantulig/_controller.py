"""A controller of one junction, second by second by its program."""

import copy
import ctypes
import os
import struct
from pathlib import Path
from typing import Any, Dict, Iterable, List, NamedTuple, Optional, Tuple, Type, TypeVar

from . import _given as given
from . import _library as lib
from ._given import CountsMapping, PathLike, Seen, Tape, TextLike, numpy
from ._records import Busy, Ended, NoNames, NotTaken, Record, Refused, StageRefusal, Turn, fault_of, place_text, rule_of
from ._run import Run

# the places of the four lists of 64 bytes in Told, whose other numbers lie before them
_ASPECTS, _TURN_GROUPS, _TURN_RULES, _TURN_OTHERS = (
    getattr(lib.Told, name).offset for name in ("aspects", "turn_groups", "turn_rules", "turn_others")
)
# how many refused stage commands one call of the library lists
LISTED = 4096
_STAGES = [f"S{number}" for number in range(256)]
_new = tuple.__new__
_Self = TypeVar("_Self", bound="Controller")


class State(NamedTuple):
    """What `save` keeps: the texts of a controller and what it was given so far. It is plain data, which can be pickled."""

    texts: Tuple[bytes, bytes, bytes, bytes]
    is_code: bool
    given: bytes


class Controller:
    """A controller of one junction, before its first second. The texts are a program in VAP or, where `is_code` says so, a
    code file, the plan as a PUA file, the table of times and the table of intergreens: bytes, str, or a path to read. `keep`
    is whether it keeps what it is given (4 bytes a second and 12 for each detector that counts something), which `save`,
    `copy` and pickling need."""

    names: Tuple[str, ...]

    def __init__(
        self,
        program: TextLike,
        plan: TextLike,
        times: TextLike,
        intergreens: TextLike,
        *,
        is_code: bool = False,
        keep: bool = True,
    ):
        self._handle: Optional[ctypes.c_void_p] = None
        self._running = False
        library = lib.library()
        self._lib, self._free = library.held, library.free
        self._is_code, self._keep = is_code, keep
        self._open = self._lib.junction_open_code if is_code else self._lib.junction_open
        # a function without types of its arguments is called faster; these have their C types already
        self._call = self._lib["junction_second"]
        texts = (program, plan, times, intergreens)
        self._paths = tuple(str(text) if isinstance(text, os.PathLike) else None for text in texts)
        self._texts = tuple(given.text_of(text) for text in texts)
        self._counts, self._told = bytearray(ctypes.sizeof(lib.Counts)), bytearray(ctypes.sizeof(lib.Told))
        self._numbers = memoryview(self._counts).cast("I")
        self._given = ctypes.byref(lib.Counts.from_buffer(self._counts))
        self._out = ctypes.byref(lib.Told.from_buffer(self._told))
        self._tape: Optional[Tape] = None
        self.restart()

    @classmethod
    def open(cls: Type[_Self], program: PathLike, plan: PathLike, times: PathLike, intergreens: PathLike) -> _Self:
        """A controller of four files, by their paths."""
        return cls(*map(Path, (program, plan, times, intergreens)))

    @classmethod
    def open_code(cls: Type[_Self], code: PathLike, plan: PathLike, times: PathLike, intergreens: PathLike) -> _Self:
        """The same of a code file, which `junction compile` writes, in the place of the program."""
        return cls(*map(Path, (code, plan, times, intergreens)), is_code=True)

    def restart(self) -> None:
        """Begins anew, before the first second, with the same texts; after `end` too."""
        self.end()
        texts, refusal, opened = lib.Texts(*[(text, len(text)) for text in self._texts]), lib.Refusal(), ctypes.c_void_p()
        status = self._open(opened, texts, refusal)
        if status == lib.NO_MEMORY:
            raise MemoryError("a controller")
        if status != lib.DONE:
            reason, note = refusal.reason.decode("utf-8", "replace"), refusal.note.decode("utf-8", "replace")
            path = self._paths[refusal.file]
            raise Refused(status, lib.FILES[refusal.file], refusal.line or None, reason, note, path)
        self._handle = opened
        self.names = tuple(name for group in range(64) if (name := self._group_name(group)))
        self._unpack = struct.Struct(f"=4I6B{len(self.names)}s").unpack_from
        self._counts[:] = given.NO_COUNTS
        self._told[:] = bytes(len(self._told))
        self._tape = Tape() if self._keep else None
        self._last_seen: Seen = []

    def _group_name(self, group: int) -> str:
        name, length = ctypes.create_string_buffer(33), ctypes.c_size_t()
        self._lib.junction_group_name(self._handle, group, name, 33, length)
        return name.value.decode("ascii")

    # ---- one second

    def _take(self, told: memoryview, seen: Seen, commands: Optional[bytes]) -> None:
        """Takes a second that was made elsewhere by this handle."""
        self._told[:] = told
        self._last_seen = seen
        if self._tape is None:
            return
        if commands is None:
            self._tape.program(self._last_seen)
        else:
            self._tape.commands(self._last_seen, commands)

    def _gone(self) -> Exception:
        return Busy("another thread makes seconds of this controller") if self._running else Ended("the controller has ended")

    def _not_taken(self, seen: Seen) -> NotTaken:
        text, detector, reason = given.why_not(self._tape, self.seconds, seen)
        return NotTaken(text, detector=detector, reason=reason)

    def _make(self, counts: Any) -> Tuple[int, Seen]:
        """Makes a second; answers the status, and its counts without those that are 0."""
        self._counts[:] = given.NO_COUNTS
        seen = given.put_counts(counts, self._numbers) if counts is not None else []
        status = self._call(self._handle, self._given, self._out)
        if status:
            if status == lib.WRONG_CALL:
                raise self._gone()
            return status, seen
        if self._tape is not None:
            self._tape.program(seen)
        self._last_seen = seen
        return status, seen

    def second(self, counts: Any = None) -> bool:
        """Makes a second; answers whether the counts were taken: a mapping {detector: (fronts, rears)}, or an array (2, 64)
        of the fronts and the rears of detectors 1 to 64. What it told is read by the properties, or by `record`."""
        return not self._make(counts)[0]

    def step(self, counts: Any = None) -> Record:
        """Makes a second of counts as `second` takes them, and tells its record."""
        status, seen = self._make(counts)
        if status:
            raise self._not_taken(seen)
        return self._record(seen)

    def record(self, counts: Optional[CountsMapping] = None) -> Record:
        """The record of the last second made. `counts` may say which counts it had."""
        if counts is None:
            return self._record(self._last_seen)
        return self._record(given.seen_of(counts))

    def _record(self, seen: Seen) -> Record:
        second, fault_line, stages, turns, kind, from_stage, to, t, fault, _, aspects = self._unpack(self._told)
        seen.sort()
        values = (
            second,
            _STAGES[to] if kind == 1 else place_text(kind, from_stage, to, t),
            aspects.decode("ascii"),
            tuple(seen),
            tuple([self._refused_stage(i) for i in range(stages)]) if stages else (),
            tuple([self._turn(i) for i in range(turns)]) if turns else (),
            fault_of(fault, fault_line) if fault else None,
        )
        return _new(Record, values)

    def _turn(self, place: int) -> Turn:
        told, names = self._told, self.names
        other = told[_TURN_OTHERS + place]
        in_the_way = None if other == lib.NONE_IN_THE_WAY else names[other]
        return Turn(names[told[_TURN_GROUPS + place]], rule_of(told[_TURN_RULES + place]), in_the_way)

    def _refused_stage(self, place: int) -> StageRefusal:
        refused = lib.RefusedStage()
        if self._lib.junction_refused_stage(self._handle, place, refused):
            raise self._gone()
        return StageRefusal(refused.from_stage, refused.to, rule_of(refused.rule))

    # ---- what the last second told

    def header(self) -> str:
        """The first line of the log."""
        return " ".join(["VAPLOG 1", *self.names]) + "\n"

    @property
    def seconds(self) -> int:
        """How many seconds were made: the number of the last one."""
        return int(struct.unpack_from("=I", self._told)[0])

    @property
    def aspects(self) -> str:
        """The aspects of the last second made: R, U (red-amber), G, A; empty before the first one."""
        return self._told[_ASPECTS : _ASPECTS + self._told[_ASPECTS - 1]].decode("ascii")

    @property
    def place(self) -> str:
        """The place of the last second as the log spells it: S2, or I1-2+3; `-` before the first one."""
        kind, from_stage, to, t = self._told[16:20]
        return place_text(kind, from_stage, to, t)

    @property
    def fault(self) -> Optional[Tuple[str, int]]:
        """The fault of the last second and its line; None where there is none."""
        return fault_of(self._told[20], int(struct.unpack_from("=I", self._told, 4)[0]))

    @property
    def told(self) -> Any:
        """The last second in plain numbers, with the fields of `struct junction_told` (a copy; NumPy is wanted)."""
        return numpy.frombuffer(bytes(self._told), numpy.dtype(lib.Told))[0]

    def __repr__(self) -> str:
        if self._handle is None:
            return f"<{type(self).__name__} of {' '.join(self.names)}: {'at work' if self._running else 'ended'}>"
        return f"<{type(self).__name__} of {' '.join(self.names)}: second {self.seconds}, {self.place} {self.aspects}>"

    # ---- variables and timers, by their names in letters of any case

    def value(self, name: str) -> int:
        """The value of a variable of the program after the last second. Made for tests. A KeyError where the program has no
        such variable, and NoNames where the controller is of a code file."""
        return self._named(self._lib.junction_value, name, ctypes.c_int32())

    def timer(self, name: str) -> int:
        """The seconds of a timer of the program after the last second; the same of timers."""
        return self._named(self._lib.junction_timer, name, ctypes.c_uint32())

    def _named(self, call: Any, name: str, value: Any) -> int:
        status = call(self._handle, name.encode(), value)
        if status == lib.NO_NAMES:
            raise NoNames("a code file has no names of variables and timers")
        if status == lib.NOTHING:
            raise KeyError(name)
        if status:
            raise self._gone()
        return int(value.value)

    @property
    def variables(self) -> Dict[str, int]:
        """All variables with their values after the last second."""
        return {name: self.value(name) for name in self._all_names(self._lib.junction_variable_name)}

    @property
    def timers(self) -> Dict[str, int]:
        """All timers with their seconds."""
        return {name: self.timer(name) for name in self._all_names(self._lib.junction_timer_name)}

    def _all_names(self, call: Any) -> List[str]:
        found: List[str] = []
        name, length = ctypes.create_string_buffer(256), ctypes.c_size_t()
        while True:
            status = call(self._handle, len(found), name, len(name), length)
            if status == lib.NO_NAMES:
                raise NoNames("a code file has no names of variables and timers")
            if status == lib.NOTHING:
                return found
            if status:
                raise self._gone()
            found.append(name.value.decode("ascii"))

    # ---- many seconds in one call

    def run(self, counts: Iterable[Any]) -> Any:
        """Makes a second of each counts, and tells them all: with NumPy as a `Run`, without it as a list of Record. The
        counts are mappings as `second` takes them, or an array of whole numbers of the form (seconds, 2, 64). Other threads
        go on meanwhile."""
        if numpy is None:
            return self._run_each(counts)
        return self._run(given.array_of(counts), None)

    def _run(self, counts: Any, commands: Optional[Any]) -> Run:
        handle = self._handle
        if handle is None:
            raise self._gone()
        told = numpy.zeros(len(counts), numpy.dtype(lib.Told))
        listed: List[Any] = []
        # without a handle no other thread comes in while the interpreter's lock is let go
        self._handle, self._running = None, True
        try:
            made, status = self._run_parts(handle, counts, commands, told, listed)
        finally:
            self._handle, self._running = handle, False
        return self._ran(counts, commands, told, made, status, numpy.concatenate(listed))

    def _run_parts(self, handle: Any, counts: Any, commands: Any, told: Any, listed: List[Any]) -> Tuple[int, int]:
        """Makes the seconds; whenever the list is full, goes on with a new one. Answers how many were made, and the status."""
        made, many, total = ctypes.c_size_t(), ctypes.c_size_t(), 0
        while True:
            part = _listed(LISTED)
            at = commands[total:].ctypes.data if commands is not None else None
            status = self._free.junction_run(
                handle, len(counts) - total, counts[total:].ctypes.data, at, told[total:].ctypes.data,
                part.ctypes.data, LISTED, made, many,
            )  # fmt: skip
            total += made.value
            listed.append(part[: many.value])
            if status != lib.NO_ROOM:
                return total, int(status)
            listed.append(self._last_stages(handle, told[total - 1]))

    def _last_stages(self, handle: Any, one: Any) -> Any:
        """The refused stage commands of the last second, as a list has them."""
        part, refused = _listed(int(one["stages"])), lib.RefusedStage()
        for place in range(len(part)):
            self._lib.junction_refused_stage(handle, place, refused)
            part[place] = one["second"], refused.from_stage, refused.to, refused.rule, 0
        return part

    def _ran(self, counts: Any, commands: Optional[Any], told: Any, made: int, status: int, listed: Any) -> Run:
        kept = counts[:made]
        if self._tape is not None:
            self._tape.array(kept, None if commands is None else commands[:made])
        if made:
            self._told[:] = told[made - 1 : made].tobytes()
            self._last_seen = given.seen_of(kept[-1])
        run = Run(told[:made], self.names, kept, listed)
        if status == lib.NOT_TAKEN:
            text, detector, reason = given.why_not(self._tape, self.seconds, given.seen_of(counts[made]))
            raise NotTaken(f"the counts at place {made}: {text}", run, detector, reason)
        return run

    def _run_each(self, counts: Iterable[Any]) -> List[Record]:
        made: List[Record] = []
        for one in counts:
            status, seen = self._make(one)
            if status:
                text, detector, reason = given.why_not(self._tape, self.seconds, seen)
                raise NotTaken(f"the counts at place {len(made)}: {text}", made, detector, reason)
            made.append(self._record(seen))
        return made

    # ---- a state that is kept and put back

    def save(self) -> State:
        """The state after the last second. A controller of the same texts to which it is put back tells the same records from
        then on: it makes the same seconds anew, of which each tells exactly what it told."""
        if self._tape is None:
            raise ValueError("this controller doesn't keep what it is given (keep=False)")
        return State(self._texts, self._is_code, self._tape.kept())  # type: ignore[arg-type]

    def restore(self, state: State) -> None:
        """Puts a state back that `save` told, of a controller of the same texts; after `end` too."""
        if (state.texts, state.is_code) != (self._texts, self._is_code):
            raise ValueError("the state is of a controller of other texts")
        self.restart()
        for seen, commands in Tape(state.given):
            if commands is not None:
                raise ValueError("the state has seconds by commands, which a Guarded takes")
            self._again(seen)

    def _again(self, seen: Seen) -> None:
        self.second({d: (f, r) for d, f, r in seen})

    def copy(self: _Self) -> _Self:
        """A controller of its own in the same state."""
        return copy.copy(self)

    def __copy__(self: _Self) -> _Self:
        return _made_again(type(self), self.save())  # type: ignore[return-value]

    def __deepcopy__(self: _Self, memo: Any) -> _Self:
        return copy.copy(self)

    def __reduce__(self) -> Tuple[Any, ...]:
        return _made_again, (type(self), self.save())

    # ---- the end

    def end(self) -> None:
        """Frees the controller. A further call of `second` raises Ended."""
        if self._running:
            raise self._gone()
        if self._handle is not None:
            self._lib.junction_close(self._handle)
            self._handle = None

    def __enter__(self: _Self) -> _Self:
        return self

    def __exit__(self, *_: Any) -> None:
        self.end()

    def __del__(self) -> None:
        if getattr(self, "_handle", None) is not None:
            self.end()


def _made_again(kind: Type[Controller], state: State) -> Controller:
    made = kind(*state.texts, is_code=state.is_code)
    made.restore(state)
    return made


def _listed(room: int) -> Any:
    return numpy.zeros(room, numpy.dtype(lib.ListedStage))

