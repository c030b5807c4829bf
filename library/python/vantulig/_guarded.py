"""The guard and the stages of a site under decisions of the caller."""

import ctypes
from pathlib import Path
from typing import Any, Iterable, List, Mapping, Optional, Sequence, Tuple, Type, TypeVar, Union

from . import _given as given
from . import _library as lib
from ._controller import Controller, State
from ._given import NO_COMMANDS, CountsMapping, PathLike, Seen, Tape, TextLike, Wish, numpy
from ._records import Mask, NoCommand, NotTaken, Record, mask_of

# a program that commands nothing: its passes leave the active stage as it is
NO_PROGRAM = b"PROGRAM none;\nVAP_FREQUENCY 1;\nPROG_ENDE: .\n"
# a number of a stage that names none in any plan
NO_STAGE = 255
_Self = TypeVar("_Self", bound="Guarded")


class Guarded(Controller):
    """The guard and the stages of a site under decisions of the caller, beside a program or without one. What is commanded in
    a second comes with it, and whatever it is, the guard shows nothing that breaks a rule.

        with Guarded.of(plan, times, intergreens) as g:
            record = g.decide(stage=2)                          # a stage is wished
            record = g.decide(order=(1, 2))                     # a stage command, as a program's Interstage(1, 2)
            record = g.decide(groups={"K1": "green", "K2": "red"})     # wishes for groups, over those of the stage
            record = g.wish("GRRG")                             # one wish for each group, and no stage counts
            g.mask()                                            # what the next second would refuse

    Of a program's text `Guarded(program, plan, times, intergreens)` makes seconds by the program (`step`) and by the caller
    in any order."""

    def __init__(
        self,
        program: TextLike,
        plan: TextLike,
        times: TextLike,
        intergreens: TextLike,
        *,
        is_code: bool = False,
        keep: bool = True,
    ):
        self._commands = bytearray(ctypes.sizeof(lib.Commands))
        self._commanded = ctypes.byref(lib.Commands.from_buffer(self._commands))
        self._raw = lib.RawMask()
        super().__init__(program, plan, times, intergreens, is_code=is_code, keep=keep)
        self._give = self._lib["junction_given_second"]
        self.stages = self.raw_mask().stages

    @classmethod
    def of(cls: Type[_Self], plan: TextLike, times: TextLike, intergreens: TextLike, *, keep: bool = True) -> _Self:
        """Of the texts of a site alone."""
        return cls(NO_PROGRAM, plan, times, intergreens, keep=keep)

    @classmethod
    def of_files(cls: Type[_Self], plan: PathLike, times: PathLike, intergreens: PathLike, *, keep: bool = True) -> _Self:
        """The same of files, by their paths."""
        return cls.of(*map(Path, (plan, times, intergreens)), keep=keep)

    # ---- one second

    def decide(
        self,
        counts: Any = None,
        *,
        order: Optional[Tuple[int, int]] = None,
        stage: Optional[int] = None,
        groups: Optional[Mapping[Union[str, int], Wish]] = None,
    ) -> Record:
        """Makes a second by what is wished and commanded, and tells its record. `order` is a stage command; `stage` the stage
        that is wished: where another one is active in this second, the command from that one to this; `groups` has for names
        or places of groups 'green' or 'red', over what the stage wishes. A NoCommand where the counts are taken and one of
        them names nothing; then nothing has changed."""
        commands, names_nothing = self._commands, None
        commands[:] = NO_COMMANDS
        try:
            if order is not None:
                from_stage, to = given.order_of(order)
                commands[0] = given.number_below("stage", from_stage, self.stages + 1)
                commands[1] = given.number_below("stage", to, self.stages + 1)
            if stage is not None:
                commands[2] = given.number_below("stage", stage, self.stages + 1)
            if groups:
                given.put_groups(groups, self.names, commands)
        except NoCommand as why:
            # the library looks at the counts first, and refuses this stage where it takes them
            commands[2], names_nothing = NO_STAGE, why
        return self._decide(counts, names_nothing)

    def wish(self, wishes: str, counts: Any = None) -> Record:
        """Makes a second by one letter for each group: G or R; a dot leaves a group to its stage."""
        self._commands[:] = NO_COMMANDS
        given.put_letters(wishes, self.names, self._commands)
        return self._decide(counts)

    def _decide(self, counts: Any, names_nothing: Optional[NoCommand] = None) -> Record:
        seen = self._make_given(counts, names_nothing)
        return self._record(seen)

    def _make_given(self, counts: Any, names_nothing: Optional[NoCommand] = None) -> Seen:
        self._counts[:] = given.NO_COUNTS
        seen = given.put_counts(counts, self._numbers) if counts is not None else []
        status = self._give(self._handle, self._given, self._commanded, self._out)
        if status == lib.NOT_TAKEN:
            raise self._not_taken(seen)
        if status == lib.NO_COMMAND:
            raise names_nothing or NoCommand("a command names no stage or group of the plan")
        if status:
            raise self._gone()
        if self._tape is not None:
            self._tape.commands(seen, bytes(self._commands))
        self._last_seen = seen
        return seen

    # ---- the mask

    def raw_mask(self) -> lib.RawMask:
        """The mask in plain numbers, as junction_mask of junction.h; the same object each time."""
        status = self._lib.junction_mask(self._handle, self._raw)
        if status == lib.NOT_TAKEN:
            raise NotTaken("no second is left", reason="TooManySeconds")
        if status:
            raise self._gone()
        return self._raw

    def mask(self) -> Mask:
        """What the second that comes would refuse."""
        return mask_of(self.raw_mask(), self.names)

    def mask_array(self) -> Any:
        """The same as one element of an array with the fields of junction_mask (a copy; NumPy is wanted)."""
        return numpy.frombuffer(bytes(self.raw_mask()), numpy.dtype(lib.RawMask))[0]

    # ---- many seconds in one call

    def drive(self, counts: Any, *, orders: Any = None, stages: Any = None, groups: Any = None) -> Any:
        """Makes a second of each counts by commands, and tells them all as a `Run`: `orders` are numbers (seconds, 2),
        `stages` numbers (seconds,), `groups` numbers (seconds, groups): 0 nothing, 1 green, 2 red. `counts` may be a number
        of seconds in which nothing is counted. Other threads go on meanwhile. Where a command names nothing it is a
        NoCommand, and no second is made."""
        counts = numpy.zeros((counts, 2, 64), numpy.uint32) if isinstance(counts, int) else given.array_of(counts)
        commands = command_array(len(counts), self.stages, len(self.names), orders, stages, groups)
        return self._run(counts, commands)

    # ---- a state that is kept and put back

    def restore(self, state: State) -> None:
        """Puts a state back that `save` told, of a controller of the same texts."""
        if (state.texts, state.is_code) != (self._texts, self._is_code):
            raise ValueError("the state is of a controller of other texts")
        self.restart()
        for seen, commands in Tape(state.given):
            if commands is None:
                self._again(seen)
            else:
                self._commands[:] = commands
                self._make_given({d: (f, r) for d, f, r in seen})


def command_array(count: int, stages_in: int, groups_in: int, orders: Any, stages: Any, groups: Any) -> Any:
    """Commands as bytes of the form (count, 68)."""
    commands = numpy.zeros((count, 68), numpy.uint8)
    parts: List[Tuple[str, Any, Tuple[int, ...], Any, int]] = [
        ("orders", orders, (count, 2), commands[:, 0:2], stages_in),
        ("stages", stages, (count,), commands[:, 2], stages_in),
        ("groups", groups, (count, groups_in), commands[:, 4 : 4 + groups_in], 2),
    ]
    for name, numbers, form, place, most in parts:
        if numbers is None:
            continue
        numbers = numpy.asarray(numbers)
        if numbers.shape != form or numbers.dtype.kind not in "iub":
            raise ValueError(f"{name}: whole numbers of the form {form} are wanted, and not {numbers.dtype} {numbers.shape}")
        if numbers.size and not (0 <= numbers.min() and numbers.max() <= most):
            raise NoCommand(f"{name}: numbers from 0 to {most} are wanted")
        place[...] = numbers
    if ((commands[:, 0] == 0) != (commands[:, 1] == 0)).any():
        raise NoCommand("orders: a stage command has two stages, or 0 and 0 for none")
    return commands
