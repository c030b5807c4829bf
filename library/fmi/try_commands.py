#!/usr/bin/env python3
"""try_commands.py FMU PROGRAM PUA TIMES INTERGREENS: plays a unit by chance, seconds by its program and by commands in turn, and
compares its lines with those of the Python package; commands that name nothing are discarded, and change nothing."""
import ctypes
import random
import re
import sys
import tempfile
import zipfile
from pathlib import Path

import vantulig

OK, DISCARD, SECONDS = 0, 2, 2000


class Unit:
    """A unit of FMI as ctypes sees it."""

    def __init__(self, folder):
        text = Path(folder, "modelDescription.xml").read_text(encoding="utf-8")
        self.places = {name: int(place) for name, place in re.findall(r'name="(\w+)" valueReference="(\d+)"', text)}
        self.library = ctypes.CDLL(str(Path(folder, "binaries/x86_64-linux/junction.so")))
        make = self.library.fmi3InstantiateCoSimulation
        make.restype = ctypes.c_void_p
        token = re.search(r'instantiationToken="(\w+)"', text)[1].encode()
        self.instance = ctypes.c_void_p(make(b"unit", token, f"{folder}/resources/".encode(), False, False, False, False, None,
                                             ctypes.c_size_t(0), None, None, None))
        none = ctypes.c_double(0)
        assert self.call("EnterInitializationMode", False, none, none, False, none) == self.call("ExitInitializationMode") == OK

    def call(self, name, *words):
        return getattr(self.library, f"fmi3{name}")(self.instance, *words)

    def set(self, kind, name, values, item):
        place = (ctypes.c_uint32 * 1)(self.places[name])
        count = ctypes.c_size_t(len(values))
        return self.call(f"Set{kind}", place, ctypes.c_size_t(1), (item * len(values))(*values), count)

    def step(self, second):
        last = ctypes.c_double()
        flags = [ctypes.byref(ctypes.c_bool()) for _ in range(3)]
        return self.call("DoStep", ctypes.c_double(second), ctypes.c_double(1), True, *flags, ctypes.byref(last))

    def record(self):
        place, text = (ctypes.c_uint32 * 1)(self.places["record"]), (ctypes.c_char_p * 1)()
        assert self.call("GetString", place, ctypes.c_size_t(1), text, ctypes.c_size_t(1)) == OK
        return text[0].decode()


def set_commands(unit, order, stage, wishes):
    byte = ctypes.c_uint8
    named = {"order_from": order[:1], "order_to": order[1:], "wished_stage": [stage], "wishes": wishes}
    assert not any(unit.set("UInt8", name, values, byte) for name, values in named.items())


def main(file, *texts):
    chance = random.Random(9)
    with tempfile.TemporaryDirectory() as folder, zipfile.ZipFile(file) as packed, vantulig.Guarded(*map(Path, texts)) as guarded:
        packed.extractall(folder)
        unit, n = Unit(folder), len(guarded.names)
        for second in range(SECONDS):
            by_commands = chance.random() < 0.7
            fronts = [int(d < 12 and chance.random() < 0.1) for d in range(64)]
            wishes = [chance.choice((0, 0, 1, 2)) if g < n else 0 for g in range(64)]
            order, stage = chance.choice([[0, 0], [1, 2], [2, 1]]), chance.randrange(guarded.stages + 1)
            assert unit.set("UInt32", "fronts", fronts, ctypes.c_uint32) == unit.set("UInt32", "rears", fronts, ctypes.c_uint32) == OK
            assert unit.set("Boolean", "by_commands", [by_commands], ctypes.c_bool) == OK
            if by_commands and second % 10 == 0:
                set_commands(unit, [0, 1], stage, wishes)
                assert unit.step(second) == DISCARD, "a command that names nothing"
            set_commands(unit, order, stage, wishes)
            assert unit.step(second) == OK
            counts = {d + 1: (1, 1) for d in range(64) if fronts[d]}
            groups = {g: (None, "green", "red")[wishes[g]] for g in range(n)}
            record = guarded.decide(counts, order=order, stage=stage, groups=groups) if by_commands else guarded.step(counts)
            assert unit.record() == record.line().rstrip("\n"), (unit.record(), record)
        unit.call("FreeInstance")
    print(f"{SECONDS} seconds by the program and by commands: the unit tells what the package tells")
    return 0


if __name__ == "__main__":
    sys.exit(main(*sys.argv[1:]) if len(sys.argv) == 6 else __doc__)
