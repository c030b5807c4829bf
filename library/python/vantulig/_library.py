"""The shared library as ctypes sees it: its structures, its numbers, and how it is loaded."""

import ctypes
import os
from typing import Any, Dict

from ._version import __version__

RULES = (None, "Sequence", "MinGreen", "Conflict", "Intergreen", "Running", "WrongStage", "NoInterstage", "MinRed")
FAULTS = (None, "Budget", "Overflow", "ZeroDivisor", "Index", "Number")
FILES = ("program", "plan", "times", "intergreens")
DONE, NO_MEMORY, WRONG_CALL, NOT_TAKEN, NOTHING = range(5)
NO_NAMES, NO_COMMAND, NO_ROOM = 8, 9, 10
NONE_IN_THE_WAY, NEVER = 255, 65535


class Text(ctypes.Structure):
    _fields_ = [("bytes", ctypes.c_char_p), ("length", ctypes.c_size_t)]


class Texts(ctypes.Structure):
    _fields_ = [(name, Text) for name in FILES]


class Refusal(ctypes.Structure):
    _fields_ = [
        ("file", ctypes.c_int),
        ("line", ctypes.c_uint32),
        ("reason", ctypes.c_char * 128),
        ("note", ctypes.c_char * 256),
    ]


class Counts(ctypes.Structure):
    _fields_ = [("fronts", ctypes.c_uint32 * 64), ("rears", ctypes.c_uint32 * 64)]


class Told(ctypes.Structure):
    _fields_ = (
        [(name, ctypes.c_uint32) for name in ("second", "fault_line", "stages", "turns")]
        + [(name, ctypes.c_uint8) for name in ("place", "from_stage", "to", "t", "fault", "groups")]
        + [(name, ctypes.c_uint8 * 64) for name in ("aspects", "turn_groups", "turn_rules", "turn_others")]
        + [("reserved", ctypes.c_uint8 * 2)]
    )


class Commands(ctypes.Structure):
    _fields_ = [
        *((name, ctypes.c_uint8) for name in ("from_stage", "to", "stage", "reserved")),
        ("groups", ctypes.c_uint8 * 64),
    ]


class RawMask(ctypes.Structure):
    """The mask in plain numbers, as `struct junction_mask` of junction.h."""

    _fields_ = (
        [(name, ctypes.c_uint8) for name in ("place", "from_stage", "to", "t", "groups", "stages")]
        + [("reserved", ctypes.c_uint8 * 2)]
        + [(name, ctypes.c_uint8 * 64) for name in ("turns", "rules", "others")]
        + [("waits", ctypes.c_uint16 * 64), ("stage_rules", ctypes.c_uint8 * 32)]
    )


class RefusedStage(ctypes.Structure):
    _fields_ = [(name, ctypes.c_uint8) for name in ("from_stage", "to", "rule")]


class ListedStage(ctypes.Structure):
    """A refused stage command with the second in which it was given."""

    _fields_ = [("second", ctypes.c_uint32)] + [(name, ctypes.c_uint8) for name in ("from_stage", "to", "rule", "reserved")]


_loaded: Dict[str, "Library"] = {}


class Library:
    """The calls of the library. `held` makes them under the interpreter's lock, which a single second is too short to let go;
    `free` lets it go."""

    def __init__(self, path: str):
        self.held: Any = ctypes.PyDLL(path)
        self.free: Any = ctypes.CDLL(path)
        self.held.junction_version.restype = ctypes.c_char_p
        found = self.held.junction_version().decode()
        if found != __version__:
            raise ImportError(f"{path} has version {found}; this module is of version {__version__}")
        handle, size, place = ctypes.c_void_p, ctypes.c_size_t, ctypes.c_void_p
        opens = [ctypes.POINTER(handle), ctypes.POINTER(Texts), ctypes.POINTER(Refusal)]
        held = self.held
        held.junction_open.argtypes = held.junction_open_code.argtypes = opens
        held.junction_value.argtypes = [handle, ctypes.c_char_p, ctypes.POINTER(ctypes.c_int32)]
        held.junction_timer.argtypes = [handle, ctypes.c_char_p, ctypes.POINTER(ctypes.c_uint32)]
        names = [handle, size, place, size, ctypes.POINTER(size)]
        held.junction_variable_name.argtypes = held.junction_timer_name.argtypes = names
        held.junction_close.argtypes, held.junction_close.restype = [handle], None
        held.junction_second.argtypes = [handle, place, place]
        held.junction_given_second.argtypes = [handle, place, place, place]
        held.junction_mask.argtypes = [handle, ctypes.POINTER(RawMask)]
        held.junction_refused_stage.argtypes = [handle, size, ctypes.POINTER(RefusedStage)]
        held.junction_group_name.argtypes = [handle, size, ctypes.c_char_p, size, ctypes.POINTER(size)]
        counted = ctypes.POINTER(size)
        self.free.junction_run.argtypes = [handle, size, place, place, place, place, size, counted, counted]
        self.free.junction_each.argtypes = [size, place, place, place, place, place, place]


def library() -> Library:
    """The library beside this file, or the one that the variable VANTULIG names. It is loaded once."""
    path = os.environ.get("VANTULIG") or os.path.join(os.path.dirname(os.path.abspath(__file__)), "libjunction.so")
    if path not in _loaded:
        _loaded[path] = Library(path)
    return _loaded[path]
