#!/usr/bin/env python3
"""driven.py FOLDER JUNCTION: plays cases of seconds by commands, with their masks, by the Python package, each twice with a new
beginning between; and by the built program JUNCTION, of each case a program that gives its commands. FOLDER has the cases in
given/ and the script that plays them, check.py."""
import sys
import types
from pathlib import Path


def read_plan(text):
    """What the script wants to know of a PUA file: the names and the numbers of the groups, and the stages."""
    groups, stages, part = [], [], None
    for line in text.decode("latin-1").splitlines():
        words = line.split()
        if words and words[0].startswith("$") and len(words[0]) > 1:
            part = words[0].upper()
        elif words and words[0] != "$" and part == "$SIGNAL_GROUPS":
            groups.append((int(words[1]), words[0]))
        elif words and words[0] != "$" and part == "$STAGES" and words[0].lower() != "red":
            stages.append(words[0])
    groups.sort()
    return types.SimpleNamespace(names=[name for _, name in groups], numbers=[number for number, _ in groups], stages=stages)


def main(folder, junction):
    """The status of all ways."""
    for name in ("vr", "vr.pua"):
        sys.modules[name] = types.ModuleType(name)
    sys.modules["vr.pua"].read_plan = read_plan
    sys.dont_write_bytecode = True
    sys.path.insert(0, folder)
    import check

    status, cases = 0, str(Path(folder, "given"))
    for words in (["--again", cases], ["--by", f"run={junction}", cases]):
        sys.argv = ["check.py", *words]
        status |= check.main()
    return status


if __name__ == "__main__":
    sys.exit(main(*sys.argv[1:]) if len(sys.argv) == 3 else __doc__)
