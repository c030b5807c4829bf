#!/usr/bin/env python3
"""workloads.py FOLDER: writes the files of the workloads into FOLDER.

The site is the four-arm junction of crates/junction/examples/four_arms. `traffic` has an entry d:1:1 in line k for each
detector d from 1 to 12 for which d + 5 divides k + 7 d; `empty` has as many empty lines; the program `units.vap` spends
all 10,000 units of each second. `names.vap` declares many constants, and `colliding.vap` as many whose names have hashes that
collide (names.rs, built with rustc). `kinds.vap` has as many names of each other kind as there may be, and uses them;
`colliding_kinds.vap` is the same with names that collide. The names of `one_tree.vap` and `one_tree_kinds.vap` all lie in one of
the trees over which the checker spreads names.
"""
import itertools
import os
import shutil
import subprocess
import sys

SECONDS = 604_800
UNITS_SECONDS = 2_000
NAMES = 18_000
HERE = os.path.dirname(os.path.abspath(__file__))
EXAMPLE = os.path.join(HERE, "../crates/junction/examples/four_arms")

UNITS = """PROGRAM units;
i := 0;
L: i := i + 1;
IF i < 3333 THEN GOTO L; END;
TRACE(i);
PROG_ENDE: .
"""


def traffic(second):
    """Returns the detector line of a second."""
    return " ".join(f"{d}:1:1" for d in range(1, 13) if (second + 7 * d) % (d + 5) == 0) + "\n"


def constants(names):
    """Returns a program that declares these names."""
    return "PROGRAM names;\nCONST\n" + ",\n".join(f"{name} = 1" for name in names) + ";\nPROG_ENDE: .\n"


def kinds(names):
    """Returns a program with constants, arrays, subroutines, timers, variables and labels of these names."""
    rest = iter(names)
    consts, arrays, subs, timers, variables, labels = (list(itertools.islice(rest, most)) for most in (4_096, 32, 64, 64, 256, 4_096))
    lines = ["PROGRAM kinds;", "CONST " + ",\n".join(f"{name} = 1" for name in consts) + ";"]
    lines += ["ARRAY " + ",\n".join(f"{name}[2] = [1, 2]" for name in arrays) + ";"]
    lines += [f"SUBROUTINE {name};\nPROG_ENDE: ." for name in subs]
    lines += [f"START({name}); {variable} := {name};" for name, variable in zip(timers, variables)]
    lines += [f"GOSUB {name};" for name in subs]
    for turn, label in enumerate(labels):
        array, variable, const = arrays[turn % len(arrays)], variables[turn % len(variables)], consts[turn]
        lines += [f"{label}: {variable} := {array}[{const}] + {variable};", f"GOTO {label};"]
    return "\n".join(lines) + "\nPROG_ENDE: .\n"


def colliding(folder):
    """Returns names of six letters whose hashes collide."""
    program = os.path.join(folder, "names")
    subprocess.run(["rustc", "--edition", "2021", "-O", "-o", program, os.path.join(HERE, "names.rs")], check=True)
    return subprocess.run([program, str(NAMES)], check=True, stdout=subprocess.PIPE, text=True).stdout.split()


def tree_of(name):
    """Returns the tree that the checker keeps a name in."""
    tree = 0
    for letter in name.encode():
        tree = (tree * 37 + letter) % 1024
    return tree


def in_one_tree():
    """Returns names of six letters that lie in the first tree, in the order of their letters."""
    letters = "abcdefghijklmnopqrstuvwxyz"
    for start in map("".join, itertools.product(letters, repeat=5)):
        last = -tree_of(start) * 37 % 1024
        if chr(last) in letters:
            yield start + chr(last)


def main():
    folder = sys.argv[1]
    os.makedirs(folder, exist_ok=True)
    for name in ("four_arms.vap", "junction.pua", "times.csv", "intergreens.csv"):
        shutil.copy(os.path.join(EXAMPLE, name), folder)
    usual = ["".join(letters) for letters in itertools.islice(itertools.product("klmnopqrst", repeat=6), NAMES)]
    alike = colliding(folder)
    close = list(itertools.islice(in_one_tree(), NAMES))
    texts = {
        "traffic.txt": "".join(map(traffic, range(1, SECONDS + 1))),
        "empty.txt": "\n" * SECONDS,
        "units.vap": UNITS,
        "units.txt": "\n" * UNITS_SECONDS,
        "names.vap": constants(usual),
        "colliding.vap": constants(alike),
        "kinds.vap": kinds(usual),
        "colliding_kinds.vap": kinds(alike),
        "one_tree.vap": constants(close),
        "one_tree_kinds.vap": kinds(close),
    }
    for name, text in texts.items():
        with open(os.path.join(folder, name), "w") as file:
            file.write(text)


main()
