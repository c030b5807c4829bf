#!/usr/bin/env python3
"""Counts what the sources should not have, so that it can only become less: tools/style.py [--all]

Each kind is counted over all crates: bodies over 40 lines, public items without a doc comment, ghost imports that nothing uses,
public definitions without a line of meaning, clauses and definitions over 160 columns, and source files without a head comment.
It answers 1 where a kind has more than its limit in LIMITS; --all names each place.
"""
import re
import sys
from collections import defaultdict
from pathlib import Path

TOP = Path(__file__).resolve().parent.parent
FUNCTION = re.compile(r"(\s*)(?:pub(?:\([a-z]+\))? )?(?:const )?fn \w+")
PUBLIC = re.compile(r"\s*pub (?:const )?(?:fn|struct|enum|trait|const|type) ")
DEFINITION = re.compile(r"(?:abbrev |unfoldable |record |data )?pub (?!mod|use)")

# how many of each kind there are today; make a number smaller whenever it has become less
LIMITS = {
    "bodies over 40 lines": 13,
    "clauses or definitions over 160 columns": 79,
    "definitions without a line of meaning": 0,
    "ghost imports that nothing uses": 217,
    "public items without a doc comment": 0,
    "source files without a head comment": 0,
}


def long_bodies(lines):
    """The lines of the functions whose bodies have more than 40 lines."""
    for at, line in enumerate(lines):
        found = FUNCTION.match(line)
        if not found or line.rstrip().endswith("{}"):
            continue
        end = next((k for k in range(at, len(lines)) if lines[k].startswith(found[1] + "}")), at)
        begin = next((k for k in range(at, end + 1) if lines[k].strip() == "{" or lines[k].rstrip().endswith(" {")), at)
        if end - begin > 40:
            yield at + 1


def bare_items(lines):
    """The lines of public items without a doc comment."""
    for at, line in enumerate(lines):
        if PUBLIC.match(line):
            above = at - 1
            while above >= 0 and lines[above].strip().startswith("#["):
                above -= 1
            if above < 0 or not lines[above].strip().startswith("///"):
                yield at + 1


def unused_imports(text):
    """The lines of ghost imports with a name that stands nowhere else in the file."""
    for found in re.finditer(r"ghost use [\w.]+\.\{([^}]*)\}", text):
        for name in re.split(r",\s*", found[1]):
            word = name.split(" as ")[-1].strip()
            if re.fullmatch(r"\w+", word) and len(re.findall(rf"(?<!\w){re.escape(word)}(?!\w)", text)) < 2:
                yield text.count("\n", 0, found.start()) + 1


def meaningless(lines):
    """The lines of public definitions that no comment stands above."""
    for at, line in enumerate(lines):
        if DEFINITION.match(line) and not (at and lines[at - 1].startswith("--")):
            yield at + 1


def places_in(top):
    """Each kind with its places, as FILE:LINE."""
    places = defaultdict(list)
    for file in sorted([*top.glob("crates/*/src/**/*.rt"), *top.glob("crates/*/specs/*.antt")]):
        text = file.read_text(encoding="utf-8")
        lines, is_spec = text.split("\n"), file.suffix == ".antt"
        kinds = {"clauses or definitions over 160 columns": [
            at for at, line in enumerate(lines, 1) if len(line) > 160 and (is_spec or "ensures" in line or "requires" in line)]}
        if is_spec:
            kinds["definitions without a line of meaning"] = meaningless(lines)
        else:
            kinds["bodies over 40 lines"] = long_bodies(lines)
            kinds["public items without a doc comment"] = bare_items(lines)
            kinds["ghost imports that nothing uses"] = unused_imports(text)
            kinds["source files without a head comment"] = [] if any(it.startswith("//") for it in lines[:4]) else [1]
        for kind, at in kinds.items():
            places[kind].extend(f"{file.relative_to(top)}:{line}" for line in at)
    return places


def main(words):
    if words == ["--help"]:
        print(__doc__)
        return 0
    if words not in ([], ["--all"]):
        sys.exit(__doc__)
    places = places_in(TOP)
    for kind, most in LIMITS.items():
        mark = "  more than its limit" if len(places[kind]) > most else ""
        print(f"{len(places[kind]):5} of {most:3} {kind}{mark}")
        for place in places[kind] if words else []:
            print(f"      {place}")
    return int(any(len(places[kind]) > most for kind, most in LIMITS.items()))


if __name__ == "__main__":
    sys.exit(main(sys.argv[1:]))
