#!/usr/bin/env python3
"""tools/believe.py > docs/believe.md, or tools/believe.py --whole

Writes the map of the definitions to believe: for each theorem of tools/theorems.py the definitions of specs/ with which its
statement begins, and how many lines those have on which it rests, found by the names that it cites, and in turn those that they
cite. It follows names alone, so it may keep a word too many. Types declared in .rt sources and the kit's own words are not
counted. A theorem whose definition isn't there any more stops it. With --whole it also writes the files of each theorem, each
after those that it cites, and what each file holds."""
import re
import sys
import textwrap
from collections import defaultdict
from pathlib import Path

from theorems import THEOREMS

ROOT = Path(__file__).resolve().parent.parent
CRATES = ROOT / "crates"

DEFINITION = re.compile(r"((?:abbrev |unfoldable |pub )*)(record |data )?([^\s(:{]+)(.*)")
IMPORT = re.compile(r"(?:pub )?use Rattle\.(\w+)\.specs\.(\w+)(?:\.(?:\{(.*)\}|(\w+)))?(?: as (\w+))?")
NO_NAMES = {"mutual", "module", "infixr", "infixl", "infix"}


def name_defined(line, in_record):
    """The word that a line begins to define; None where it begins none."""
    found = DEFINITION.match(line.strip())
    if in_record or not found or found[3] in NO_NAMES or not (found[1] or found[2]):
        return None
    return found[3] if found[2] or " : " in line or line.endswith(" :") else None


def blocks_of(lines):
    """The definitions of a file: each word with its lines, comments and imports left out."""
    blocks, stack, current = {}, [], None
    for line in lines:
        text = line.strip()
        if not text or text.startswith("--") or line.startswith(("use ", "pub use ")):
            continue
        indent = len(line) - len(line.lstrip())
        while stack and stack[-1][0] >= indent:
            stack.pop()
        name = name_defined(line, any(is_record for _, is_record in stack))
        if name:
            current = blocks[name] = []
        if re.match(r"(pub )?(record|data) ", text):
            stack.append((indent, True))
        elif text.startswith("module _") or text.endswith("mutual"):
            stack.append((indent, False))
            continue
        if current is not None:
            current.append(line)
    return blocks


class Specs:
    """All definitions, and what each file imports."""

    def __init__(self):
        self.blocks, self.words, self.modules, self.constructors, self.kept = {}, {}, {}, {}, {}
        for path in sorted(CRATES.glob("*/specs/*.antt")):
            if path.name != "Lib.antt":
                self.read(path.parts[-3], path.stem, path.read_text(encoding="utf-8").split("\n"))

    def read(self, crate, module, lines):
        file = (crate, module)
        self.blocks[file] = blocks_of(lines)
        self.words[file], self.modules[file], self.constructors[file] = {}, {}, {}
        for found in filter(None, map(IMPORT.match, lines)):
            self.add_import(file, found)
        for name, block in self.blocks[file].items():
            if re.match(r"\s*(pub )?data ", block[0]):
                for line in block[1:]:
                    variant = re.match(r"\s+(?:pub )?(\w+) :", line)
                    if variant:
                        self.constructors[file][variant[1]] = name

    def add_import(self, file, found):
        crate, module, names, _, alias = found.groups()
        if names is None:
            self.modules[file][alias or module] = (crate, module)
            return
        for name in names.split(","):
            parts = name.strip().split(" as ")
            self.words[file][parts[-1].strip()] = ((crate, module), parts[0].strip())

    def find(self, file, word):
        """The definition that a word of this file means, if it is one of specs/."""
        if word in self.words[file]:
            file, word = self.words[file][word]
        if file not in self.blocks:
            return None
        word = self.constructors[file].get(word, word)
        return (file, word) if word in self.blocks[file] else None

    def cited(self, definition):
        """The definitions that a definition cites."""
        if definition not in self.kept:
            self.kept[definition] = list(self.found_in(definition))
        return self.kept[definition]

    def found_in(self, definition):
        file, name = definition
        text = "\n".join(self.blocks[file][name])
        for token in set(re.findall(r"[^\s(){}\[\],;]+", text)):
            head, _, rest = token.partition(".")
            found = [self.find(file, word) for word in (token, head, "◌" + token + "◌")]
            if head in self.modules[file] and self.modules[file][head] in self.blocks:
                found.append(self.find(self.modules[file][head], rest.split(".")[0]))
            yield from (one for one in found if one and one != definition)

    def closure(self, roots):
        seen, left = set(), list(roots)
        while left:
            definition = left.pop()
            if definition not in seen:
                seen.add(definition)
                left += self.cited(definition)
        return seen

    def lines(self, definitions):
        return sum(len(self.blocks[file][name]) for file, name in definitions)


def crates_in_order():
    text = (ROOT / "crates.txt").read_text(encoding="utf-8")
    return [line.split(":")[0].split()[0] for line in text.split("\n") if line.strip() and not line.startswith("#")]


def reading_order(specs, definitions):
    """The files of these definitions, each after those of its crate that it cites; crates from below upwards."""
    cites, place = defaultdict(set), {crate: at for at, crate in enumerate(crates_in_order())}
    for definition in definitions:
        cites[definition[0]] |= {file for file, _ in specs.cited(definition)}
    order = []

    def visit(file, above):
        if file in order or file in above:
            return
        for low in sorted(cites[file] - {file}):
            if low[0] == file[0]:
                visit(low, above | {file})
        order.append(file)

    for file in sorted(cites, key=lambda file: (place[file[0]], file[1])):
        visit(file, set())
    return order


def link(file):
    crate, module = file
    return f"[{module}](../crates/{crate}/specs/{module}.antt)"


def filled(row):
    """An item of a list of a page, in lines that are not too long."""
    return textwrap.fill(row, 128, subsequent_indent="  ", break_long_words=False, break_on_hyphens=False)


def by_crate(files):
    """The files as a list of a page, a row for each crate."""
    for crate in dict.fromkeys(crate for crate, _ in files):
        yield filled(f"- `{crate}`: " + ", ".join(link(file) for file in files if file[0] == crate))


def roots_of(specs, roots):
    for crate, module, names in roots:
        for name in names:
            if name not in specs.blocks.get((crate, module), {}):
                sys.exit(f"tools/believe.py: {crate}/specs/{module} has no {name}")
            yield ((crate, module), name)


def needed_files(specs):
    """How many definitions of each file the theorems rest on."""
    needed = defaultdict(int)
    for file, _ in set().union(*(specs.closure(roots_of(specs, roots)) for _, _, roots in THEOREMS)):
        needed[file] += 1
    return needed


def table(specs, closures):
    """The page: a row for each theorem, and the sums of all."""
    everything = {(file, name) for file, block in specs.blocks.items() for name in block}
    whole = set().union(*closures)
    yield HEAD
    for (said, call, roots), needed in zip(THEOREMS, closures):
        words = "; ".join(f"{link((crate, module))} " + ", ".join(f"`{name}`" for name in names) for crate, module, names in roots)
        yield filled(f"- {said} ({call}): {words}: {specs.lines(needed)} lines")
    yield END.format(len(whole), specs.lines(whole), len(everything), specs.lines(everything))


def files_of_each(specs, closures):
    """The files of each theorem, each after those that it cites."""
    yield "\n## In reading order"
    for (said, _, _), needed in zip(THEOREMS, closures):
        yield f"\n### {said[0].upper()}{said[1:]}\n"
        yield from by_crate(reading_order(specs, needed))


def file_by_file(specs):
    """Each file of each crate with how many of its definitions the theorems rest on."""
    yield FILES
    needed = needed_files(specs)
    everything = {(file, name) for file, block in specs.blocks.items() for name in block}
    order = reading_order(specs, everything)
    for crate in dict.fromkeys(crate for crate, _ in order):
        files = [file for file in order if file[0] == crate]
        counts = ", ".join(f"{link(file)} {needed[file]}/{len(specs.blocks[file])}" for file in files if needed[file])
        rest = ", ".join(link(file) for file in files if not needed[file] and specs.blocks[file])
        if counts or rest:
            yield f"| `{crate}` | {counts or '–'} | {rest or '–'} |"


def main(words):
    if words == ["--help"]:
        print(__doc__)
        return
    if words not in ([], ["--whole"]):
        sys.exit(__doc__)
    specs = Specs()
    closures = [specs.closure(roots_of(specs, roots)) for _, _, roots in THEOREMS]
    print(*table(specs, closures), sep="\n")
    if words:
        print(*files_of_each(specs, closures), *file_by_file(specs), sep="\n")


HEAD = """# The definitions to believe

A theorem says no more than its definitions do. For each theorem, with the call or law that says it in brackets, this page, made
by `tools/believe.py`, tells with which definitions of `specs/` its statement begins, and how many lines those have on which it
rests; `tools/believe.py --whole` tells their files as well, each after those that it cites. Proofs are checked, and need no
reading. Found by following names, a word too many may be among them; types of the sources and words of the kit's library are
not counted.
"""

END = """
Together these are {} definitions of {} lines; all definitions of the repository are {}, of {} lines. What isn't
above are working words of inner functions and proofs, of which nothing has to be believed."""

FILES = """
## File by file

Each file with how many of its definitions the theorems rest on, of how many; and the files of working words alone.

| crate | to be believed | working words alone |
|---|---|---|"""

if __name__ == "__main__":
    main(sys.argv[1:])
