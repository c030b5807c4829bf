#!/usr/bin/env python3
"""Makes the lists of docs/crates.md: of each crate the beginning of its first sentence, and the test crates that stand on it.

usage: tools/crates.py [--check]

The crates, their order and their headings are those of crates.txt, the sentences those with which their root files begin. Without a
word the page is written anew between its two marks; --check writes nothing, and answers 1 where the page is another.
"""
import re
import sys
import textwrap
from pathlib import Path

TOP = Path(__file__).resolve().parent.parent
PAGE = TOP / "docs" / "crates.md"
BEGIN = "<!-- the lists from here on are made by tools/crates.py -->"
END = "<!-- the lists end here -->"


def layers_of(text):
    """The headings of a crates.txt, each with its crates, and each crate with those that it stands on."""
    layers, said = [], []
    for line in text.splitlines():
        if line.startswith("#"):
            said.append(line[1:].strip())
        elif not line.strip():
            said = []
        else:
            if said:
                layers.append((re.split(r"[:.]", " ".join(said))[0], []))
                said = []
            name, below = line.split(":", 1)
            layers[-1][1].append((name.split()[0], below.split()))
    return layers


def root_of(name, top=TOP):
    """The root file of a crate."""
    folder = top / "crates" / name / "src"
    return folder / "main.rt" if (folder / "main.rt").exists() else folder / "lib.rt"


def sentence_of(text):
    """The first sentence of what a root file says of its crate."""
    lines = []
    for line in text.splitlines():
        if not line.startswith("//!") or line.strip() == "//!":
            break
        lines.append(line[3:].strip())
    return re.split(r"(?<=[.:]) (?=[A-Z`])", " ".join(lines))[0].rstrip(".:")


def short_of(sentence):
    """A sentence of many words up to where it begins to list."""
    front = re.split(r"[:;] | \(", sentence)[0]
    return front if len(sentence.split()) > 20 and len(front.split()) > 3 else sentence


def tests_of(name, layers):
    """The test crates that stand on a crate."""
    return [crate for _, crates in layers for crate, below in crates if crate.startswith("test_") and name in below]


def row_of(name, layers, top=TOP):
    """The row of a crate."""
    tests = ", ".join("`%s`" % test for test in tests_of(name, layers))
    sentence = short_of(sentence_of(root_of(name, top).read_text(encoding="utf-8")))
    row = "- [`%s`](../crates/%s): %s%s" % (name, name, sentence, f" ({tests})" if tests else "")
    return textwrap.fill(row, 128, subsequent_indent="  ", break_long_words=False, break_on_hyphens=False)


def lists_of(text, top=TOP):
    """All lists, a heading each."""
    layers = layers_of(text)
    # the first comment of the file is about all of it, and heads nothing
    said = []
    for heading, crates in layers:
        said.append("## %s\n" % heading)
        said.extend(row_of(name, layers, top) for name, _ in crates)
        said.append("")
    return "\n".join(said)


def page_of(page, lists):
    """The page with these lists in the place of its own."""
    before, rest = page.split(BEGIN)
    return before + BEGIN + "\n\n" + lists + "\n" + END + rest.split(END)[1]


def main(words):
    if words == ["--help"]:
        print(__doc__)
        return 0
    if words not in ([], ["--check"]):
        sys.exit(__doc__.split("\n\n")[1])
    page = PAGE.read_text(encoding="utf-8")
    made = page_of(page, lists_of((TOP / "crates.txt").read_text(encoding="utf-8")))
    if not words:
        PAGE.write_text(made, encoding="utf-8")
    return int(page != made)


if __name__ == "__main__":
    sys.exit(main(sys.argv[1:]))
