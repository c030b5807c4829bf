#!/usr/bin/env python3
"""hot.py CALLGRIND_FILE PROGRAM LEAST: the machine instructions of the program that ran at least so often, each with its count, its
place and its function. The file comes from `valgrind --tool=callgrind --dump-instr=yes`."""
import re
import subprocess
import sys

COST = re.compile(r"^(0x[0-9a-f]+|[+-](?:0x[0-9a-f]+|\d+)|\*) (\S+) (\d+)$")


def counts_of(file):
    """How often the instruction at each place ran, without those of the functions that it called."""
    counts, place, is_call = {}, 0, False
    for line in file:
        if line.startswith("calls="):
            is_call = True
            continue
        cost = COST.match(line)
        if not cost:
            continue
        word = cost[1]
        if word != "*":
            place = int(word, 16) if word.startswith("0x") else place + int(word, 0)
        if not is_call:
            counts[place] = counts.get(place, 0) + int(cost[3])
        is_call = False
    return counts


def rows_of(program):
    """The place, the function and the text of each instruction."""
    text = subprocess.run(["objdump", "-d", "--no-show-raw-insn", program], stdout=subprocess.PIPE, text=True, check=True).stdout
    function = ""
    for line in text.splitlines():
        head = re.match(r"^[0-9a-f]+ <(.*)>:$", line)
        if head:
            function = head[1]
        body = re.match(r"^\s*([0-9a-f]+):\s*(.*)$", line)
        if body:
            yield int(body[1], 16), function, body[2]


def main():
    with open(sys.argv[1], encoding="utf-8") as file:
        counts = counts_of(file)
    rows, least = list(rows_of(sys.argv[2])), int(sys.argv[3])
    # a program may be loaded anywhere: the shift by which most of its instructions ran
    shift = max((0, 0x100000, 0x108000, 0x400000), key=lambda far: sum(place + far in counts for place, _, _ in rows))
    for place, function, text in rows:
        if counts.get(place + shift, 0) >= least:
            print(f"{counts[place + shift]:10d} {place:x} {function[:40]:40} {text}")


if __name__ == "__main__":
    main()
