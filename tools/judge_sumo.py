#!/usr/bin/env python3
"""judge_sumo.py NET SITES LOGS

A second judge of the logs of drive_sumo.py, apart from `junction audit` and from the scripts that made the sites: it reads the
network for itself, and shares no code with them. Of each second of each light it asks

  tables   no two groups with an intergreen are green, or green and amber, at once; each green comes no sooner behind the end of
           the other one's than the table says, and lasts at least its minimum; each amber lasts as long as the table says
  network  no two links whose ways cross on the junction, and which no phase of the network's programs shows green together, are
           green, or green and amber, at once

Prints a line for each breach (of a pair of links the first one alone), then how many seconds of how many lights were judged,
and how many pairs of ways cross. Status 1 where there was one. NET may be a .net.xml or .net.xml.gz."""
import csv
import functools
import gzip
import sys
import xml.etree.ElementTree as tree
from pathlib import Path


def turn(a, b, c):
    return (b[0] - a[0]) * (c[1] - a[1]) - (b[1] - a[1]) * (c[0] - a[0])


def is_crossed(one, other):
    """Whether two lines of points cross each other, ends that touch left out."""
    return any(turn(a, b, c) * turn(a, b, d) < -1e-6 and turn(c, d, a) * turn(c, d, b) < -1e-6
               for a, b in zip(one, one[1:]) for c, d in zip(other, other[1:]))


def ways_in(root):
    """Of each light of the network its ways: the index of the letter, the lanes from and to, and the line over the junction."""
    shapes = {lane.get("id"): [tuple(map(float, point.split(",")[:2])) for point in lane.get("shape").split()]
              for lane in root.iter("lane")}
    behind = {f"{way.get('from')}_{way.get('fromLane')}": way.get("via") for way in root.iter("connection")
              if way.get("from").startswith(":")}
    ways = {}
    for way in root.iter("connection"):
        if not way.get("tl"):
            continue
        from_lane, to_lane = f"{way.get('from')}_{way.get('fromLane')}", f"{way.get('to')}_{way.get('toLane')}"
        line, via = list(shapes[to_lane]) if to_lane.startswith(":") else [], way.get("via")
        while via:
            line += shapes[via]
            via = behind.get(via)
        ways.setdefault(way.get("tl"), []).append((int(way.get("linkIndex")), from_lane, to_lane, line))
    return ways


def together_in(root):
    """Of each light the pairs of letters that some phase of one of its programs shows green at once. The phases of a NEMA
    program are halves of a picture, so that a pair is green at once unless a phase of each ring has it in another group of the
    barrier."""
    pairs = {}
    for logic in root.iter("tlLogic"):
        states = [phase.get("state") for phase in logic.iter("phase")]
        if logic.get("type") == "NEMA":
            params = {param.get("key"): param.get("value", "").split(",") for param in logic.iter("param")}
            by_name = {phase.get("name"): phase.get("state") for phase in logic.iter("phase")}
            half = [[ring[:len(ring) // 2], ring[len(ring) // 2:]] for ring in (params["ring1"], params["ring2"])]
            states = ["".join("G" if "G" in pair.upper() else "r" for pair in map("".join, zip(by_name[a], by_name[b])))
                      for side in (0, 1) for a in half[0][side] for b in half[1][side] if a in by_name and b in by_name]
        found = pairs.setdefault(logic.get("id"), set())
        for state in states:
            green = [k for k, letter in enumerate(state) if letter in "Gg"]
            found.update((a, b) for a in green for b in green if a < b)
    return pairs


def crossing_pairs(ways, together):
    """The pairs of letters that must never be green at once."""
    found = set()
    for place, (index, lane, _, line) in enumerate(ways):
        for other, other_lane, _, other_line in ways[place + 1:]:
            pair = min(index, other), max(index, other)
            is_known = index == other or lane == other_lane or pair in together or pair in found
            if not is_known and is_crossed(line, other_line):
                found.add(pair)
    return found


def rows_in(file):
    with open(file, encoding="utf-8", newline="") as lines:
        return list(csv.DictReader(lines))


def pictures_in(log):
    """The groups of a log, its seconds, and the pictures that differ from the one before, each with its second."""
    lines, changes = log.read_text(encoding="ascii").splitlines(), []
    for line in lines[1:]:
        second, _, picture = line.split("|", 3)[:3]
        if not changes or changes[-1][1] != picture:
            changes.append((int(second), picture))
    return lines[0].split()[2:], len(lines) - 1, changes


def breaches_of_tables(names, changes, site):
    """Breaches of times.csv and intergreens.csv."""
    times = {row["group"]: (int(row["min_green"]), int(row["amber"])) for row in rows_in(site / "times.csv")}
    place, ended, begun, shown = {name: k for k, name in enumerate(names)}, {}, {}, ["R"] * len(names)
    pairs = [(place[row["from"]], place[row["to"]], int(row["seconds"])) for row in rows_in(site / "intergreens.csv")]
    for second, picture in changes:
        for k, (before, now) in enumerate(zip(shown, picture)):
            least, amber = times[names[k]]
            if before == "G" and now != "G":
                ended[k] = second
                if second - begun[k] < least:
                    yield f"second {second}: {names[k]} was green for {second - begun[k]} s, and {least} are its least"
            if before == "A" and now != "A" and second - ended[k] != amber:
                yield f"second {second}: {names[k]} was amber for {second - ended[k]} s, and has {amber}"
            if now == "G" and before != "G":
                begun[k] = second
        for a, b, seconds in pairs:
            if picture[b] == "G" and picture[a] in "GA":
                yield f"second {second}: {names[a]} is {picture[a]} and {names[b]} G"
            elif begun.get(b) == second and a in ended and second - ended[a] < seconds:
                yield f"second {second}: {names[b]} turns green {second - ended[a]} s after {names[a]}, not {seconds}"
        shown = list(picture)


def breaches_of_network(names, changes, site, pairs):
    """Breaches of the ways' crossing; of each pair of links the first one."""
    links, first = {}, {}
    for row in rows_in(site / "links.csv"):
        links.setdefault(int(row["index"]), set()).add(names.index(row["group"]))
    for second, picture in changes:
        first.setdefault(picture, second)
    for a, b in sorted(pairs):
        for picture, second in first.items():
            one, other = ({picture[k] for k in links.get(index, ())} for index in (a, b))
            if "G" in one and other & set("GA") or "G" in other and one & set("GA"):
                yield f"second {second}: the ways of links {a} and {b} cross, and both drive"
                break


@functools.lru_cache(2)
def network_in(net):
    """The ways of each light of a network, and the pairs of letters that its programs show green at once."""
    with (gzip.open(net) if str(net).endswith(".gz") else open(net, "rb")) as file:
        root = tree.parse(file).getroot()
    return ways_in(root), together_in(root)


def judge(net, sites, logs):
    """The breaches in the logs of these lights, given with their folders, as lines; and how many lights, seconds and pairs of
    ways that cross were judged."""
    ways, together = network_in(net)
    breaches, lights, seconds, crossed = [], 0, 0, 0
    for light, site in sites:
        log = logs / f"{site.name}.log"
        if not log.exists():
            breaches.append(f"{light}: there is no log {log}")
            continue
        names, made, changes = pictures_in(log)
        pairs = crossing_pairs(ways[light], together[light])
        found = (*breaches_of_tables(names, changes, site), *breaches_of_network(names, changes, site, pairs))
        breaches += [f"{light}: {breach}" for breach in found]
        lights, seconds, crossed = lights + 1, seconds + made, crossed + len(pairs)
    return breaches, (lights, seconds, crossed)


def main():
    if len(sys.argv) != 4 or sys.argv[1].startswith("-"):
        print(__doc__)
        return 0 if sys.argv[1:] in (["-h"], ["--help"]) else 2
    sites = Path(sys.argv[2])
    made = [(row["light"], sites / row["folder"]) for row in rows_in(sites / "sites.csv") if row["folder"]]
    breaches, (lights, seconds, crossed) = judge(sys.argv[1], made, Path(sys.argv[3]))
    print(*breaches, f"{lights} lights, {seconds} seconds, {crossed} pairs of ways that cross: {len(breaches)} breaches",
          sep="\n")
    return 1 if breaches else 0


if __name__ == "__main__":
    sys.exit(main())
