"""The plan of a site: its stages, and an interstage from each to those that may follow it."""
from sumo.service import MOST_INTERSTAGES, bases_of, walks_of


def reach_of(site):
    """To how many of the stages that follow it a stage has an interstage: to all, where the plan has room for them."""
    count, walks = len(bases_of(site)), sum(1 for walk in walks_of(site) if walk is not None)
    if not walks:
        return min(count - 1, MOST_INTERSTAGES // count)
    reach = count - 1
    while reach > 1 and len(pairs_of(site, reach)) > MOST_INTERSTAGES:
        reach -= 1
    return reach


def pairs_of(site, reach):
    """The interstages, as pairs of stages: from each stage to the ones that follow, without people and with them, and from
    one with people to the same without."""
    count, walks, pairs = len(bases_of(site)), walks_of(site), []
    for a in range(count):
        for b in [(a + k) % count for k in range(1, reach + 1)]:
            pairs += [(a, b)] + ([(a, walks[b])] if walks[b] is not None else [])
        if walks[a] is not None:
            pairs += [(a, walks[a]), (walks[a], a)]
    return sorted(pairs)


def starts_of(site, ends, starts):
    """Of each starting group the second in which its red ends: as soon as its intergreens allow, and so that it isn't green
    before a group to which it yields and which starts with it."""
    green = {group: max([site.intergreens.get((other, group), 0) for other in ends] + [site.red_amber[group]])
             for group in starts}
    for _ in starts:
        for first, then in site.yielding:
            if first in green and then in green:
                green[first] = max(green[first], green[then])
    return {group: second - site.red_amber[group] for group, second in green.items()}


def interstage_of(site, a, b):
    """The length and the rows of the interstage from stage a to stage b; the ending groups end in second 0."""
    before, after = site.stages[a].greens, site.stages[b].greens
    ends = [group for group in before if group not in after]
    begins = starts_of(site, ends, [group for group in after if group not in before])
    rows = [(group, -127, 0) for group in ends] + [(group, begin, 127) for group, begin in begins.items()]
    lengths = [site.amber[group] + 1 for group in ends] + [begin + site.red_amber[group] for group, begin in begins.items()]
    return max(lengths + [1]), sorted(rows)


def holds_of(site):
    """Of each group for how many seconds it must have been red before its stage gives way, so that no group of the next stage
    has to wait for it: of those that end before their stage does, else 0."""
    reach, holds = reach_of(site), [0] * len(site.groups)
    for place, walk in enumerate(walks_of(site)):
        if walk is None:
            continue
        ended = [group for group in site.stages[walk].greens if group not in site.stages[place].greens]
        for _, b in [pair for pair in pairs_of(site, reach) if pair[0] == place and pair[1] != walk]:
            for group, red_end, green_end in interstage_of(site, place, b)[1]:
                if green_end == 127:
                    for one in ended:
                        late = site.intergreens.get((one, group), 0) - red_end - site.red_amber[group]
                        holds[one] = max(holds[one], late)
    return holds


def plan_of(site, title):
    """The lines of junction.pua."""
    lines = [f"$ {title}", "$SIGNAL_GROUPS"] + [f"K{group + 1} {group + 1}" for group in range(len(site.groups))] + ["$STAGES"]
    lines += [" ".join([f"S{s}"] + [f"K{group + 1}" for group in stage.greens]) for s, stage in enumerate(site.stages, 1)]
    lines += ["$STARTING_STAGE", "S1"]
    for number, (a, b) in enumerate(pairs_of(site, reach_of(site)), 1):
        length, rows = interstage_of(site, a, b)
        lines += [f"$INTERSTAGE{number}", f"Length [s]: {length}", f"From Stage: S{a + 1}", f"To Stage: S{b + 1}"]
        lines += [f"K{group + 1} {red_end} {green_end}" for group, red_end, green_end in rows]
    return lines + ["$END"]
