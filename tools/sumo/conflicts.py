"""Who is in conflict with whom, who is permitted beside whom, and the intergreens of a site."""
from dataclasses import replace

from sumo import clearing
from common.reading import Refused
from sumo.stages import GREEN, whole


def note_permitted(site, a, b, both):
    """Notes that two foes may be green together, or refuses that neither yields. Two that are `g` wherever both are green yield
    to each other: who comes first goes first."""
    links, phases = site.light.links, site.light.phases
    link, other = links[a], links[b]
    shown = [(phases[k].state[link.index], phases[k].state[other.index]) for k in both]
    for k, letters in zip(both, shown):
        if letters == ("G", "G"):
            raise Refused(0, f"phase {k} shows 'G' to links {link.index} and {other.index}, which are foes: neither yields, so "
                             "give a 'g' to the one that does")
    if b not in link.yields_to and a not in other.yields_to:
        if any(letters != ("g", "g") for letters in shown):
            raise Refused(0, f"links {link.index} and {other.index} are foes and green together, and neither yields: give both "
                             "a 'g', or part them")
        link.yields_to.add(b)
        other.yields_to.add(a)
    yields = {x.index for x, y in ((link, b), (other, a)) if y in x.yields_to}
    pair = tuple(sorted((site.of_link[a], site.of_link[b])))
    of_phases, of_links = site.permitted.setdefault(pair, (set(), set()))
    of_phases.update(both)
    of_links.update(yields)


def phases_with(site, a, b):
    """The phases of the own program that show both links green."""
    one, other = site.light.links[a].index, site.light.links[b].index
    return [k for k, phase in enumerate(site.light.phases) if phase.state[one] in GREEN and phase.state[other] in GREEN]


def conflicts_of(site):
    """The pairs of links in conflict, each with the lines on which they meet: foes that no phase of the own program shows green
    together, and links that meet behind a way which isn't under the light. The others are permitted."""
    links, conflicts = site.light.links, []
    for a, link in enumerate(links):
        for b in sorted(foe for foe in link.foes if foe > a):
            both = phases_with(site, a, b)
            if both:
                note_permitted(site, a, b, both)
            else:
                conflicts.append((a, b, link, links[b]))
    for a, b, line in site.light.detours:
        if not phases_with(site, a, b) and site.of_link[a] != site.of_link[b]:
            conflicts.append((a, b, replace(links[a], way=line), links[b]))
            site.notes.append(f"links {links[a].index} and {links[b].index} meet behind a way that isn't under the light")
    site.notes = list(dict.fromkeys(site.notes))
    return conflicts


def own_intergreen(site, group):
    """From the end of a group's green to the begin of the next stage, the longest in the network's own program."""
    phases, column, longest = site.light.phases, site.columns[group], 0.0
    count, stages = len(phases), {k for stage in site.stages for run in stage.phases for k in run}
    for k in range(count):
        if column[k] in GREEN and column[(k + 1) % count] not in GREEN:
            seconds, at = 0.0, (k + 1) % count
            while at not in stages:
                seconds += phases[at].duration
                at = (at + 1) % count
            longest = max(longest, seconds)
    return longest


def own_clearing(site, group, others):
    """From the end of a group's green to the first green of one of others, the shortest in the network's own program: people on
    foot clear while cars beside them are still green."""
    phases, column, shortest = site.light.phases, site.columns[group], None
    count = len(phases)
    for k in range(count):
        if column[k] in GREEN and column[(k + 1) % count] not in GREEN:
            seconds, at = 0.0, (k + 1) % count
            while at != k and not any(site.columns[other][at] in GREEN for other in others):
                seconds += phases[at].duration
                at = (at + 1) % count
            shortest = seconds if shortest is None else min(seconds, shortest)
    return shortest or 0.0


def own_of(site, conflicts):
    """Of each group the network's own seconds to its next stage, and of those of people those to the first foe's green."""
    others = {}
    for a, b, _, _ in conflicts:
        for x, y in ((a, b), (b, a)):
            others.setdefault(site.of_link[x], set()).add(site.of_link[y])
    return {group: (own_intergreen(site, group), own_clearing(site, group, against)) for group, against in others.items()}


def set_intergreens(site, conflicts, given):
    """Of each pair of groups in conflict, both ways, the whole seconds: the longest of their links, at least the amber. Behind
    a detour they are computed in any case: amber and all-red of the network's program don't reach so far."""
    values = clearing.values_of(given)
    own = own_of(site, conflicts) if given.intergreens == "own" else {}
    for a, b, one, other in conflicts:
        for x, y, clears, enters in ((a, b, one, other), (b, a, other, one)):
            pair = site.of_link[x], site.of_link[y]
            is_detour = clears is not site.light.links[x] or enters is not site.light.links[y]
            needs_way = not own or is_detour or clears.kind == "foot"
            seconds = clearing.seconds_between(clears, enters, values) if needs_way else 0.0
            if own:
                to_stage, to_foe = own[pair[0]]
                seconds = max(to_stage, seconds if is_detour else min(to_foe, seconds))
            seconds = max(whole(seconds, f"the intergreen from K{pair[0] + 1} to K{pair[1] + 1}", 99), site.amber[pair[0]], 1)
            site.intergreens[pair] = max(seconds, site.intergreens.get(pair, 0))


def drop_permitted(site):
    """Takes out of the table the pairs that are green together in a stage, or permitted by other links of theirs."""
    for a, b in [pair for pair in site.intergreens if pair[0] < pair[1]]:
        if (a, b) in site.permitted or any(a in stage.greens and b in stage.greens for stage in site.stages):
            del site.intergreens[a, b], site.intergreens[b, a]
            site.notes.append(f"K{a + 1} and K{b + 1} have links that are never green together, but others that are: permitted")


def set_yielding(site):
    """Notes which groups yield to which. A group that yields to another isn't green before it: from no clearing group has it
    the shorter intergreen."""
    links = site.light.links
    pairs = {(site.of_link[a], site.of_link[b]) for a, link in enumerate(links) for b in link.yields_to & link.foes}
    site.yielding = sorted((a, b) for a, b in pairs if (min(a, b), max(a, b)) in site.permitted and a != b)
    for _ in site.groups:
        for first, then in site.yielding:
            for (from_group, entering), seconds in list(site.intergreens.items()):
                if entering == then and (from_group, first) in site.intergreens:
                    site.intergreens[from_group, first] = max(seconds, site.intergreens[from_group, first])


def apart_of(site):
    """The pairs of groups that are in no conflict, though no stage has both green."""
    count = range(len(site.groups))
    return [(a, b) for a in count for b in count if a < b and (a, b) not in site.intergreens and (a, b) not in site.permitted
            and not any(a in stage.greens and b in stage.greens for stage in site.stages)]
