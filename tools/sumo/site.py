"""A site: what is made of a light."""
import dataclasses
from dataclasses import dataclass, field

from sumo import clearing
from common.reading import Refused
from sumo.conflicts import apart_of, conflicts_of, drop_permitted, set_intergreens, set_yielding
from sumo.service import part_walking, set_served
from sumo.stages import detectors_of, groups_of, set_times, stages_of
from sumo.stretches import stretches_of


@dataclass
class Site:
    """What is made of a light. Groups, stages and lanes are counted from 0 here and from 1 in the files."""
    light: object
    columns: list  # of each group its letters in the phases
    groups: list  # of each group the places of its links
    of_link: dict  # of each place of a link its group
    stages: list
    lanes: list  # of each lane detector its lane
    pushes: list  # of each push button its crossing; their detectors stand behind those of the lanes
    amber: list = field(default_factory=list)
    red_amber: list = field(default_factory=list)
    least: list = field(default_factory=list)  # minimum greens
    intergreens: dict = field(default_factory=dict)  # of each pair, clearing and entering, the seconds
    permitted: dict = field(default_factory=dict)  # of each permitted pair: phases, and links that yield
    yielding: list = field(default_factory=list)  # pairs of groups: the first yields to the second
    own_stages: list = field(default_factory=list)  # the stages as the network has them
    stretches: list = field(default_factory=list)  # of each lane the lanes, begin and end of its lane area
    notes: list = field(default_factory=list)


def make_site(network, light, given):
    """The site of a light of a network, or a refusal."""
    columns, groups = groups_of(light)
    of_link = {place: group for group, places in enumerate(groups) for place in places}
    stages = stages_of(columns, light, given.least_stage)
    for group, places in enumerate(groups):
        if not any(group in stage.greens for stage in stages):
            raise Refused(0, f"link {light.links[places[0]].index} is green in no stage: only in phases between stages, which "
                             "--least-stage 0 makes stages")
    site = Site(light, columns, groups, of_link, stages, *detectors_of(light), notes=list(light.notes))
    conflicts = conflicts_of(site)
    set_times(site, given)
    set_intergreens(site, conflicts, given)
    drop_permitted(site)
    set_yielding(site)
    set_served(site)
    site.stretches = stretches_of(network, site.lanes, given.area_seconds)
    site.own_stages = list(site.stages)
    if given.crossings == "pushed" and site.pushes:
        part_walking(site)
    return site


def phases_told(site):
    """The stages with their phases, as text."""
    parts = []
    for number, stage in enumerate(site.stages, 1):
        if not stage.greens:
            parts.append(f"S{number} all red, for which nobody asks")
        elif stage.base is None:
            parts.append(f"S{number} " + "+".join("-".join(str(k) for k in ([run[0], run[-1]] if len(run) > 1 else run))
                                                  for run in stage.phases))
        else:
            parts.append(f"S{number} as S{stage.base + 1} with people on foot")
    return ", ".join(parts)


def notes_of(site, given):
    """The lines of notes.txt."""
    light, values = site.light, clearing.values_of(given)
    told_values = ", ".join(f"{one.name} {getattr(values, one.name):g}" for one in dataclasses.fields(values))
    method = f"computed with {told_values}" if given.intergreens == "computed" else "amber and all-red of the network's program"
    lines = [f"light {light.name} at junction {light.junction}, program {light.program.name} of type {light.program.kind}, "
             f"{len(light.phases)} phases",
             f"{len(site.groups)} groups, {len(site.stages)} stages ({phases_told(site)}), {len(site.lanes)} lanes and "
             f"{len(site.pushes)} crossings with detectors",
             f"{len(site.intergreens)} intergreens, {method}"]
    for (a, b), (phases, yields) in sorted(site.permitted.items()):
        lines.append(f"permitted: K{a + 1} and K{b + 1}, green together in phases {', '.join(map(str, sorted(phases)))}; "
                     f"links {', '.join(map(str, sorted(yields)))} yield")
    lines += [f"no conflict: K{a + 1} and K{b + 1}, though no stage has both green: their ways aren't foes in the network"
              for a, b in apart_of(site)]
    return lines + site.notes
