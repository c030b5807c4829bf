"""The files of a site."""
import csv
from xml.sax.saxutils import quoteattr

from sumo import plan, program
from sumo.site import notes_of


def write_lines(file, lines):
    file.write_text("\n".join(lines) + "\n", encoding="ascii", errors="replace")


def write_rows(file, rows):
    with open(file, "w", encoding="utf-8", newline="") as out:
        csv.writer(out, lineterminator="\n").writerows(rows)


def write_tables(site, folder):
    """times.csv, intergreens.csv and links.csv."""
    names = [f"K{group + 1}" for group in range(len(site.groups))]
    write_rows(folder / "times.csv", [["group", "min_green", "red_amber", "amber"]] + [
        list(row) for row in zip(names, site.least, site.red_amber, site.amber)])
    write_rows(folder / "intergreens.csv", [["from", "to", "seconds"]] + [
        [names[a], names[b], seconds] for (a, b), seconds in sorted(site.intergreens.items())])
    write_rows(folder / "links.csv", [["place", "index", "group", "kind", "from", "to", "yields_to"]] + [
        [place, link.index, names[site.of_link[place]], link.kind, link.lane, link.to_lane,
         " ".join(map(str, sorted(link.yields_to & (link.foes | {place}))))] for place, link in enumerate(site.light.links)])


def area_of(name, stretch):
    """SUMO's text of a lane area over a stretch of lanes."""
    lanes, begin, end = stretch
    where = f"lane={quoteattr(lanes[0])}" if len(lanes) == 1 else f"lanes={quoteattr(' '.join(lanes))}"
    place = f'{where} pos="{begin:.2f}" endPos="{end:.2f}"'
    return f'<laneAreaDetector id={quoteattr(name)} {place} freq="100000" file="/dev/null"/>'


def write_detectors(site, folder):
    """detectors.csv, and the lane areas for SUMO."""
    light, rows, areas = site.light, [["detector", "kind", "id", "at"]], ["<additional>"]
    for k, (lane, stretch) in enumerate(zip(site.lanes, site.stretches), 1):
        rows.append([k, "area", f"{light.name}#{k}", lane])
        areas.append(area_of(f"{light.name}#{k}", stretch))
    for k, crossing in enumerate(site.pushes, len(site.lanes) + 1):
        rows.append([k, "push", crossing, " ".join(light.waits[crossing])])
    write_rows(folder / "detectors.csv", rows)
    (folder / "detectors.add.xml").write_text("\n".join(areas + ["</additional>"]) + "\n", encoding="utf-8")


def write_own_program(site, kind, folder):
    """SUMO's program of a type on the network's phases, with the site's minimum and maximum greens. Phases that follow each
    other with the same greens are one."""
    lines = [f'<additional><tlLogic id={quoteattr(site.light.name)} type="{kind}" programID="{kind}" offset="0">']
    stage_of = {run[0]: stage for stage in site.own_stages for run in stage.phases}
    later = {k for stage in site.own_stages for run in stage.phases for k in run[1:]}
    for k, phase in enumerate(site.light.phases):
        times = f'duration="{phase.duration:g}"'
        if k in stage_of:
            least = max(site.least[group] for group in stage_of[k].greens)
            times = f'duration="{least}" minDur="{least}" maxDur="{max(least, stage_of[k].most)}"'
        if k not in later:
            lines.append(f'<phase {times} state="{phase.state}"/>')
    (folder / f"{kind}.add.xml").write_text("\n".join(lines + ["</tlLogic></additional>"]) + "\n", encoding="utf-8")


def write_site(site, folder, given, coordinates=False):
    """Writes the files of the site; coordinated.vap where the network coordinates its lights."""
    folder.mkdir(parents=True, exist_ok=True)
    name = site.light.name.encode("ascii", "replace").decode()
    write_lines(folder / "junction.pua", plan.plan_of(site, f"traffic light {name}, made by tools/site_from_sumo.py"))
    write_lines(folder / "on_demand.vap", program.program_of(site, given))
    coordinated = program.coordinated_of(site, given) if coordinates else None
    if coordinated:
        write_lines(folder / "coordinated.vap", coordinated)
    write_lines(folder / "notes.txt", notes_of(site, given))
    write_tables(site, folder)
    write_detectors(site, folder)
    for kind in ("actuated", "delay_based"):
        write_own_program(site, kind, folder)
