#!/usr/bin/env python3
"""sites_from_sumo.py [OPTIONS] NET FOLDER

Makes the sites of all traffic lights of a SUMO network (NET, or the .sumocfg that names it), with the options of
site_from_sumo.py: FOLDER/1, FOLDER/2, .. and FOLDER/sites.csv with, of each light, its id, its folder, the numbers of groups,
stages, detectors, conflicts and permitted pairs, or why no site can be made. Prints these reasons. --each-program makes one
more of each further program of a light, FOLDER/N.ID, for times of the day; `TLS=FOLDER/N.ID` drives it. Status 1 where no
light has a site."""
import re
import sys
from pathlib import Path

from common.reading import Refused, told
from site_from_sumo import has_offsets, words_of
from sumo.files import write_rows, write_site
from sumo.lights import lights_of, read_light
from sumo.network import read_network
from sumo.site import make_site

COLUMNS = ["light", "folder", "groups", "stages", "detectors", "conflicts", "permitted", "refused"]


def row_of(network, name, number, given, coordinates):
    """Makes the site of a light; its row, without a folder where it is refused."""
    try:
        site = make_site(network, read_light(network, name, given.program, given.round_up), given)
    except Refused as refused:
        return [name] + [""] * 6 + [str(refused).strip()]
    write_site(site, given.folder / str(number), given, coordinates)
    detectors = len(site.lanes) + len(site.pushes)
    return [name, number, len(site.groups), len(site.stages), detectors, len(site.intergreens) // 2, len(site.permitted), ""]


def programs_told(network, name, number, given, coordinates):
    """Makes a site of each program of a light that has several; a line for each."""
    lines, programs = [], [logic.get("programID") for logic in network.logics[name]]
    for program in dict.fromkeys(programs) if len(programs) > 1 else []:
        folder = given.folder / f"{number}.{re.sub('[^A-Za-z0-9_-]', '_', program)}"
        try:
            site = make_site(network, read_light(network, name, program, given.round_up), given)
        except Refused as refused:
            lines.append(f"{name}, program {program}: {str(refused).strip()}")
            continue
        write_site(site, folder, given, coordinates)
        lines.append(f"{name}, program {program}: {folder}")
    return lines


def main():
    words = words_of(__doc__)
    words.add_argument("--each-program", action="store_true", help="a site of each further program of a light, too")
    words.add_argument("net", metavar="NET")
    words.add_argument("folder", metavar="FOLDER", type=Path)
    given = words.parse_args()
    with told(given.net):
        network = read_network(given.net)
    coordinates, lines = has_offsets(network), []
    with told(given.folder):
        given.folder.mkdir(parents=True, exist_ok=True)
        lights = list(enumerate(lights_of(network), 1))
        rows = [row_of(network, name, number, given, coordinates) for number, name in lights]
        write_rows(given.folder / "sites.csv", [COLUMNS] + rows)
        if given.each_program:
            lines = [line for number, name in lights for line in programs_told(network, name, number, given, coordinates)]
    made = sum(1 for row in rows if not row[-1])
    print(f"{given.net}: {len(rows)} lights, {made} sites", *(f"{row[0]}: {row[-1]}" for row in rows if row[-1]), *lines,
          sep="\n  ")
    return 0 if made else 1


if __name__ == "__main__":
    sys.exit(main())
