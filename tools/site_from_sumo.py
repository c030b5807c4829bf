#!/usr/bin/env python3
"""site_from_sumo.py [OPTIONS] NET TLS FOLDER

Makes the site of a traffic light of a SUMO network (NET, or the .sumocfg that names it and further programs): in FOLDER

  junction.pua, times.csv, intergreens.csv  groups, stages, interstages and tables, as `junction` reads them
  on_demand.vap      a first program: greens extended up to a gap, stages that nobody asks for left out, maximum greens
  coordinated.vap    where the network has offsets: the same within its cycle
  links.csv          of each link the place of its letter in SUMO's state, its group, and the links that it yields to
  detectors.csv, detectors.add.xml  a lane area before each stop line, and a push button for each crossing
  actuated.add.xml, delay_based.add.xml  SUMO's own programs on the same phases, for a comparison
  notes.txt          what was decided, and by which rule

Groups are links whose letters are the same in all phases. A stage is a run of phases with the same greens and without amber or
red-amber in which a group turns green, or which lasts at least LEAST seconds. Links that are foes in the junction's right of
way are in conflict, unless a phase of the network's own program shows both green and one of them yields: such a pair is
permitted and told. A light of which no site can be made is refused with the reason and what would make it one (status 1).
docs/sumo-sites.md has the rules."""
import argparse
from pathlib import Path

from sumo import clearing
from common.reading import told, whole_from
from sumo.files import write_site
from sumo.lights import lights_of, read_light
from sumo.network import read_network
from sumo.site import make_site, notes_of


def words_of(text):
    """The options that a site is made by."""
    words = argparse.ArgumentParser(description=text, formatter_class=argparse.RawDescriptionHelpFormatter)
    words.add_argument("--intergreens", choices=["computed", "own"], default="computed",
                       help="by the formula, or amber and all-red of the network's own program")
    words.add_argument("--crossings", choices=["pushed", "always"], default="pushed",
                       help="green where somebody waits, in a stage of their own; or with each stage that has them")
    words.add_argument("--least-stage", type=clearing.number_from(0.0), default=6.0, metavar="LEAST", help="seconds, 6")
    words.add_argument("--least-green", type=whole_from(1, 255), default=5, metavar="S", help="minimum green of each group, 5")
    words.add_argument("--most-green", type=whole_from(1, 9999), default=50, metavar="S",
                       help="without a maxDur, 50, or the network's own green where that is longer")
    words.add_argument("--program", metavar="ID", help="which of several programs of the light; else the one that runs")
    words.add_argument("--round-up", action="store_true", help="take phases without whole seconds as the next longer ones")
    words.add_argument("--gap", type=whole_from(0, 99), default=0, metavar="S",
                       help="seconds for which the lane areas are empty before a stage ends, 0")
    words.add_argument("--stuck", type=whole_from(0, 9999), default=8, metavar="S",
                       help="a stage ends without a gap where nobody has left its lanes for S seconds, 8; 0: never")
    words.add_argument("--begin", type=whole_from(0, 604_800), default=0, metavar="S",
                       help="the simulation's first second, from which coordinated.vap counts, 0")
    words.add_argument("--area-seconds", type=clearing.number_from(0.1), default=4.0, metavar="S",
                       help="length of a lane area at the lane's speed, 4")
    clearing.add_options(words)
    return words


def has_offsets(network):
    """Whether the network coordinates its lights: one of them begins later than others."""
    return len({float(logics[-1].get("offset") or 0) for logics in network.logics.values()}) > 1


def main():
    words = words_of(__doc__)
    words.add_argument("net", metavar="NET")
    words.add_argument("light", metavar="TLS", help="its id; `list` names all lights of the network")
    words.add_argument("folder", metavar="FOLDER", type=Path, nargs="?")
    given = words.parse_args()
    with told(given.net):
        network = read_network(given.net)
    if given.light == "list":
        print("\n".join(lights_of(network)))
        return
    if given.folder is None:
        words.error("FOLDER is wanted")
    with told(f"{given.net}: {given.light}"):
        site = make_site(network, read_light(network, given.light, given.program, given.round_up), given)
        write_site(site, given.folder, given, has_offsets(network))
    print("\n".join(notes_of(site, given)))


if __name__ == "__main__":
    main()
