"""Tests of how a site is made of a network; tools/tests/test_sumo.py runs them."""
import os
import subprocess
import sys
import tempfile
import unittest
import xml.etree.ElementTree as tree
from pathlib import Path
from types import SimpleNamespace

import check_sites
from sumo import clearing
from common import reading
import site_from_sumo
from sumo import conflicts, files, lights, plan, program, programs, service, site as sites, stages, stretches
from sumo.network import Network

__all__ = ["Geometry", "Sites", "Programs", "Stretches", "Findings"]

HERE = Path(__file__).resolve().parent.parent
JUNCTION, CHECK = os.environ.get("JUNCTION"), os.environ.get("JUNCTION_CHECK")
VALUES = clearing.Values()

# A crossing of two one-way roads, west to east (link 0) and south to north (link 1), each with 20 m over the junction.
NET = """<net>
<edge id=":C_0" function="internal"><lane id=":C_0_0" index="0" speed="13.89" length="20" shape="-10,0 10,0"/></edge>
<edge id=":C_1" function="internal"><lane id=":C_1_0" index="0" speed="13.89" length="20" shape="0,-10 0,10"/></edge>
<edge id="w"><lane id="w_0" index="0" speed="13.89" length="190" shape="-200,0 -10,0" {allow}/></edge>
<edge id="e"><lane id="e_0" index="0" speed="13.89" length="190" shape="10,0 200,0"/></edge>
<edge id="s"><lane id="s_0" index="0" speed="13.89" length="190" shape="0,-200 0,-10"/></edge>
<edge id="n"><lane id="n_0" index="0" speed="13.89" length="190" shape="0,10 0,200"/></edge>
{logics}
<junction id="C" type="traffic_light" incLanes="w_0 s_0" intLanes=":C_0_0 :C_1_0">
<request index="0" response="{r0}" foes="10" cont="0"/><request index="1" response="{r1}" foes="01" cont="0"/></junction>
<connection from="w" to="e" fromLane="0" toLane="0" via=":C_0_0" tl="C" linkIndex="0" dir="s" state="o"/>
<connection from="s" to="n" fromLane="0" toLane="0" via=":C_1_0" {second} dir="s" state="o"/>
<connection from=":C_0" to="e" fromLane="0" toLane="0" dir="s" state="M"/>
<connection from=":C_1" to="n" fromLane="0" toLane="0" dir="s" state="M"/>
</net>"""
TWO = [(30, "Gr"), (3, "yr"), (2, "rr"), (30, "rG"), (3, "ry")]


def given_by(*words):
    return site_from_sumo.words_of("").parse_args(list(words))


def logic_of(phases, name="0", kind="static", offset=0, more=""):
    rows = "".join(f'<phase duration="{duration}" state="{state}" {more}/>' for duration, state in phases)
    return f'<tlLogic id="C" type="{kind}" programID="{name}" offset="{offset}">{rows}</tlLogic>'


def net_of(phases=TWO, second='tl="C" linkIndex="1"', r0="10", r1="00", more="", allow="", logics=""):
    return NET.format(logics=logics or logic_of(phases, more=more), second=second, r0=r0, r1=r1, allow=allow)


def site_of(*options, **named):
    given, network = given_by(*options), Network(tree.fromstring(net_of(**named)))
    return sites.make_site(network, lights.read_light(network, "C", given.program, given.round_up), given)


def links_of(**named):
    return lights.read_light(Network(tree.fromstring(net_of(**named))), "C").links


class Geometry(unittest.TestCase):
    def test_conflict_is_where_the_lines_cross(self):
        self.assertEqual(clearing.conflict_of([(-10, 0), (10, 0)], [(0, -10), (0, 10)]), (10.0, 10.0))
        self.assertEqual(clearing.conflict_of([(-10, 0), (0, 0), (10, 0)], [(5, -10), (5, 10)]), (15.0, 10.0))

    def test_lines_that_merge_conflict_where_they_are_nearest(self):
        clear, enter = clearing.conflict_of([(0, 0), (10, 0)], [(0, 5), (10, 1)])
        self.assertEqual((clear, round(enter, 1)), (10.0, 10.8))

    def test_by_hand(self):
        links = links_of()
        self.assertAlmostEqual(clearing.seconds_between(links[0], links[1], VALUES), 3 + (10 + 6) / 10 - 10 / 13.89)
        links[0].is_turning = True
        self.assertAlmostEqual(clearing.seconds_between(links[0], links[1], VALUES), 2 + (10 + 6) / 7 - 10 / 13.89)
        links[0].kind = "bicycle"
        self.assertAlmostEqual(clearing.seconds_between(links[0], links[1], VALUES), 1 + 10 / 4 - 10 / 13.89)
        self.assertAlmostEqual(clearing.seconds_between(links[1], links[0], VALUES), 3 + (10 + 6) / 10 - 10 / 5)
        links[0].kind = "tram"
        self.assertAlmostEqual(clearing.seconds_between(links[0], links[1], VALUES), 5 + (10 + 15) / 7 - 10 / 13.89)
        links[0].kind = "foot"  # clears all of its 20 m; cars come in 10 m later, and people without a way of their own
        self.assertAlmostEqual(clearing.seconds_between(links[0], links[1], VALUES), 20 / 1.2 - 10 / 13.89)
        self.assertAlmostEqual(clearing.seconds_between(links[1], links[0], VALUES), 3 + 1.6)

    def test_each_value_is_an_option(self):
        self.assertEqual(site_of("--overrun-straight", "5").intergreens, {(0, 1): 6, (1, 0): 6})
        self.assertEqual(clearing.values_of(given_by()), VALUES)


class Sites(unittest.TestCase):
    def test_two_stages(self):
        site = site_of()
        self.assertEqual((site.groups, [(stage.phases, stage.greens) for stage in site.stages]),
                         ([[0], [1]], [([[0]], [0]), ([[3]], [1])]))
        self.assertEqual((site.amber, site.red_amber, site.least, [stage.most for stage in site.stages]),
                         ([3, 3], [0, 0], [5, 5], [50, 50]))
        self.assertEqual(site.intergreens, {(0, 1): 4, (1, 0): 4})  # 3.88 rounded up
        self.assertEqual(plan.interstage_of(site, 0, 1), (4, [(0, -127, 0), (1, 4, 127)]))

    def test_own_intergreens_are_amber_and_all_red(self):
        self.assertEqual(site_of("--intergreens", "own").intergreens, {(0, 1): 5, (1, 0): 3})

    def test_red_amber_runs_inside_the_intergreen(self):
        site = site_of(phases=[(30, "Gr"), (3, "yr"), (1, "ru"), (30, "rG"), (3, "ry"), (1, "ur")])
        self.assertEqual(site.red_amber, [1, 1])
        self.assertEqual(plan.interstage_of(site, 0, 1), (4, [(0, -127, 0), (1, 3, 127)]))

    def test_a_yielding_pair_is_permitted_and_told(self):
        site = site_of(phases=[(30, "gG"), (3, "yG"), (30, "rG"), (3, "ry")])
        self.assertEqual((site.intergreens, site.permitted, site.yielding), ({}, {(0, 1): ({0}, {0})}, [(0, 1)]))
        self.assertIn("permitted: K1 and K2, green together in phases 0; links 0 yield", sites.notes_of(site, given_by()))

    def test_two_that_are_both_g_yield_to_each_other(self):
        site = site_of(phases=[(30, "gg"), (3, "yg"), (30, "rg"), (3, "ry")], r0="00")
        self.assertEqual(site.permitted, {(0, 1): ({0}, {0, 1})})
        self.assertEqual([link.yields_to for link in site.light.links], [{1}, {0}])

    def test_a_yielding_group_is_not_green_first(self):
        links = [SimpleNamespace(yields_to=set(), foes={1}), SimpleNamespace(yields_to={0}, foes={0}),
                 SimpleNamespace(yields_to=set(), foes=set())]
        site = SimpleNamespace(light=SimpleNamespace(links=links), of_link={0: 0, 1: 1, 2: 2}, groups=[[0], [1], [2]],
                               permitted={(0, 1): ()}, red_amber=[0, 1, 0],
                               intergreens={(2, 0): 6, (2, 1): 5, (0, 2): 4, (1, 2): 7})
        conflicts.set_yielding(site)
        self.assertEqual(site.intergreens, {(2, 0): 6, (2, 1): 6, (0, 2): 4, (1, 2): 7})
        site.intergreens = {(2, 0): 6, (0, 2): 4}  # the group that yields isn't in conflict with the one that ends
        self.assertEqual(plan.starts_of(site, [2], [0, 1]), {0: 6, 1: 5})

    def test_times_of_the_network(self):
        site = site_of(more='minDur="8" maxDur="20"')
        self.assertEqual((site.least, [stage.most for stage in site.stages]), ([8, 8], [20, 20]))
        longer = site_of(phases=[(90, "Gr"), (3, "yr"), (1000, "rG"), (3, "ry")])
        self.assertEqual([stage.most for stage in longer.stages], [90, 50])  # a green without an end is none

    def test_phases_with_the_same_greens_are_one_stage(self):
        site = site_of(phases=[(20, "gG"), (10, "gg"), (3, "yy"), (9, "rG"), (2, "rG"), (3, "ry")])
        self.assertEqual([stage.phases for stage in site.stages], [[[0, 1]], [[3, 4]]])
        site = site_of(phases=[(9, "Gg"), (3, "yy"), (9, "gG"), (3, "yy"), (9, "rG"), (3, "ry")])
        self.assertEqual([stage.phases for stage in site.stages], [[[0], [2]], [[4]]])

    def test_a_light_of_one_stage_has_all_red_for_the_second(self):
        site = site_of(phases=[(30, "gG"), (3, "yy"), (2, "rr")])
        self.assertEqual([stage.greens for stage in site.stages], [[0, 1], []])
        self.assertIn("S1 0, S2 all red, for which nobody asks", sites.notes_of(site, given_by())[1])

    def test_trams_have_values_of_their_own(self):
        self.assertEqual(links_of(allow='allow="tram rail_urban"')[0].kind, "tram")
        self.refused("a crossing with a railway isn't cleared by intergreens", allow='allow="rail"')

    def test_a_way_outside_the_light_that_yields_is_told(self):
        one = {"phases": [(30, "G"), (3, "y"), (9, "r")], "second": ""}
        site = site_of(**one, r0="00", r1="01")
        self.assertIn("the way s_0 to n_0, which isn't under the light, yields to link 0", site.notes)
        site = site_of(**one)  # link 0 yields to it, so it is never `G`
        self.assertEqual(site.light.links[0].yields_to, {0})
        self.assertTrue(any("is shown `g` alone" in note for note in site.notes))
        self.refused("neither yields: put it under the light", **one, r0="00")
        self.refused("under the light D: two controllers don't part", **{**one, "second": 'tl="D" linkIndex="0"'})

    def refused(self, cause, *options, **named):
        with self.assertRaises(reading.Refused) as caught:
            site_of(*options, **named)
        self.assertIn(cause, str(caught.exception))

    def test_refusals(self):
        self.refused("neither yields", phases=[(30, "GG"), (3, "yG"), (30, "rG"), (3, "ry")])
        self.refused("neither yields", phases=[(30, "gG"), (3, "yG"), (30, "rG"), (3, "ry")], r0="00")
        self.refused("it has no stage", phases=[(30, "yr"), (3, "Gy"), (2, "yG")])
        self.refused("link 1 is never green", phases=[(30, "Gr"), (3, "yr"), (9, "Gr")])
        self.refused("link 1 shows 's' (a green arrow)", phases=[(30, "Gs"), (3, "yr"), (30, "rG"), (3, "ry")])
        self.refused("link 0 shows 'o' (blinking)", phases=[(30, "or"), (3, "yr"), (30, "rG"), (3, "ry")])
        self.refused("may be followed by phases", more='next="0 3"')
        self.refused("the amber of K1 takes 12 seconds, more than 9", phases=[(30, "Gr"), (12, "yr"), (30, "rG"), (3, "ry")])
        self.refused("phase 1 has the duration 3.5, and a controller's seconds are whole",
                     phases=[(30, "Gr"), (3.5, "yr"), (30, "rG"), (3, "ry")])
        self.refused("the intergreen from K1 to K2 takes 104 seconds, more than 99", "--overrun-straight", "102.3")

    def light(self, count):
        """A light of as many links and phases, each link green in one of them."""
        links = [SimpleNamespace(index=k, kind="car", lane=f"l_{k}") for k in range(count)]
        phases = [programs.Phase("".join("G" if k == j else "r" for j in range(count)), 9.0, None, None) for k in range(count)]
        return SimpleNamespace(links=links, phases=phases, waits={})

    def test_limits(self):
        for count, make, cause in ((65, stages.groups_of, "it has 65 groups, more than 64"),
                                   (65, stages.detectors_of, "it has 65 lanes and 0 crossings, more than 64 detectors"),
                                   (33, lambda light: stages.stages_of(stages.groups_of(light)[0], light, 6.0),
                                    "it has 33 stages, more than 32")):
            with self.assertRaisesRegex(reading.Refused, cause):
                make(self.light(count))
            make(self.light(count - 1))

    def test_broken_seconds_are_rounded_up_where_it_is_wanted(self):
        self.assertEqual(site_of("--round-up", phases=[(30, "Gr"), (3.5, "yr"), (30, "rG"), (3, "ry")]).amber, [4, 3])

    def test_a_lane_is_served_by_the_stage_in_which_most_of_its_links_are_green(self):
        links = [SimpleNamespace(index=k, kind="car", lane=lane) for k, lane in enumerate(("a", "a", "b", "b"))]
        phases = [programs.Phase(state, 9.0, None, None) for state in ("GGGr", "GrGG", "rrrG")]
        site = SimpleNamespace(light=SimpleNamespace(links=links, phases=phases), lanes=["a", "b"],
                               stages=[stages.Stage([[k]], []) for k in range(3)])
        self.assertEqual(service.served_of(site), {0: {0}, 1: {1}})

    def test_the_script(self):
        with tempfile.TemporaryDirectory() as name:
            net, folder = Path(name) / "c.net.xml", Path(name) / "site"
            net.write_text(net_of())
            words = [sys.executable, "-B", str(HERE / "site_from_sumo.py"), str(net)]
            done = subprocess.run(words + ["C", str(folder)], capture_output=True, text=True)
            self.assertEqual((done.returncode, done.stdout), (0, (folder / "notes.txt").read_text()))
            self.assertEqual(sorted(file.name for file in folder.iterdir()), sorted([
                "junction.pua", "times.csv", "intergreens.csv", "on_demand.vap", "links.csv", "detectors.csv",
                "detectors.add.xml", "actuated.add.xml", "delay_based.add.xml", "notes.txt"]))
            self.assertEqual((folder / "links.csv").read_text(), "place,index,group,kind,from,to,yields_to\n"
                             "0,0,K1,car,w_0,e_0,1\n1,1,K2,car,s_0,n_0,\n")
            done = subprocess.run(words + ["D", str(folder)], capture_output=True, text=True)
            self.assertEqual((done.returncode, done.stderr), (1, f"{net}: D: the network has no such traffic light\n"))
            done = subprocess.run(words + ["list"], capture_output=True, text=True)
            self.assertEqual(done.stdout, "C\n")

    @unittest.skipUnless(JUNCTION, "JUNCTION doesn't name a built program")
    def test_a_made_site_is_clean_and_safe(self):
        with tempfile.TemporaryDirectory() as name:
            folder = Path(name)
            site = site_of(phases=[(30, "Gr"), (3, "yr"), (1, "ru"), (30, "rG"), (3, "ry"), (1, "ur")])
            files.write_site(site, folder, given_by())
            (folder / "counts").write_text("1:1:0\n" + "\n" * 20 + "2:1:0\n" + "\n" * 100)
            names = [str(folder / name) for name in check_sites.FILES]
            log = check_sites.run(JUNCTION, "run", *names, folder / "counts").stdout
            (folder / "log").write_text(log)
            audit = check_sites.run(JUNCTION, "audit", folder / "log", *names[1:]).stdout
            self.assertEqual(audit, "SAFE 122\nINTER 1-2 clean\nINTER 2-1 clean\n")
            self.assertIn("|RG|", log)
            if CHECK:
                self.assertEqual(check_sites.run(CHECK, *names).returncode, 0)


class Programs(unittest.TestCase):
    def test_the_last_of_several_programs_runs(self):
        both = logic_of(TWO, "day") + logic_of([(20, "Gr"), (4, "yr"), (20, "rG"), (4, "ry")], "night")
        site = site_of(logics=both)
        self.assertEqual((site.light.program.name, site.amber), ("night", [4, 4]))
        self.assertIn("the programs day, night the last one, night, was taken", " ".join(site.notes))
        self.assertEqual(site_of("--program", "day", logics=both).amber, [3, 3])
        with self.assertRaisesRegex(reading.Refused, "none of the id noon"):
            site_of("--program", "noon", logics=both)

    def test_programs_of_a_stage_each_are_the_stages(self):
        site = site_of(logics=logic_of([(3, "ry"), (900, "Gr")], "0") + logic_of([(3, "yr"), (900, "rG")], "1"))
        self.assertEqual([stage.greens for stage in site.stages], [[0], [1]])

    def test_the_phases_of_rings_are_paired(self):
        rows = "".join(f'<phase duration="90" state="{state}" minDur="5" maxDur="50" yellow="3" red="2" name="{name}"/>'
                       for name, state in (("2", "Gr"), ("4", "rG")))
        params = "".join(f'<param key="{key}" value="{value}"/>' for key, value in (
            ("ring1", "0,2,0,4"), ("ring2", "0,0,0,0"), ("barrier2Phases", "2,0"), ("barrierPhases", "4,0")))
        logic = f'<tlLogic id="C" type="NEMA" programID="0" offset="0">{rows}{params}</tlLogic>'
        with self.assertRaisesRegex(reading.Refused, "don't have two barriers each"):
            site_of(logics=logic)
        params = params.replace('"0,0,0,0"', '"0,6,0,8"').replace('"2,0"', '"2,6"').replace('"4,0"', '"4,8"')
        site = site_of(logics=f'<tlLogic id="C" type="NEMA" programID="0" offset="0">{rows}{params}</tlLogic>')
        self.assertEqual(([stage.greens for stage in site.stages], site.amber), ([[0], [1]], [3, 3]))
        self.assertEqual(programs.together("GrrG", "rGrg"), "GGrG")

    def test_another_type_is_refused(self):
        with self.assertRaisesRegex(reading.Refused, "of type rail_signal, not"):
            site_of(logics=logic_of(TWO, kind="rail_signal"))

    def test_a_coordinated_program_counts_by_cycle_and_offset(self):
        site = site_of(logics=logic_of(TWO, offset=10))
        text = "\n".join(program.coordinated_of(site, given_by()))
        self.assertIn("cycle = 68, shift = 59, main_stage = 1;", text)  # second 1 ends 9 seconds before the program begins anew
        self.assertIn("off[2] = [30, 65],\n  need[2] = [9, 9],", text)
        self.assertIsNone(program.coordinated_of(site_of(logics=logic_of(TWO, kind="actuated")), given_by()))


class Stretches(unittest.TestCase):
    def network(self, length, has_before=True):
        before = '<edge id="v"><lane id="v_0" index="0" speed="13.89" length="80" shape="-90,0 -10,0"/></edge>'
        inner = '<edge id=":B_0"><lane id=":B_0_0" index="0" speed="13.89" length="3" shape="-10,0 -7,0"/></edge>'
        ways = '<connection from="v" to="w" fromLane="0" toLane="0" via=":B_0_0" dir="s"/>'
        lane = f'<edge id="w"><lane id="w_0" index="0" speed="10" length="{length}" shape="-7,0 0,0"/></edge>'
        return Network(tree.fromstring(f"<net>{lane}{before + inner + ways if has_before else ''}</net>"))

    def test_a_short_lane_goes_on_over_those_before(self):
        lanes, begin, end = stretches.stretch_of(self.network(100), "w_0", 40.0)
        self.assertEqual((lanes, round(begin, 1), end), (["w_0"], 59.9, 99.9))
        lanes, begin, end = stretches.stretch_of(self.network(0.2), "w_0", 40.0)
        self.assertEqual((lanes, round(begin, 1), round(end, 1)), (["v_0", ":B_0_0", "w_0"], 43.1, 0.1))
        self.assertEqual(stretches.stretch_of(self.network(9, False), "w_0", 40.0), (["w_0"], 0.1, 8.9))

    def test_less_than_a_metre_is_refused(self):
        with self.assertRaisesRegex(reading.Refused, "lane w_0 is 0.5 m long, which leaves no metre"):
            stretches.stretch_of(self.network(0.5, False), "w_0", 40.0)


class Findings(unittest.TestCase):
    def test_what_the_notes_tell_is_no_finding(self):
        apart = "p.pua:4: no-intergreen: no stage has K1 and K4 green together, and the table has no pair of them"
        told = [{"word": "no-intergreen", "sentence": apart.split(": ", 2)[2], "file": "p.pua", "line": 4,
                 "severity": "warning"}]
        more = [{**told[0], "sentence": told[0]["sentence"].replace("K4", "K5")}]
        notes = "no conflict: K1 and K4, though no stage has both green\npermitted: K5 and K6, green together in phases 1"
        self.assertEqual(check_sites.untold_of(told + more, notes), [apart.replace("K4", "K5")])
        self.assertEqual(check_sites.untold_of([], ""), [])
