"""Tests of the programs that are made for a site, run by a built `junction`; tools/tests/test_sumo.py runs them."""
import tempfile
import unittest
from pathlib import Path
from types import SimpleNamespace

import check_sites
from sumo import files, plan, program, service, stages
from test_sumo_sites import JUNCTION, given_by, site_of

__all__ = ["OnDemand", "Walking", "ManyStages"]


class OnDemand(unittest.TestCase):
    @unittest.skipUnless(JUNCTION, "JUNCTION doesn't name a built program")
    def test_a_stage_that_nobody_leaves_ends(self):
        """Vehicles stay on the lanes of both stages, and each third second one leaves those of the first, or nobody."""
        for leaves, stuck, end in (("", 8, 8), ("1:1:1", 8, 49), ("", 0, 49), ("", 20, 20)):
            with tempfile.TemporaryDirectory() as name, self.subTest(leaves=leaves, stuck=stuck):
                folder, given = Path(name), given_by("--stuck", str(stuck))
                files.write_site(site_of("--stuck", str(stuck)), folder, given)
                (folder / "counts").write_text("1:3:0 2:4:0\n" + f"\n\n{leaves}\n" * 20)
                done = check_sites.run(JUNCTION, "run", *(folder / file for file in check_sites.FILES), folder / "counts")
                places = [line.split("|")[1].split("+")[0] for line in done.stdout.splitlines()[1:]]
                self.assertEqual(places.index("I1-2"), end)


class Walking(unittest.TestCase):
    """People have a stage of their own beside the cars of theirs."""

    def site(self):
        """Two stages of a car group and a crossing each; the crossing of the one is cleared before the other's cars."""
        links = [SimpleNamespace(kind=kind, to_lane=f":C_{name}_0") for kind, name in (
            ("car", "0"), ("car", "1"), ("foot", "c0"), ("foot", "c1"))]
        first, second = stages.Stage([[0]], [0, 2], 50, [0]), stages.Stage([[1]], [1, 3], 40, [1])
        pairs = {(0, 1): 5, (1, 0): 5, (2, 1): 9, (1, 2): 4, (3, 0): 9, (0, 3): 4}
        return SimpleNamespace(light=SimpleNamespace(links=links), groups=[[0], [1], [2], [3]],
                               of_link={k: k for k in range(4)},
                               stages=[first, second], lanes=["a", "b"], pushes=[":C_c0", ":C_c1"], intergreens=pairs,
                               amber=[3, 3, 0, 0], red_amber=[0] * 4, least=[5, 5, 6, 6], yielding=[], notes=[])

    def test_stages_are_parted(self):
        site = self.site()
        service.part_walking(site)
        self.assertEqual([(stage.greens, stage.base, stage.walked) for stage in site.stages],
                         [([0], None, []), ([1], None, []), ([0, 2], 0, [0]), ([1, 3], 1, [1])])
        self.assertEqual(plan.pairs_of(site, 1), [(0, 1), (0, 2), (0, 3), (1, 0), (1, 2), (1, 3), (2, 0), (3, 1)])
        self.assertEqual(plan.holds_of(site), [0, 0, 4, 4])  # the cars start 5 s behind the others' end, people need 9

    def test_a_stage_of_the_same_cars_alone_is_the_base(self):
        site = self.site()
        site.stages.insert(1, stages.Stage([[2]], [0], 60, [0]))
        service.part_walking(site)
        self.assertEqual([(stage.greens, stage.base, stage.most) for stage in site.stages],
                         [([0], None, 60), ([1], None, 40), ([0, 2], 0, 60), ([1, 3], 1, 40)])

    @unittest.skipUnless(JUNCTION, "JUNCTION doesn't name a built program")
    def test_people_walk_where_somebody_pushed(self):
        site = self.site()
        service.part_walking(site)
        with tempfile.TemporaryDirectory() as name:
            folder = Path(name)
            files.write_lines(folder / "junction.pua", plan.plan_of(site, "two crossings"))
            files.write_lines(folder / "on_demand.vap", program.program_of(site, given_by()))
            site.light.links = []
            files.write_tables(site, folder)
            (folder / "counts").write_text("\n" * 20 + "3:1:1\n" + "\n" * 30 + "2:1:0 4:1:1\n" + "\n" * 40 + "1:1:0 2:0:1\n"
                                           + "\n" * 30)
            words = [folder / name for name in check_sites.FILES]
            log = check_sites.run(JUNCTION, "run", *words, folder / "counts").stdout
            (folder / "log").write_text(log)
            places = [line.split("|")[1].split("+")[0] for line in log.splitlines()[1:]]
            self.assertEqual(list(dict.fromkeys(places)), ["S1", "I1-3", "S3", "I3-1", "I1-4", "S4", "I4-2", "S2", "I2-1"])
            self.assertNotIn("Intergreen", "".join(log.splitlines(True)[20:]))
            self.assertTrue(check_sites.run(JUNCTION, "audit", folder / "log", *words[1:]).stdout.startswith("SAFE 123\n"))


class ManyStages(unittest.TestCase):
    """Of more than 16 stages not each has an interstage to each."""

    def site(self, count):
        each = list(range(count))
        return SimpleNamespace(groups=[[k] for k in each], stages=[stages.Stage([[k]], [k], 50, [k]) for k in each],
                               amber=[3] * count, red_amber=[1] * count, least=[5] * count, yielding=[],
                               intergreens={(a, b): 5 for a in each for b in each if a != b}, lanes=each, pushes=[])

    def test_reach(self):
        self.assertEqual([plan.reach_of(self.site(count)) for count in (2, 16, 17, 20, 32)], [1, 15, 15, 12, 8])
        for count in range(2, 33):
            self.assertLessEqual(count * plan.reach_of(self.site(count)), 256)

    def test_the_way_to_a_far_stage(self):
        lines = program.program_of(self.site(20), given_by("--stuck", "0"))
        self.assertIn("CONST stages = 20, gap = 0, briefest = 5, reach = 12;", lines)
        self.assertNotIn("steps", "\n".join(program.program_of(self.site(16), given_by())))

    @unittest.skipUnless(JUNCTION, "JUNCTION doesn't name a built program")
    def test_the_program_reaches_each_stage(self):
        with tempfile.TemporaryDirectory() as name:
            folder, site = Path(name), self.site(20)
            files.write_lines(folder / "junction.pua", plan.plan_of(site, "twenty"))
            files.write_lines(folder / "on_demand.vap", program.program_of(site, given_by()))
            site.light = SimpleNamespace(links=[])
            files.write_tables(site, folder)
            (folder / "counts").write_text("\n" * 30 + "16:1:0\n" + "\n" * 100)
            done = check_sites.run(JUNCTION, "run", *(folder / name for name in check_sites.FILES), folder / "counts")
            places = [line.split("|")[1] for line in done.stdout.splitlines()[1:]]
            ways = list(dict.fromkeys(place.split("+")[0] for place in places))
            self.assertEqual(ways, ["S1", "I1-13", "S13", "I13-16", "S16"])
