"""The networks of the table of coverage and time loss: Debian's own, and some that netgenerate makes."""
import os
import subprocess
from dataclasses import dataclass
from pathlib import Path

SHARE = Path(os.environ.get("SUMO_HOME", "/usr/share/sumo"))
SCENARIOS = "tools/sumolib/scenario/scenarios"
GRID = "--grid --grid.number=3 --grid.length=200 --grid.attach-length=200 -j traffic_light --no-turnarounds true"
RANDOM = "--rand -j traffic_light --no-turnarounds true"


@dataclass
class Net:
    """A network: where it is in SUMO's folder, or netgenerate's words; its demand, as routes, their share that departs and
    further files, or as seconds from vehicle to vehicle and from person to person; and whether it is driven for the table of
    time loss."""
    name: str
    file: str = ""
    words: str = ""
    routes: str = ""
    additional: tuple = ()
    period: float = 0.0
    walkers: float = 0.0
    share: float = 1.0
    is_driven: bool = False

    @property
    def is_real(self):
        return bool(self.file)

    def make(self, folder):
        """The network's file, made in the folder where it isn't SUMO's; None where SUMO doesn't have it."""
        if self.file:
            return SHARE / self.file if (SHARE / self.file).exists() else None
        file = folder / f"{self.name}.net.xml"
        if not file.exists():
            subprocess.run(["netgenerate", *self.words.split(), "-o", str(file)], check=True, capture_output=True)
        return file


def real(name, routes=True, **more):
    """A town of the scenarios RealWorld with its own traffic."""
    place = f"{SCENARIOS}/RealWorld/{name}/{name}"
    return Net(name, f"{place}_buslanes.net.xml", routes=f"{place}.rou.xml" if routes else "",
               additional=(f"{place}_vtypes.add.xml", f"{place}_bus_stops.add.xml") if routes else (), **more)


def example(number):
    """An example of the German guideline, one light each, with its own traffic."""
    place = f"{SCENARIOS}/RealWorld/RiLSA_example{number}"
    return Net(f"rilsa{number}", f"{place}/rilsa{number}.net.xml", routes=f"{place}/genroutes.rou.xml",
               additional=(f"{place}/vtypes.add.xml",), is_driven=True)


TOWNS = [
    real("pasubio", share=0.6, is_driven=True), real("acosta", share=0.6, is_driven=True), real("joined"),
    Net("drt", "tools/game/DRT/osm.net.xml", period=1.2),
    Net("kuehne", "tools/game/kuehne/kuehne.net.xml", routes="tools/game/kuehne/kuehne.rou.xml", is_driven=True),
    Net("bs3d", "tools/game/bs3d/bs.net.xml", routes="tools/game/bs3d/bs3d.rou.xml", is_driven=True),
    Net("a10kw", "tools/game/A10KW/osm.net.xml", routes="tools/game/A10KW/osm.passenger.rou.xml", is_driven=True),
]
EXAMPLES = [
    example(1), example(2), example(3), example(4),
    Net("corridor", f"{SCENARIOS}/BasicRiLSACorridor3/network.net.xml", period=1.6, walkers=5, is_driven=True),
    Net("net2x2", f"{SCENARIOS}/BasicRiLSANet2x2/network.net.xml"), Net("grid6", "tools/game/grid6/grid6.net.xml"),
    Net("cross", "tools/game/cross/cross.net.xml", routes="tools/game/cross/cross.rou.xml", is_driven=True),
    Net("square", "tools/game/square/square.net.xml"),
]
MADE = [
    Net("grid", words=f"{GRID} --default.lanenumber=2", period=1.6, is_driven=True),
    Net("foot", words=f"{GRID} --default.lanenumber=2 --sidewalks.guess --crossings.guess", period=1.6, walkers=5,
        is_driven=True),
    Net("bike", words=f"{GRID} --bikelanes.guess true --sidewalks.guess --crossings.guess"),
    Net("wide", words="--grid --grid.number=3 --grid.length=300 --default.lanenumber=4 -j traffic_light "
        "--grid.attach-length=300 --turn-lanes 1"),
    Net("allred", words=f"{GRID} --default.lanenumber=2 --tls.allred.time 3"),
    Net("fast", words=f"{GRID} --default.lanenumber=2 --default.speed 22.2"),
    Net("incoming", words=f"{GRID} --default.lanenumber=2 --tls.layout incoming"),
    Net("nema", words=f"{GRID} --default.lanenumber=2 --tls.default-type NEMA"),
    Net("spider", words="--spider -j traffic_light --spider.arm-number=6 --spider.circle-number=3 --no-turnarounds true",
        period=1.2, is_driven=True),
    Net("rand", words=f"{RANDOM} --rand.iterations=200 --seed 5"),
    Net("randact", words=f"{RANDOM} --rand.iterations=30 --seed 7 --default.lanenumber=2 --tls.default-type actuated",
        period=2.0, is_driven=True),
    Net("randleft", words=f"{RANDOM} --rand.iterations=150 --seed 9 --default.lanenumber=2 --lefthand"),
]
