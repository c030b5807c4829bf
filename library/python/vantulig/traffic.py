"""What brings vehicles to a junction under a learner: chance alone, or SUMO."""

import importlib
from typing import Any, Dict, List, Mapping, Sequence, Tuple, Union

import numpy

# at green one vehicle leaves in two seconds, the first of them in the second one
HEADWAY = 2


class Traffic:
    """What an environment asks of traffic. `begin` comes before the first second, with the groups and with chance; then, a
    second, `counts` are what detectors saw before it, `step` takes what it shows, and `queues` and `waiting` tell what came
    of it."""

    def begin(self, names: Sequence[str], chance: Any) -> None:
        raise NotImplementedError

    def counts(self) -> Dict[int, Tuple[int, int]]:
        """Fronts and rears of the detectors that counted something since the last second."""
        return {}

    def step(self, aspects: str) -> None:
        raise NotImplementedError

    def queues(self) -> Any:
        """How many vehicles wait at each group."""
        raise NotImplementedError

    def waiting(self) -> float:
        """How many vehicles wait."""
        return float(self.queues().sum())

    def end(self) -> None:
        """Frees what is held."""


class Arrivals(Traffic):
    """Vehicles that come by chance, at each group `rates` vehicles a second (one number, or one a group), and leave at green,
    one in two seconds. Detector p + 1 counts at the group of place p: a front as one comes, a rear as one leaves."""

    def __init__(self, rates: Union[float, Sequence[float]] = 0.1):
        self.rates = rates

    def begin(self, names: Sequence[str], chance: Any) -> None:
        self._rates = numpy.broadcast_to(numpy.asarray(self.rates, float), len(names))
        self._chance = chance
        self._queues = numpy.zeros(len(names), numpy.int64)
        self._green = numpy.zeros(len(names), numpy.int64)
        self._counts: Dict[int, Tuple[int, int]] = {}

    def counts(self) -> Dict[int, Tuple[int, int]]:
        return self._counts

    def step(self, aspects: str) -> None:
        is_green = numpy.frombuffer(aspects.encode("ascii"), numpy.uint8) == ord("G")
        self._green = numpy.where(is_green, self._green + 1, 0)
        came = self._chance.random(len(self._queues)) < self._rates
        left = (self._queues > 0) & is_green & (self._green % HEADWAY == 0)
        self._queues = self._queues + came - left
        self._counts = {int(g) + 1: (int(came[g]), int(left[g])) for g in numpy.flatnonzero(came | left)}

    def queues(self) -> Any:
        return self._queues


class Sumo(Traffic):
    """Vehicles of SUMO at one light. `call` starts SUMO (a list of words, as for `traci.start`), `light` is the light's id,
    and `links` has for each link index of the light the group that it obeys and the indexes of the links to which it yields
    at green, as the links.csv of a made site has them. SUMO is imported as the first step begins: libsumo, or where it isn't
    there traci."""

    LETTERS = {"R": "r", "U": "u", "A": "y"}

    def __init__(self, call: Sequence[str], light: str, links: Mapping[int, Tuple[str, Sequence[int]]]):
        self.call, self.light, self.links = list(call), light, dict(links)
        self._sumo: Any = None

    def begin(self, names: Sequence[str], chance: Any) -> None:
        self.end()
        try:
            sumo: Any = importlib.import_module("libsumo")
        except ImportError:
            sumo = importlib.import_module("traci")
        sumo.start([*self.call, "--seed", str(int(chance.integers(1 << 31)))])
        self._sumo, self._names = sumo, tuple(names)
        lanes = sumo.trafficlight.getControlledLinks(self.light)
        self._lanes: List[List[str]] = [[] for _ in names]
        for index, (group, _) in self.links.items():
            for link in lanes[index]:
                if link[0] not in self._lanes[self._names.index(group)]:
                    self._lanes[self._names.index(group)].append(link[0])
        self._queues = numpy.zeros(len(names), numpy.int64)
        self._state = ["r"] * len(lanes)

    def step(self, aspects: str) -> None:
        shown = {index: aspects[self._names.index(group)] for index, (group, _) in self.links.items()}
        for index, (_, yields) in self.links.items():
            if shown[index] == "G":
                self._state[index] = "g" if any(shown[other] != "R" for other in yields) else "G"
            else:
                self._state[index] = self.LETTERS[shown[index]]
        self._sumo.trafficlight.setRedYellowGreenState(self.light, "".join(self._state))
        self._sumo.simulationStep()
        halting = self._sumo.lane.getLastStepHaltingNumber
        self._queues = numpy.array([sum(halting(lane) for lane in lanes) for lanes in self._lanes], numpy.int64)

    def queues(self) -> Any:
        return self._queues

    def waiting(self) -> float:
        halting = self._sumo.lane.getLastStepHaltingNumber
        return float(sum(halting(lane) for lane in sorted({lane for lanes in self._lanes for lane in lanes})))

    def end(self) -> None:
        if self._sumo is not None:
            self._sumo.close()
            self._sumo = None


__all__ = ["Arrivals", "HEADWAY", "Sumo", "Traffic"]
