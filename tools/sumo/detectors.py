"""Detectors of a controller in SUMO: what each of them saw in the last step, as fronts and rears."""
VEHICLES, PERSONS = 0x12, 0x1A  # SUMO's numbers of what is subscribed: who was in an area, on an edge, in the last step
LOOP_DATA = 0x17  # and the vehicles on a loop, with the moments at which they came and left


class Area:
    """A lane area: a front comes into it, a rear leaves it."""

    def __init__(self, sumo, name, at):
        self.results, self.name, self.inside = sumo.lanearea.getSubscriptionResults, name, frozenset()
        sumo.lanearea.subscribe(name, [VEHICLES])

    def counts(self):
        now, before = frozenset(self.results(self.name)[VEHICLES]), self.inside
        self.inside = now
        return len(now - before), len(before - now)


class Loop:
    """An induction loop; a vehicle that passes within a step is a front and a rear."""

    def __init__(self, sumo, name, at):
        self.sumo, self.name, self.over = sumo, name, set()
        if sumo.__name__ == "traci":
            sumo.inductionloop.subscribe(name, [LOOP_DATA])

    def counts(self):
        loops, fronts, rears = self.sumo.inductionloop, 0, 0
        is_subscribed = self.sumo.__name__ == "traci"  # libsumo has no such subscription, and its calls cost little
        seen = loops.getSubscriptionResults(self.name)[LOOP_DATA] if is_subscribed else loops.getVehicleData(self.name)
        for vehicle, _, _, left_at, _ in seen:
            if vehicle not in self.over:
                self.over.add(vehicle)
                fronts += 1
            if left_at >= 0:
                self.over.discard(vehicle)
                rears += 1
        return fronts, rears


class Push:
    """The button of a crossing: each person who begins to wait for it pushes once, which is a front and a rear."""

    def __init__(self, sumo, name, at):
        self.sumo, self.name, self.areas, self.pushed = sumo, name, at.split(), set()
        for area in self.areas:
            sumo.edge.subscribe(area, [PERSONS])

    def counts(self):
        here, waiting, person = set(), 0, self.sumo.person
        for area in self.areas:
            here.update(self.sumo.edge.getSubscriptionResults(area)[PERSONS])
        self.pushed &= here
        for one in here - self.pushed:
            if person.getWaitingTime(one) > 0 and person.getNextEdge(one) == self.name:
                self.pushed.add(one)
                waiting += 1
        return waiting, waiting


KINDS = {"area": Area, "loop": Loop, "push": Push}
