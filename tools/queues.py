"""Queues before a signal: vehicles that come at random, wait in one lane, leave by a saturation flow, and cover the detectors on their
way. Time is in seconds; the signal shows one aspect from each whole second up to the next."""
import math
import random
from dataclasses import dataclass, field

SPACE = 6.0  # metres of a vehicle that stands
COVERS = 0.7  # seconds that one which doesn't stand covers a detector
STOPPED = 1.0  # who waits longer has stopped


@dataclass
class Stream:
    """What a row of the demand says, or several rows of one name: who comes on a lane, and who sees them."""
    name: str
    group: str
    detectors: list  # (number, metres before the stop line)
    parts: list = field(default_factory=list)  # (from, to, vehicles an hour)
    saturation: float = 1800.0  # vehicles an hour
    calls: bool = False  # of people or trams that a button or a point tells, and that all go at once


def arrivals_of(parts, chance):
    """The moments at which vehicles of a stream reach the stop line, by chance: in each part they are as likely in each moment."""
    moments = []
    for begin, end, per_hour in parts:
        at = begin
        while per_hour > 0:
            at += chance.expovariate(per_hour / 3600)
            if at >= end:
                break
            moments.append(at)
    return moments


class Detector:
    """A detector of a lane: its place in the queue, and the vehicles that reached it and left it."""

    def __init__(self, number, metres, speed):
        self.number, self.place, self.way = number, int(metres / SPACE), metres / speed
        self.came, self.left, self.fronts = 0, 0, []

    def counts(self, end, arrivals, departures):
        """The fronts and rears before a moment that weren't told yet. Who stands on the place leaves it when the queue moves."""
        fronts = rears = 0
        while self.came < len(arrivals):
            ahead = self.came - self.place - 1
            if ahead >= len(departures):
                break
            at = max(arrivals[self.came] - self.way, departures[ahead] if ahead >= 0 else -math.inf)
            if at >= end:
                break
            self.fronts.append(at)
            self.came, fronts = self.came + 1, fronts + 1
        while self.left < self.came:
            ahead, at = self.left - self.place, self.fronts[self.left] + COVERS
            if ahead >= len(departures):
                break
            if ahead >= 0:
                at = max(at, departures[ahead])
            if at >= end:
                break
            self.left, rears = self.left + 1, rears + 1
        return fronts, rears


class Lane:
    """A lane of vehicles: those who came, those who left, and what is counted of them."""

    def __init__(self, stream, arrivals, given):
        self.stream, self.arrivals, self.given = stream, arrivals, given
        self.headway = 3600 / stream.saturation
        self.detectors = [Detector(number, metres, given.speed / 3.6) for number, metres in stream.detectors]
        self.departures, self.begun, self.ended = [], None, None
        self.greens = self.left_queued = self.longest = 0

    def came(self, end):
        """How many have come before a moment."""
        count = len(self.departures)
        while count < len(self.arrivals) and self.arrivals[count] < end:
            count += 1
        return count

    def second(self, t, letter):
        """The second from t on: those who can leave it do."""
        if letter == "G":
            if self.begun is None:
                self.begun = t
            self.leave(t, t + 1)
        else:
            if self.begun is not None:
                self.greens, self.ended = self.greens + 1, t
                self.begun = None
            if letter == "A" and self.ended is not None and t < self.ended + self.given.end_gain:
                self.leave(t, min(t + 1, self.ended + self.given.end_gain))
            if self.ended is not None and t >= self.ended + self.given.end_gain - 1:
                self.left_queued += self.came(self.ended) > len(self.departures)
                self.ended = None
        self.longest = max(self.longest, self.came(t + 1) - len(self.departures))

    def leave(self, begin, end):
        while len(self.departures) < len(self.arrivals):
            at = self.arrivals[len(self.departures)]
            if self.departures:
                at = max(at, self.departures[-1] + self.headway)
            if self.begun is not None and at < self.begun + self.given.start_lag:
                at = self.begun + self.given.start_lag
            if at < begin:
                at = begin
            if at >= end:
                return
            self.departures.append(at)

    def counts(self, end):
        return [(detector.number, *detector.counts(end, self.arrivals, self.departures)) for detector in self.detectors]

    def numbers(self, end):
        """What a run tells of the lane. Who still stands at the end has waited so far."""
        came = self.came(end)
        waited = [(self.departures[k] if k < len(self.departures) else end) - self.arrivals[k] for k in range(came)]
        counted = [wait for wait, at in zip(waited, self.arrivals) if at >= self.given.warm_up]
        return {"vehicles": len(counted), "delay": sum(counted) / len(counted) if counted else 0.0,
                "stops": 100 * sum(wait > STOPPED for wait in counted) / len(counted) if counted else 0.0,
                "queue": self.longest, "greens": self.greens, "left": self.left_queued}


class Calls:
    """People or trams: each call covers its detectors for a moment, and all go in the next second that is green."""

    def __init__(self, stream, arrivals, given):
        self.stream, self.arrivals, self.given = stream, arrivals, given
        self.told, self.gone, self.green, self.greens, self.longest = 0, [], False, 0, 0

    def second(self, t, letter):
        self.greens += letter != "G" and self.green
        self.green = letter == "G"
        waiting = sum(1 for at in self.arrivals[len(self.gone):] if at < t + 1)
        self.longest = max(self.longest, waiting if not self.green else 0)
        if self.green:
            self.gone += [max(at, t) for at in self.arrivals[len(self.gone):] if at < t + 1]

    def counts(self, end):
        count = 0
        while self.told < len(self.arrivals) and self.arrivals[self.told] < end:
            self.told, count = self.told + 1, count + 1
        return [(number, count, count) for number, _ in self.stream.detectors]

    def numbers(self, end):
        came = [at for at in self.arrivals if at < end]
        waits = [(self.gone[k] if k < len(self.gone) else end) - at for k, at in enumerate(came) if at >= self.given.warm_up]
        return {"vehicles": len(waits), "delay": sum(waits) / len(waits) if waits else 0.0,
                "stops": 100 * sum(wait > STOPPED for wait in waits) / len(waits) if waits else 0.0,
                "queue": self.longest, "greens": self.greens, "left": 0}


def run(controller, streams, seed, given):
    """One run: what the controller shows in a second is decided by what the detectors saw in the second before. `controller` has the
    groups' `names`, and its `second(counts)` answers the aspects. The numbers of each stream, by its name."""
    lanes = []
    for place, stream in enumerate(streams):
        arrivals = arrivals_of(stream.parts, random.Random(f"{seed} {place}"))
        lanes.append((Calls if stream.calls else Lane)(stream, arrivals, given))
    places = [controller.names.index(stream.group) for stream in streams]
    for t in range(given.seconds):
        counts = {}
        for lane in lanes:
            for number, fronts, rears in lane.counts(t):
                if fronts or rears:
                    before = counts.get(number, (0, 0))
                    counts[number] = (before[0] + fronts, before[1] + rears)
        aspects = controller.second(counts)
        for lane, place in zip(lanes, places):
            lane.second(t, aspects[place])
    return {lane.stream.name: lane.numbers(given.seconds) for lane in lanes}
