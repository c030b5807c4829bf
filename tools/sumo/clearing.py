"""Intergreens from the geometry of a junction: the seconds from the end of one link's green to the begin of another's,

    overrun + (clearing distance + vehicle length) / clearing speed - entering distance / entering speed

rounded up to whole seconds, with the values of `Values`, each of which is an option of site_from_sumo.py. The clearing distance
leads from the clearing link's stop line to the point of conflict (on foot over the whole crossing), the entering distance from
the entering link's (on foot 0). The point of conflict is the first one along the entering way in which the centre lines cross;
where they don't (two ways into one lane), the points of both that are nearest to each other.

The values are a beginning, and nobody's guideline: whoever answers for the signals puts in those that hold for him."""
import argparse
import dataclasses
import math
from dataclasses import dataclass

STEP = 0.5  # metres between two points of a way


def length_of(way):
    """Metres along a line of points."""
    return sum(math.dist(a, b) for a, b in zip(way, way[1:]))


def value(default, meaning):
    return dataclasses.field(default=default, metadata={"meaning": meaning})


@dataclass
class Values:
    """The values of the formula: seconds, metres, and metres a second."""
    overrun_straight: float = value(3.0, "seconds in which cars straight on still cross their stop line after the end of green")
    overrun_turning: float = value(2.0, "the same of cars that turn")
    overrun_bicycle: float = value(1.0, "the same of bicycles; on foot it is 0")
    overrun_tram: float = value(5.0, "the same of trams")
    tram_length: float = value(15.0, "metres that a tram has to clear besides; the rest of it is seen")
    vehicle_length: float = value(6.0, "metres that a car has to clear besides; of bicycles and on foot 0")
    clear_straight: float = value(10.0, "metres a second of a car that clears straight on")
    clear_turning: float = value(7.0, "the same of one that turns")
    clear_tight: float = value(5.0, "the same of one that turns on a way shorter than --tight-way")
    tight_way: float = value(12.0, "metres")
    clear_bicycle: float = value(4.0, "metres a second of a bicycle that clears")
    clear_tram: float = value(7.0, "metres a second of a tram that clears")
    clear_foot: float = value(1.2, "metres a second of people who clear")
    enter_car: float = value(11.1, "metres a second of a car that enters; the lane's speed where that is higher")
    enter_bicycle: float = value(5.0, "metres a second of a bicycle that enters")
    enter_tram: float = value(13.9, "metres a second of a tram that enters; the lane's speed where that is higher")


def number_from(least):
    """The reader of an option's number, from `least` on."""
    def read(text):
        try:
            number = float(text)
        except ValueError:
            number = -1.0
        if not least <= number < 1000:
            raise argparse.ArgumentTypeError(f"'{text}' is no number from {least:g} to 999")
        return number
    return read


def add_options(words):
    """An option for each value."""
    group = words.add_argument_group("values of the intergreens (an authority puts in its own)")
    for one in dataclasses.fields(Values):
        is_speed = one.name.startswith(("clear", "enter"))
        group.add_argument("--" + one.name.replace("_", "-"), type=number_from(0.1 if is_speed else 0.0), default=one.default,
                           metavar="N", help=f"{one.metadata['meaning']}, {one.default:g}")


def values_of(given):
    """The values as the options give them."""
    return Values(**{one.name: getattr(given, one.name) for one in dataclasses.fields(Values)})


def points_of(way):
    """Points along a way at most STEP apart, each with its distance from the stop line."""
    points, gone = [(0.0, way[0])], 0.0
    for (ax, ay), (bx, by) in zip(way, way[1:]):
        length = math.dist((ax, ay), (bx, by))
        parts = max(1, math.ceil(length / STEP))
        for k in range(1, parts + 1):
            points.append((gone + length * k / parts, (ax + (bx - ax) * k / parts, ay + (by - ay) * k / parts)))
        gone += length
    return points


def crossing_of(a, b, c, d):
    """Where the stretch a to b meets the stretch c to d: both parts from 0 to 1, or None."""
    (px, py), (rx, ry), (sx, sy) = a, (b[0] - a[0], b[1] - a[1]), (d[0] - c[0], d[1] - c[1])
    cross = rx * sy - ry * sx
    if abs(cross) < 1e-9:
        return None
    t = ((c[0] - px) * sy - (c[1] - py) * sx) / cross
    u = ((c[0] - px) * ry - (c[1] - py) * rx) / cross
    return (t, u) if 0 <= t <= 1 and 0 <= u <= 1 else None


def conflict_of(clearing, entering):
    """The distances of the point of conflict from the two stop lines: clearing, entering."""
    gone = 0.0
    for a, b in zip(entering, entering[1:]):
        far, best = 0.0, None
        for c, d in zip(clearing, clearing[1:]):
            met = crossing_of(a, b, c, d)
            if met and (best is None or met[0] < best[0]):
                best = (met[0], far + met[1] * math.dist(c, d))
            far += math.dist(c, d)
        if best:
            return best[1], gone + best[0] * math.dist(a, b)
        gone += math.dist(a, b)
    return nearest_of(points_of(clearing), points_of(entering))


def nearest_of(clearing, entering):
    """The distances from the stop lines of the two points that are nearest to each other; of equal pairs the first one. It
    begins at the ends, where ways mostly meet: points lie at most STEP apart, so of those around a far one none is nearer."""
    best = (math.inf, 0.0, 0.0)
    for gone, point in reversed(clearing):
        k = len(entering) - 1
        while k >= 0:
            far, other = entering[k]
            apart = math.dist(point, other)
            best = min(best, (apart, gone, far))
            k -= max(1, int((apart - best[0]) / STEP))
    return best[1:]


def clearing_of(link, values):
    """Overrun time, length and speed of what clears on a link."""
    if link.kind == "foot":
        return 0.0, 0.0, values.clear_foot
    if link.kind == "bicycle":
        return values.overrun_bicycle, 0.0, values.clear_bicycle
    if link.kind == "tram":
        return values.overrun_tram, values.tram_length, values.clear_tram
    if not link.is_turning:
        return values.overrun_straight, values.vehicle_length, values.clear_straight
    is_tight = length_of(link.way) < values.tight_way
    return values.overrun_turning, values.vehicle_length, values.clear_tight if is_tight else values.clear_turning


def seconds_between(clearing, entering, values):
    """The intergreen from one link to another, exactly."""
    overrun, length, speed = clearing_of(clearing, values)
    clear, enter = conflict_of(clearing.way, entering.way)
    if clearing.kind == "foot":
        clear = length_of(clearing.way)
    if entering.kind == "foot":
        enter = 0.0
    if entering.kind == "bicycle":
        faster = values.enter_bicycle
    else:
        faster = max(values.enter_tram if entering.kind == "tram" else values.enter_car, entering.speed)
    return overrun + (clear + length) / speed - enter / faster
