"""The stretches of lanes on which detectors lie."""
from common.reading import Refused
from sumo.network import lane_name

LEAST = 1.0  # metres below which a lane area sees too little
SHORT = 20.0  # metres that an area has at least, where there is room


def length(network, lane):
    return float(network.lanes[lane].get("length"))


def lane_before(network, lane, seen):
    """The lane that leads straight on into this one, else any one that does: through the inner lanes of the junction between
    them. Gives the lanes to put before it, nothing where none leads there."""
    ways = [way for way in network.into.get(lane, [])
            if not way.get("from").startswith(":") and lane_name(way, "from") not in seen]
    if not ways:
        return []
    way = min(ways, key=lambda one: (one.get("dir") != "s", -length(network, lane_name(one, "from"))))
    between, via = [], way.get("via")
    while via in network.lanes:
        between.append(via)
        via = network.follow.get(via)
    return [lane_name(way, "from"), *between]


def stretch_of(network, lane, metres):
    """Lanes, begin on the first and end on the last of an area of some metres before the stop line of a lane. A lane that is
    shorter is continued over those before it."""
    lanes, reached = [lane], length(network, lane)
    while reached < min(metres, SHORT) + 0.2:
        more = lane_before(network, lanes[0], lanes)
        if not more:
            break
        lanes = more + lanes
        reached += sum(length(network, one) for one in more)
    if reached - 0.2 < LEAST:
        raise Refused(0, f"lane {lane} is {reached:.1f} m long, which leaves no metre for a lane area, and no lane leads to "
                         "it: join it with the one before it (netconvert --geometry.remove)")
    begin = min(max(0.1, reached - 0.1 - metres), length(network, lanes[0]) - 0.1)
    return lanes, begin, length(network, lane) - 0.1


def stretches_of(network, lanes, seconds):
    """The stretch of each lane: as long as a vehicle takes `seconds` for at the lane's speed, and at least 20 m."""
    return [stretch_of(network, lane, max(seconds * float(network.lanes[lane].get("speed")), SHORT)) for lane in lanes]
