"""What a network tells of one traffic light: its links with their ways over the junctions, who yields to whom, its program."""
from dataclasses import dataclass, field

from common.reading import Refused
from sumo.network import lane_name, shape_of
from sumo.programs import program_of

RAIL = {"tram", "rail", "rail_urban", "rail_electric", "rail_fast", "subway", "cable_car"}
NEAR = 100.0  # metres within which two junctions of a light are one place to clear


@dataclass
class Link:
    """A way over a junction under a letter of the light's state. `request` is its junction and its place in the right of way
    there. `yields_to` has its own place where it yields to a way that isn't under the light."""
    index: int
    request: tuple
    lane: str
    to_lane: str
    kind: str  # car, bicycle, tram or foot
    is_turning: bool
    way: list
    speed: float
    yields_to: set = field(default_factory=set)  # places of links
    foes: set = field(default_factory=set)


@dataclass
class Light:
    """A traffic light: its links in the order of their places, its program, the lanes that lead to it, and of each crossing the
    areas in which people wait for it. A detour is a link, another one that meets it behind its own way, and its line up to
    there: over a lane and a way that isn't under the light."""
    name: str
    junction: str
    program: object
    links: list
    lanes: dict
    waits: dict
    notes: list
    detours: list = field(default_factory=list)

    @property
    def phases(self):
        return self.program.phases


def lights_of(network):
    """The names of all traffic lights of the network, in its order."""
    return list(network.logics)


def kind_of(lane):
    """Who uses a lane: car, bicycle, tram or foot. A lane of railways is refused."""
    allowed = set((lane.get("allow") or "").split())
    if allowed and allowed <= RAIL:
        if "tram" in allowed:
            return "tram"
        raise Refused(0, f"lane {lane.get('id')} is for {', '.join(sorted(allowed))} alone, and a crossing with a railway "
                         "isn't cleared by intergreens: take its links out of the light")
    if allowed == {"bicycle"}:
        return "bicycle"
    return "foot" if allowed == {"pedestrian"} else "car"


def is_unused(connection, lanes):
    """Whether a connection leads over the roadway from a footway: nobody drives there, and people walk over crossings."""
    from_name, to = lane_name(connection, "from"), connection.get("to")
    return not to.startswith(":") and not from_name.startswith(":") and kind_of(lanes[from_name]) == "foot"


def way_of(connection, network):
    """The line over the junction: the shapes of the internal lanes from the stop line on."""
    lanes = network.lanes
    if connection.get("to").startswith(":"):  # a crossing, which is itself the way
        return shape_of(lanes[lane_name(connection, "to")].get("shape"))
    way, via = [], connection.get("via")
    while via in lanes:
        way += shape_of(lanes[via].get("shape"))
        via = network.follow.get(via)
    start = shape_of(lanes[lane_name(connection, "from")].get("shape"))[-1]
    return way or [start, shape_of(lanes[lane_name(connection, "to")].get("shape"))[0]]


def make_links(own, network):
    """The links of a light, by their number in its state, then by their place in the right of way."""
    links, lanes = [], network.lanes
    for connection in own:
        if is_unused(connection, lanes):
            continue
        if connection.get("linkIndex2"):
            raise Refused(0, f"the crossing {connection.get('to')} has a letter for each of its directions: give it one "
                             "(linkIndex alone)")
        if id(connection) not in network.place:
            raise Refused(0, f"the way {lane_name(connection, 'from')} to {lane_name(connection, 'to')} lies on no junction "
                             "with a right of way: give its junction a type with one, as traffic_light")
        lane = lanes[lane_name(connection, "from")]
        kind = "foot" if connection.get("to").startswith(":") else kind_of(lane)
        links.append(Link(int(connection.get("linkIndex")), network.place[id(connection)], lane.get("id"),
                          lane_name(connection, "to"), kind, connection.get("dir") not in ("s", None),
                          way_of(connection, network), float(lane.get("speed"))))
    return sorted(links, key=lambda link: (link.index, link.request))


def meet_outside(link, place, way, rights, here):
    """What a link has to do with a foe that isn't under the light: a note, or a refusal. `rights` are those to which the link
    and the way yield, `here` the link's place in the right of way."""
    name = f"{lane_name(way, 'from')} to {lane_name(way, 'to')}"
    link_yields, way_yields = rights
    if way.get("tl"):
        raise Refused(0, f"the way {name} of its junction is a foe of link {link.index}, and under the light {way.get('tl')}: "
                         "two controllers don't part each other's ways, so join the lights (netconvert --tls.join)")
    if not link_yields and here not in way_yields:
        raise Refused(0, f"the way {name} of its junction is a foe of link {link.index}, isn't under the light, and neither "
                         "yields: put it under the light, or let one of them yield")
    if link_yields:
        link.yields_to.add(place)
        return f"link {link.index} yields to the way {name}, which isn't under the light, and is shown `g` alone"
    return f"the way {name}, which isn't under the light, yields to link {link.index}"


def set_rights(links, network):
    """Notes of each link its foes and whom it yields to; gives what is to be told of ways that aren't under the light. Ways of
    different junctions don't meet."""
    places, notes = {link.request: k for k, link in enumerate(links)}, []
    tables = {name: network.rights_of(name) for name in dict.fromkeys(link.request[0] for link in links)}
    for k, link in enumerate(links):
        name, here = link.request
        order = network.orders[name]
        foes, yields = tables[name][here]
        for there in sorted(foes):
            if (name, there) in places:
                link.foes.add(places[name, there])
            elif not is_unused(order[there], network.lanes):
                way_yields = tables[name][there][1]
                notes.append(meet_outside(link, k, order[there], (there in yields, way_yields), here))
        link.yields_to |= {places[name, there] for there in yields if (name, there) in places}
    return list(dict.fromkeys(notes))


def detours_of(links, network):
    """The links that lead to a way which isn't under the light and meets another link: with this link and the line up to there.
    The lane between them is at most NEAR metres long."""
    places, found, outside = {link.request: k for k, link in enumerate(links)}, [], {}
    for k, link in enumerate(links):
        name, here = link.request
        for there in network.rights_of(name)[here][0]:
            way = network.orders[name][there]
            if (name, there) not in places and not way.get("tl") and not is_unused(way, network.lanes):
                outside.setdefault(id(way), (way, []))[1].append(k)
    for k, link in enumerate(links):
        lane = network.lanes[link.to_lane]
        edge = link.to_lane.rsplit("_", 1)[0]
        for way, met in outside.values():
            if way.get("from") == edge and link.kind != "foot" and float(lane.get("length")) <= NEAR:
                line = link.way + shape_of(lane.get("shape")) + way_of(way, network)
                found += [(k, other, line) for other in met if other != k]
    return found


def read_light(network, name, program=None, rounds_up=False):
    """The traffic light of this name with its program, or a refusal."""
    if name not in network.logics:
        raise Refused(0, "the network has no such traffic light")
    own = network.by_light.get(name)
    if not own:
        raise Refused(0, "no link of the network is under it")
    chosen = program_of(network.logics[name], program, rounds_up)
    links = make_links(own, network)
    notes = chosen.notes + set_rights(links, network)
    detours = detours_of(links, network)
    junctions = list(dict.fromkeys(link.request[0] for link in links))
    if len(junctions) > 1:
        notes.append(f"its links lie on {len(junctions)} junctions, and ways of different junctions don't meet")
    waits = {link.to_lane.rsplit("_", 1)[0]: [] for link in links if link.kind == "foot"}
    waits = {crossing: network.areas.get(crossing, []) for crossing in waits}
    lanes = {link.lane: network.lanes[link.lane] for link in links}
    return Light(name, " ".join(junctions), chosen, links, lanes, waits, notes, detours)
