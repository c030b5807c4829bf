"""A SUMO network as tables, made once for all of its lights. Read from XML (.net.xml, .net.xml.gz, or the .sumocfg that names
it) with Python's standard library alone."""
import gzip
import xml.etree.ElementTree as tree
from pathlib import Path

from common.reading import Refused


def read_root(file):
    """The root element of an XML file."""
    try:
        with (gzip.open(file) if str(file).endswith(".gz") else open(file, "rb")) as opened:
            return tree.parse(opened).getroot()
    except tree.ParseError as fault:
        raise Refused(fault.position[0], f"this is no network: {fault}") from None


def is_configuration(file):
    """Whether a file's name is that of a SUMO configuration."""
    return str(file).endswith((".sumocfg", ".sumo.cfg", ".sumocfg.xml"))


def files_in(configuration, *options):
    """The files that a SUMO configuration names under these options, as paths."""
    found = []
    for element in read_root(configuration).iter():
        if element.tag in options:
            found += [Path(configuration).parent / name.strip() for name in element.get("value", "").split(",") if name.strip()]
    return found


def shape_of(text):
    """The points of a shape."""
    return [tuple(float(number) for number in point.split(",")[:2]) for point in text.split()]


def lane_name(connection, end):
    """The lane from which a connection leads, or to which."""
    return f"{connection.get(end)}_{connection.get(end + 'Lane')}"


class Network:
    """The tables of a network: lanes by their names, connections by lane and by light, of each connection its junction and its
    place in the right of way, of each crossing the areas at its ends, and of each light its programs."""

    def __init__(self, root, additional=()):
        self.root, self.additional = root, list(additional)
        self.lanes = {lane.get("id"): lane for lane in root.iter("lane")}
        self.by_lane, self.by_light, self.areas, self.into, self.logics = {}, {}, {}, {}, {}
        for connection in root.iter("connection"):
            self.add_connection(connection)
        for source in (root, *self.additional):
            for logic in source.iter("tlLogic"):
                self.logics.setdefault(logic.get("id"), []).append(logic)
        self.follow = {lane: leaving[0].get("via") for lane, leaving in self.by_lane.items()
                       if lane.startswith(":") and len(leaving) == 1 and leaving[0].get("via")}
        self.orders, self.junctions, self.place, self.rights = {}, {}, {}, {}
        for junction in root.iter("junction"):
            if junction.find("request") is not None:
                self.add_junction(junction)

    def add_connection(self, connection):
        lane, to = lane_name(connection, "from"), lane_name(connection, "to")
        self.by_lane.setdefault(lane, []).append(connection)
        self.into.setdefault(to, []).append(connection)
        if connection.get("tl"):
            self.by_light.setdefault(connection.get("tl"), []).append(connection)
        from_edge, to_edge = connection.get("from"), connection.get("to")
        for crossing, area in ((to_edge, from_edge), (from_edge, to_edge)):
            if crossing.startswith(":") and area.startswith(":"):
                areas = self.areas.setdefault(crossing, [])
                if area not in areas:
                    areas.append(area)

    def add_junction(self, junction):
        """Notes the connections of a junction in the order of its right of way."""
        name, order = junction.get("id"), []
        for lane in junction.get("incLanes").split():
            for connection in self.by_lane.get(lane, []):
                is_from_inside, to = connection.get("from").startswith(":"), connection.get("to")
                if is_from_inside == to.startswith(":") and not (is_from_inside and "_c" not in to):
                    self.place[id(connection)] = name, len(order)
                    order.append(connection)
        self.junctions[name], self.orders[name] = junction, order

    def rights_of(self, name):
        """Of each connection of a junction, by its place: its foes, and those to which it yields."""
        if name in self.rights:
            return self.rights[name]
        rows = sorted((int(row.get("index")), row) for row in self.junctions[name].iter("request"))
        if len(rows) != len(self.orders[name]):
            raise Refused(0, f"junction {name} has {len(rows)} rows of right of way for {len(self.orders[name])} links; "
                             "`netconvert -s NET -o NET` writes them anew")
        self.rights[name] = [({k for k, bit in enumerate(row.get("foes")[::-1]) if bit == "1"},
                              {k for k, bit in enumerate(row.get("response")[::-1]) if bit == "1"}) for _, row in rows]
        return self.rights[name]


def read_network(file):
    """The network of a file, or of the configuration that names it, with the programs of its additional files."""
    if not is_configuration(file):
        return Network(read_root(file))
    nets = files_in(file, "net-file", "n", "net")
    if len(nets) != 1:
        raise Refused(0, "this configuration names no network (`net-file`)")
    return Network(read_root(nets[0]), [read_root(name) for name in files_in(file, "additional-files", "a", "additional")
                                        if name.exists()])
