#!/usr/bin/env python3
"""Writes the sample file: a made-up town as an OpenStreetMap PBF file with raw blobs.

usage: sample/town.py OUT

The same bytes come out on every run. The bytes are made here, message by message, with the standard library alone.
"""

import sys
from dataclasses import dataclass, field


# ---- the wire encoding


def varint(number: int) -> bytes:
    """Seven bits a byte, the lowest first; a negative number stands with its sign in 64 bits."""
    number &= (1 << 64) - 1
    spelled = bytearray()
    while number > 127:
        spelled.append(number & 127 | 128)
        number >>= 7
    spelled.append(number)
    return bytes(spelled)


def zigzag(number: int) -> int:
    return 2 * number if number >= 0 else -2 * number - 1


def scalar(number: int, value: int) -> bytes:
    """A field that is a number."""
    return varint(number * 8) + varint(value)


def nested(number: int, payload: bytes) -> bytes:
    """A field that is a text, a message or a packed column."""
    return varint(number * 8 + 2) + varint(len(payload)) + payload


def column(number: int, values: list) -> bytes:
    return nested(number, b"".join(varint(value) for value in values)) if values else b""


def delta_column(number: int, values: list) -> bytes:
    return column(number, [zigzag(b - a) for a, b in zip([0, *values], values)])


# ---- what a town is made of


@dataclass
class Entity:
    """A node has a `place` (north and east of 50 N 10 E, in millionths of a degree), a way `refs` (the ids of its nodes),
    a relation `members` (each a kind, an id and a role)."""

    id: int
    tags: dict
    place: tuple = ()
    refs: list = field(default_factory=list)
    members: list = field(default_factory=list)

    # Seven neighbours in the file were drawn in one changeset, by one user and on one day.

    @property
    def changeset(self) -> int:
        return 700 + self.id // 7

    @property
    def user(self) -> int:
        return self.changeset * 5 % len(USERS)

    @property
    def minutes(self) -> int:
        """Since 1970-01-01."""
        return 21_000_000 + self.changeset % 700 * 30_011 + self.id % 7

    @property
    def version(self) -> int:
        return 1 + self.id * self.changeset % 4

    def texts(self) -> list:
        return [*self.tags, *self.tags.values(), USERS[self.user], *(role for _, _, role in self.members)]


USERS = ["karte_anna", "Jürgen Ø", "Ольга", "Νίκος", "سلمى", "地図太郎"]


# ---- the messages of a block


@dataclass
class Form:
    """The numbers by which a block stores places (in nanodegrees) and times (in milliseconds)."""

    granularity: int = 100
    date_granularity: int = 1000
    lat_offset: int = 0
    lon_offset: int = 0

    def lat(self, node: Entity) -> int:
        return (50_000_000_000 + node.place[0] * 1000 - self.lat_offset) // self.granularity

    def lon(self, node: Entity) -> int:
        return (10_000_000_000 + node.place[1] * 1000 - self.lon_offset) // self.granularity

    def time(self, entity: Entity) -> int:
        return entity.minutes * 60_000 // self.date_granularity


def info(entity: Entity, form: Form, table: list) -> bytes:
    return (
        scalar(1, entity.version)
        + scalar(2, form.time(entity))
        + scalar(3, entity.changeset)
        + scalar(4, 10 + entity.user)
        + scalar(5, table.index(USERS[entity.user]))
    )


def tags_and_info(entity: Entity, form: Form, table: list) -> bytes:
    keys = column(2, [table.index(key) for key in entity.tags])
    values = column(3, [table.index(value) for value in entity.tags.values()])
    return keys + values + nested(4, info(entity, form, table))


def dense_info(nodes: list, form: Form, table: list) -> bytes:
    return (
        column(1, [node.version for node in nodes])
        + delta_column(2, [form.time(node) for node in nodes])
        + delta_column(3, [node.changeset for node in nodes])
        + delta_column(4, [10 + node.user for node in nodes])
        + delta_column(5, [table.index(USERS[node.user]) for node in nodes])
    )


def dense_nodes(nodes: list, form: Form, table: list) -> bytes:
    keys_values = []
    for node in nodes:
        for key, value in node.tags.items():
            keys_values += [table.index(key), table.index(value)]
        keys_values.append(0)
    return (
        delta_column(1, [node.id for node in nodes])
        + nested(5, dense_info(nodes, form, table))
        + delta_column(8, [form.lat(node) for node in nodes])
        + delta_column(9, [form.lon(node) for node in nodes])
        + column(10, keys_values)
    )


def plain_node(node: Entity, form: Form, table: list) -> bytes:
    place = scalar(8, zigzag(form.lat(node))) + scalar(9, zigzag(form.lon(node)))
    return scalar(1, zigzag(node.id)) + tags_and_info(node, form, table) + place


def way(entity: Entity, form: Form, table: list) -> bytes:
    return scalar(1, entity.id) + tags_and_info(entity, form, table) + delta_column(8, entity.refs)


def relation(entity: Entity, form: Form, table: list) -> bytes:
    return (
        scalar(1, entity.id)
        + tags_and_info(entity, form, table)
        + column(8, [table.index(role) for _, _, role in entity.members])
        + delta_column(9, [number for _, number, _ in entity.members])
        + column(10, [kind for kind, _, _ in entity.members])
    )


def block(form: Form, **groups: list) -> bytes:
    """A PrimitiveBlock with a group for each list that is given, and a sorted table of texts."""
    entities = [entity for group in groups.values() for entity in group]
    table = ["", *sorted({text for entity in entities for text in entity.texts()} - {""})]
    messages = {
        "dense": lambda nodes: nested(2, dense_nodes(nodes, form, table)),
        "nodes": lambda nodes: b"".join(nested(1, plain_node(node, form, table)) for node in nodes),
        "ways": lambda ways: b"".join(nested(3, way(entity, form, table)) for entity in ways),
        "relations": lambda those: b"".join(nested(4, relation(entity, form, table)) for entity in those),
    }
    return (
        nested(1, b"".join(nested(1, text.encode()) for text in table))
        + b"".join(nested(2, messages[name](group)) for name, group in groups.items())
        + scalar(17, form.granularity)
        + scalar(18, form.date_granularity)
        + scalar(19, form.lat_offset)
        + scalar(20, form.lon_offset)
    )


# ---- the header and the frames


def header_block() -> bytes:
    edges = {1: 9_970_000_000, 2: 10_030_000_000, 3: 50_020_000_000, 4: 49_980_000_000}
    return (
        nested(1, b"".join(scalar(number, zigzag(edge)) for number, edge in edges.items()))
        + nested(4, b"OsmSchema-V0.6")
        + nested(4, b"DenseNodes")
        + nested(5, b"Has_Metadata")
        + nested(5, b"Sort.Type_then_ID")
        + nested(16, b"town.py")
        + nested(17, "Musterbrück is made up".encode())
        + scalar(32, 1_700_000_000)
        + scalar(33, 42)
        + nested(34, b"https://example.org/town/updates")
    )


def frame(kind: str, payload: bytes) -> bytes:
    blob = nested(1, payload) + scalar(2, len(payload))
    header = nested(1, kind.encode()) + scalar(3, len(blob))
    return len(header).to_bytes(4, "big") + header + blob


# ---- the town

NODE, WAY, RELATION = 0, 1, 2
ROWS = [-3000, -1500, 0, 1500, 3000]
COLUMNS = [-6000, -4000, -2000, 0, 2000, 4000, 6000]
ROW_NAMES = ["Mühlgasse", "Uferstraße", "Marktstraße", "Bäckergasse", "Rue de l'Étang"]
COLUMN_NAMES = [
    "Ulica Łąkowa", "Kőris utca", "Çınar Sokağı", "Großer Weg", "Žižkova", "Садовая улица", "Οδός Ελιάς",
]
# Cells of the street grid (row and column of their south-west corner) in which no houses stand.
MARKET, PARK, TOWN_HALL = (2, 3), (3, 2), (2, 2)


class Town:
    """The entities so far; ids are handed out in order, so they are sorted."""

    def __init__(self):
        self.nodes, self.ways, self.relations = [], [], []

    def node(self, north: int, east: int, **tags: str) -> int:
        self.nodes.append(Entity(1001 + len(self.nodes), spelled(tags), place=(north, east)))
        return self.nodes[-1].id

    def way(self, refs: list, **tags: str) -> int:
        self.ways.append(Entity(501 + len(self.ways), spelled(tags), refs=refs))
        return self.ways[-1].id

    def relation(self, members: list, **tags: str) -> int:
        self.relations.append(Entity(101 + len(self.relations), spelled(tags), members=members))
        return self.relations[-1].id

    def line(self, places: list, **tags: str) -> tuple:
        """A way and its new nodes."""
        refs = [self.node(*place) for place in places]
        return self.way(refs, **tags), refs

    def ring(self, south: int, west: int, height: int, width: int, **tags: str) -> int:
        """A closed way with four new nodes."""
        corners = [(south, west), (south, west + width), (south + height, west + width), (south + height, west)]
        refs = [self.node(*corner) for corner in corners]
        return self.way([*refs, refs[0]], **tags)


def spelled(tags: dict) -> dict:
    """`name__ru` is the key `name:ru`."""
    return {key.replace("__", ":"): value for key, value in tags.items()}


def streets(town: Town) -> tuple:
    """Five streets from west to east and seven from south to north, and the nodes where they cross."""
    crossing = {(row, column): town.node(north, east)
                for row, north in enumerate(ROWS) for column, east in enumerate(COLUMNS)}
    across = [
        town.way([crossing[row, column] for column in range(len(COLUMNS))], highway="residential", name=name)
        for row, name in enumerate(ROW_NAMES)]
    along = [
        town.way([crossing[row, column] for row in range(len(ROWS))], highway="tertiary", name=name)
        for column, name in enumerate(COLUMN_NAMES)]
    return crossing, across, along


def houses(town: Town) -> dict[tuple, list]:
    """Two houses in each cell of the grid that is not taken; the ways by cell."""
    built = {}
    for row in range(len(ROWS) - 1):
        for column in range(len(COLUMNS) - 1):
            if (row, column) in (MARKET, PARK, TOWN_HALL):
                continue
            south, west = ROWS[row] + 300, COLUMNS[column]
            built[row, column] = [
                town.ring(south, west + shift, 400, 450, building="house", addr__street=ROW_NAMES[row],
                          addr__housenumber=str(4 * column + number))
                for number, shift in ((1, 300), (3, 1200))]
    return built


def places_of_interest(town: Town) -> dict:
    """Single nodes with names in several scripts."""
    for east in range(-1700, 0, 300):
        town.node(2700, east, natural="tree", genus="Tilia")
    town.node(400, 900, amenity="cafe", name="Кафе «Ёлка»", name__de="Café Tännchen")
    town.node(500, 1500, amenity="restaurant", cuisine="greek", name="Ταβέρνα ο Πλάτανος")
    town.node(1200, 1700, shop="bakery", name="مخبز النور", name__en="Al-Nour Bakery")
    town.node(1000, 2600, amenity="restaurant", cuisine="chinese", name="兰州拉面", name__zh_pinyin="Lánzhōu lāmiàn")
    town.node(-2000, 4700, amenity="restaurant", cuisine="sushi", name="すし さくら")
    town.node(4800, -7000, historic="castle", name='Burg "Über\\Eck"')
    names = {"name": "Musterbrück", "name:ru": "Мустербрюк", "name:el": "Μούστερμπρυκ", "name:ar": "موستربروك",
             "name:zh": "穆斯特布吕克", "name:ja": "ムスターブリュック"}
    middle = town.node(700, 1000, place="town", population="4321", **names)
    stops = ((-5000, "Łąka"), (-1000, "Rathaus"), (1000, "Markt"), (5000, "Ελιά"))
    far_stops = ((2000, "Ost 1"), (-2000, "Ost 2"))
    return {
        "town": middle,
        "stops": [town.node(20, east, highway="bus_stop", name=name) for east, name in stops],
        "far stops": [town.node(north, 6020, highway="bus_stop", name=name) for north, name in far_stops],
    }


def land(town: Town) -> dict:
    """What is no street and no house."""
    river, bank = town.line(
        [(-900 - abs(east) // 8 + east % 7000 // 20, east) for east in range(-24000, 24001, 3000)],
        waterway="river", name="Muster", name__sr="Мустер")
    # The border: two ways that meet in their ends.
    limit = {"boundary": "administrative", "admin_level": "8"}
    west, ends = town.line([(-9000, -9000), (0, -9500), (9000, -9000), (9000, 0)], **limit)
    east = town.way([ends[-1], town.node(9000, 9500), town.node(-9000, 9000), ends[0]], **limit)
    # From hill to hill, with no pylon in the old town.
    town.line([(-4200, -7600), (4700, 6900)], aerialway="cable_car", name="Seilbahn Übersee")
    bypass, _ = town.line(
        [(-8000, -24000), (-7000, -8000), (-6500, 0), (-7000, 8000), (-8000, 24000)], highway="trunk", ref="B 999")
    path, _ = town.line([(6000, -8000), (6600, -7000), (7500, -7400), (8200, -6000)], highway="path", name="Stezka")
    return {
        "river": river, "gauge": bank[-2], "border": [west, east], "bypass": bypass, "path": path,
        "park": town.ring(1700, -1800, 1100, 1600), "pond": town.ring(2000, -1500, 400, 500),
        "hall": town.ring(300, -1600, 900, 1200), "court": town.ring(550, -1300, 400, 500),
    }


def areas_and_rules(town: Town, across: list, along: list, crossing: dict, nodes: dict, land: dict):
    town.relation([(WAY, land["park"], "outer"), (WAY, land["pond"], "inner")],
                  type="multipolygon", leisure="park", name="Park Źródło")
    town.relation([(WAY, land["hall"], "outer"), (WAY, land["court"], "inner")],
                  type="multipolygon", building="public", amenity="townhall", name="Rathaus")
    border = [(WAY, line, "outer") for line in land["border"]]
    town.relation([*border, (NODE, nodes["town"], "admin_centre")],
                  type="boundary", boundary="administrative", admin_level="8", name="Musterbrück")
    town.relation([(WAY, across[3], "from"), (NODE, crossing[3, 4], "via"), (WAY, along[4], "to")],
                  type="restriction", restriction="no_left_turn")
    town.relation([(WAY, land["river"], "main_stream")], type="waterway", name="Muster")


def bus_lines(town: Town, across: list, along: list, nodes: dict):
    """Two lines, a relation above them, and one above that."""
    near = [(NODE, stop, "stop") for stop in nodes["stops"]]
    first = town.relation([*near, (WAY, across[2], ""), (WAY, along[0], "")],
                          type="route", route="bus", ref="1", name="Bus 1: Łąka → Ελιά")
    far = [(NODE, stop, "stop") for stop in nodes["far stops"]]
    second = town.relation([*far, (WAY, along[6], ""), (WAY, across[0], "")],
                           type="route", route="bus", ref="2", name="Bus 2: Ost")
    lines = town.relation([(RELATION, first, ""), (RELATION, second, "")],
                          type="route_master", route_master="bus", name="Stadtbus")
    town.relation([(RELATION, lines, "")], type="network", network="bus", name="Réseau Muster")


def outskirts(town: Town, built: dict, land: dict):
    town.relation([(NODE, land["gauge"], "gauge")], type="site", site="water_gauge", name="Pegel Unterlauf")
    town.relation([(WAY, house, "house") for house in built[0, 5]], type="site", name="Siedlung Süd")
    walk = town.relation([(WAY, land["path"], "")], type="route", route="hiking", name="Stezka")
    town.relation([(RELATION, walk, ""), (WAY, land["bypass"], "access")], type="superroute", name="Fernweg")


def build() -> Town:
    town = Town()
    crossing, across, along = streets(town)
    built = houses(town)
    nodes = places_of_interest(town)
    around = land(town)
    areas_and_rules(town, across, along, crossing, nodes, around)
    bus_lines(town, across, along, nodes)
    outskirts(town, built, around)
    return town


def file_of(town: Town) -> bytes:
    """Blocks of several forms, so that they are unlike those that pbfcut writes."""
    fine = Form()
    near = Form(granularity=1000, date_granularity=60_000, lat_offset=50_000_000_000, lon_offset=10_000_000_000)
    *dense, last = [town.nodes[start:start + 64] for start in range(0, len(town.nodes), 64)]
    half = len(town.ways) // 2
    payloads = [block(fine if number % 2 else near, dense=nodes) for number, nodes in enumerate(dense)]
    payloads.append(block(fine, nodes=last))
    payloads.append(block(fine, ways=town.ways[:half]))
    payloads.append(block(near, ways=town.ways[half:], relations=town.relations))
    return frame("OSMHeader", header_block()) + b"".join(frame("OSMData", payload) for payload in payloads)


def main():
    if len(sys.argv) != 2:
        sys.exit(__doc__)
    with open(sys.argv[1], "wb") as out:
        out.write(file_of(build()))


if __name__ == "__main__":
    main()
