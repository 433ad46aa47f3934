"""The reference: the entities of messages without faults."""

from dataclasses import dataclass, field
from typing import Optional

from reference_wire import DENSE_NODES, NODE, WAY, Message


@dataclass(frozen=True)
class Scale:
    granularity: int = 100
    date_granularity: int = 1000
    lat_offset: int = 0
    lon_offset: int = 0


DEFAULT_SCALE = Scale()


@dataclass(frozen=True)
class Meta:
    version: Optional[int] = None
    timestamp: Optional[int] = None
    changeset: Optional[int] = None
    uid: Optional[int] = None
    user: Optional[bytes] = None
    visible: Optional[bool] = None

    def present(self) -> tuple:
        """Which of the six fields there are."""
        return tuple(getattr(self, name) is not None for name in META_FIELDS)


META_FIELDS = ("version", "timestamp", "changeset", "uid", "user", "visible")


@dataclass(frozen=True)
class Entity:
    """An entity with its stored numbers, and the scale of its block."""
    kind: str                               # "N", "W" or "R"
    id: int
    meta: Meta
    tags: tuple                             # pairs of bytes
    scale: Scale
    lat: int = 0                            # nodes, stored
    lon: int = 0
    refs: tuple = ()                        # ways
    locations: tuple = ()                   # ways: pairs of stored latitude and longitude
    members: tuple = ()                     # relations: ("n"|"w"|"r", id, role)

    def nano_lat(self) -> int:
        return self.scale.lat_offset + self.scale.granularity * self.lat

    def nano_lon(self) -> int:
        return self.scale.lon_offset + self.scale.granularity * self.lon

    def nano_locations(self) -> list:
        s = self.scale
        return [(s.lat_offset + s.granularity * lat, s.lon_offset + s.granularity * lon)
                for lat, lon in self.locations]

    def millis(self) -> Optional[int]:
        t = self.meta.timestamp
        return None if t is None else t * self.scale.date_granularity


def weight(e: Entity) -> int:
    """What an entity counts towards the limit of a block."""
    total = 160 + 32 * (len(e.tags) + len(e.refs) + len(e.members) + len(e.locations))
    total += sum(len(key) + len(value) for key, value in e.tags)
    total += sum(len(role) for _, _, role in e.members)
    return total + (len(e.meta.user) if e.meta.user is not None else 0)


def decode_message(m: Message, texts: list, scale: Scale) -> list:
    """The entities of one `nodes`, `dense`, `ways` or `relations` occurrence without faults."""
    if m.schema is DENSE_NODES:
        return decode_dense(m, texts, scale)
    info = m.children_of("info")
    meta = Meta()
    if info:
        user = info[0].last_number("user_sid")
        visible = info[0].last_number("visible")
        meta = Meta(*(info[0].last_number(name) for name in ("version", "timestamp", "changeset", "uid")),
                    None if user is None else texts[user], visible)
    tags = tuple((texts[k], texts[v]) for k, v in zip(m.values("keys"), m.values("vals")))
    common = dict(id=m.last_number("id"), meta=meta, tags=tags, scale=scale)
    if m.schema is NODE:
        return [Entity("N", lat=m.last_number("lat"), lon=m.last_number("lon"), **common)]
    if m.schema is WAY:
        locations = tuple(zip(m.values("lat"), m.values("lon")))
        return [Entity("W", refs=tuple(m.values("refs")), locations=locations, **common)]
    members = tuple(("nwr"[kind], member, texts[role]) for kind, member, role in
                    zip(m.values("types"), m.values("memids"), m.values("roles_sid")))
    return [Entity("R", members=members, **common)]


def decode_dense(m: Message, texts: list, scale: Scale) -> list:
    ids, lats, lons = m.values("id"), m.values("lat"), m.values("lon")
    runs = runs_of(m.values("keys_vals"), len(ids))
    infos = m.children_of("denseinfo")

    def info_column(name):
        """The column's values, or one None for each node."""
        values = infos[0].values(name) if infos else []
        return values if values else [None] * len(ids)

    versions, times, changesets, uids, users, visibles = (
        info_column(name) for name in ("version", "timestamp", "changeset", "uid", "user_sid", "visible"))
    nodes = []
    for i, node_id in enumerate(ids):
        user = None if users[i] is None else texts[users[i]]
        meta = Meta(versions[i], times[i], changesets[i], uids[i], user, visibles[i])
        tags = tuple((texts[k], texts[v]) for k, v in runs[i])
        nodes.append(Entity("N", node_id, meta, tags, scale, lat=lats[i], lon=lons[i]))
    return nodes


def decode_block(block: Message) -> list:
    """The entities of a PrimitiveBlock without faults."""
    texts = block.children_of("stringtable")[0].each_bytes("s")
    scale = Scale(block.last_number("granularity", 100), block.last_number("date_granularity", 1000),
                  block.last_number("lat_offset", 0), block.last_number("lon_offset", 0))
    return [entity for group in block.children_of("primitivegroup")
            for m in group.children_of("nodes", "dense", "ways", "relations")
            for entity in decode_message(m, texts, scale)]


@dataclass
class Header:
    bbox: Optional[tuple] = None            # left, right, top, bottom
    required: list = field(default_factory=list)
    optional: list = field(default_factory=list)
    program: Optional[bytes] = None
    source: Optional[bytes] = None
    timestamp: Optional[int] = None
    sequence: Optional[int] = None
    url: Optional[bytes] = None


def decode_header(block: Message) -> Header:
    boxes = block.children_of("bbox")
    bbox = tuple(boxes[0].last_number(n) for n in ("left", "right", "top", "bottom")) if boxes else None
    return Header(bbox, block.each_bytes("required_features"), block.each_bytes("optional_features"),
                  block.last_bytes("writingprogram"), block.last_bytes("source"),
                  block.last_number("osmosis_replication_timestamp"),
                  block.last_number("osmosis_replication_sequence_number"),
                  block.last_bytes("osmosis_replication_base_url"))


def runs_of(keys_vals: list, count: int) -> Optional[list]:
    """The tags of each of `count` dense nodes as pairs of indices, or None if the column isn't of the form. An empty column gives no
    node a tag."""
    if not keys_vals:
        return [[] for _ in range(count)]
    runs, i = [], 0
    while i < len(keys_vals) and len(runs) < count:
        run = []
        while True:
            if i >= len(keys_vals):
                return None                 # the run has no 0
            if keys_vals[i] == 0:
                i += 1
                break
            if i + 1 >= len(keys_vals):
                return None                 # a key without a value
            run.append((keys_vals[i], keys_vals[i + 1]))
            i += 2
        runs.append(run)
    return runs if i == len(keys_vals) and len(runs) == count else None
