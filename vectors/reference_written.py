"""The reference: the selection of an extract, and the bytes that are written."""

from dataclasses import dataclass
from typing import Optional

from reference_entities import Entity, Header, weight
from reference_wire import BLOCK_LIMIT, KNOWN_FEATURES, WEIGHT_LIMIT, write_varint, zigzag


@dataclass(frozen=True)
class Box:
    left: int
    bottom: int
    right: int
    top: int

    def contains(self, lat: int, lon: int) -> bool:
        return self.left <= lon <= self.right and self.bottom <= lat <= self.top


def first_type(relation: Entity) -> Optional[bytes]:
    return next((value for key, value in relation.tags if key == b"type"), None)


def extract(entities: list, box: Box, parents: bool = False, types: Optional[str] = None) -> list:
    """The complete-ways extract, with all parents or without, or with the members of relations of these types."""
    nodes = [e for e in entities if e.kind == "N"]
    ways = [e for e in entities if e.kind == "W"]
    relations = [e for e in entities if e.kind == "R"]

    box_ids = {e.id for e in nodes if box.contains(e.nano_lat(), e.nano_lon())}
    kept_ways = [way for way in ways if any(ref in box_ids for ref in way.refs)]
    node_ids = box_ids | {ref for way in kept_ways for ref in way.refs}
    way_ids = {way.id for way in kept_ways}
    relation_ids = set()                    # stays empty without `parents`

    def relation_kept(relation, of_relations=True):
        return any(kind == "n" and member in node_ids or kind == "w" and member in way_ids
                   or of_relations and kind == "r" and member in relation_ids for kind, member, _ in relation.members)

    if parents or types is not None:        # the least set: from nothing, until nothing is added
        while True:
            grown = {r.id for r in relations if relation_kept(r)}
            if grown == relation_ids:
                break
            relation_ids = grown

    # what is added selects nothing
    wanted = [] if types is None else [r for r in relations if types == "any" or first_type(r) in types.encode().split(b",")]
    completed = [r for r in wanted if relation_kept(r, of_relations=False)]
    added_ways = {member for r in completed for kind, member, _ in r.members if kind == "w"}
    added_nodes = {member for r in completed for kind, member, _ in r.members if kind == "n"}
    added_nodes |= {ref for way in ways if way.id in added_ways for ref in way.refs}

    def kept(e):
        if e.kind == "N":
            return e.id in node_ids or e.id in added_nodes
        if e.kind == "W":
            return e.id in added_ways or any(ref in box_ids for ref in e.refs)
        return relation_kept(e)

    return [e for e in entities if kept(e)]


# ---- written form


def put_number(n: int, v: int) -> bytes:
    """A singular number, v the varint's 64 bits (or a negative number, sign-extended)."""
    return write_varint(n * 8) + write_varint(v % 2**64)


def put_bytes(n: int, data: bytes) -> bytes:
    return write_varint(n * 8 + 2) + write_varint(len(data)) + data


def put_column(n: int, numbers: list) -> bytes:
    """A packed column in one occurrence, left out when empty."""
    return put_bytes(n, b"".join(write_varint(v % 2**64) for v in numbers)) if numbers else b""


def put_delta(n: int, values: list) -> bytes:
    return put_column(n, [zigzag(value - before) for value, before in zip(values, [0] + list(values))])


def put_frame(kind: bytes, payload: bytes) -> bytes:
    blob = put_bytes(1, payload)
    header = put_bytes(1, kind) + put_number(3, len(blob))
    return len(header).to_bytes(4, "big") + header + blob


def header_out(h: Header, box: Optional[Box]) -> Header:
    """The header of an extract, or for a box of None of a converted file."""
    bbox = h.bbox if box is None else (box.left, box.right, box.top, box.bottom)
    named = (b"Has_Metadata", b"Sort.Type_then_ID", b"LocationsOnWays")
    optional = [name for name in named if name in h.optional]
    return Header(bbox, list(KNOWN_FEATURES), optional, b"pbfcut", h.source, h.timestamp, h.sequence, h.url)


def write_header(h: Header) -> bytes:
    out = b""
    if h.bbox is not None:
        out += put_bytes(1, b"".join(put_number(n, zigzag(v)) for n, v in enumerate(h.bbox, 1)))
    out += b"".join(put_bytes(4, name) for name in h.required)
    out += b"".join(put_bytes(5, name) for name in h.optional)
    for n, value in ((16, h.program), (17, h.source)):
        out += put_bytes(n, value) if value is not None else b""
    for n, value in ((32, h.timestamp), (33, h.sequence)):
        out += put_number(n, value) if value is not None else b""
    return out + (put_bytes(34, h.url) if h.url is not None else b"")


def cuts(entities: list) -> list:
    """The entities block by block."""
    blocks, open_block, open_weight = [], [], 0
    for e in entities:
        like = open_block and (
            open_block[0].kind == e.kind and open_block[0].scale == e.scale
            and (e.kind != "N" or open_block[0].meta.present() == e.meta.present()))
        if not like or len(open_block) == BLOCK_LIMIT or open_weight + weight(e) > WEIGHT_LIMIT:
            open_block, open_weight = [], 0
            blocks.append(open_block)
        open_block.append(e)
        open_weight += weight(e)
    return blocks


class TextIndex:
    """The table of a written block: entry 0 is the empty text, never given; then texts by first use."""

    def __init__(self, entities: list):
        self.index = {}
        for e in entities:
            for key, value in e.tags:
                self.use(key)
                self.use(value)
            if e.meta.user is not None:
                self.use(e.meta.user)
            for _, _, role in e.members:
                self.use(role)

    def use(self, words: bytes):
        self.index.setdefault(words, len(self.index) + 1)

    def of(self, words: bytes) -> int:
        return self.index[words]

    def write(self) -> bytes:
        return put_bytes(1, b"") + b"".join(put_bytes(1, words) for words in self.index)


def write_group(entities: list, texts: TextIndex) -> bytes:
    """The PrimitiveGroup of entities of one kind."""
    if entities[0].kind == "N":
        return put_bytes(2, write_dense(entities, texts))
    if entities[0].kind == "W":
        return b"".join(put_bytes(3, write_way(e, texts)) for e in entities)
    return b"".join(put_bytes(4, write_relation(e, texts)) for e in entities)


def write_block(entities: list) -> bytes:
    """The PrimitiveBlock of one block of entities."""
    texts = TextIndex(entities)
    scale = entities[0].scale
    out = put_bytes(1, texts.write()) + put_bytes(2, write_group(entities, texts))
    for n, value, default in ((17, scale.granularity, 100), (18, scale.date_granularity, 1000),
                              (19, scale.lat_offset, 0), (20, scale.lon_offset, 0)):
        out += put_number(n, value) if value != default else b""
    return out


def write_dense(nodes: list, texts: TextIndex) -> bytes:
    def info_values(name):
        """A metadata field of all nodes; empty where the (common) set of present fields lacks it."""
        values = [getattr(e.meta, name) for e in nodes]
        return [] if values[0] is None else values

    info = (put_column(1, info_values("version")) + put_delta(2, info_values("timestamp"))
            + put_delta(3, info_values("changeset")) + put_delta(4, info_values("uid"))
            + put_delta(5, [texts.of(user) for user in info_values("user")])
            + put_column(6, [int(v) for v in info_values("visible")]))
    out = put_delta(1, [e.id for e in nodes])
    out += put_bytes(5, info) if any(nodes[0].meta.present()) else b""
    out += put_delta(8, [e.lat for e in nodes]) + put_delta(9, [e.lon for e in nodes])
    if any(e.tags for e in nodes):
        numbers = []
        for e in nodes:
            for key, value in e.tags:
                numbers += [texts.of(key), texts.of(value)]
            numbers.append(0)
        out += put_column(10, numbers)
    return out


def write_tags_and_info(e: Entity, texts: TextIndex) -> bytes:
    """Fields 2 to 4 of a way or relation."""
    m = e.meta
    info = b""
    for n, value in ((1, m.version), (2, m.timestamp), (3, m.changeset), (4, m.uid),
                     (5, None if m.user is None else texts.of(m.user)),
                     (6, None if m.visible is None else int(m.visible))):
        info += put_number(n, value) if value is not None else b""
    out = put_column(2, [texts.of(key) for key, _ in e.tags])
    out += put_column(3, [texts.of(value) for _, value in e.tags])
    return out + (put_bytes(4, info) if any(m.present()) else b"")


def write_way(e: Entity, texts: TextIndex) -> bytes:
    return (put_number(1, e.id) + write_tags_and_info(e, texts) + put_delta(8, e.refs)
            + put_delta(9, [lat for lat, _ in e.locations]) + put_delta(10, [lon for _, lon in e.locations]))


def write_relation(e: Entity, texts: TextIndex) -> bytes:
    return (put_number(1, e.id) + write_tags_and_info(e, texts)
            + put_column(8, [texts.of(role) for _, _, role in e.members])
            + put_delta(9, [member for _, member, _ in e.members])
            + put_column(10, ["nwr".index(kind) for kind, _, _ in e.members]))


def write_file(h: Header, entities: list) -> bytes:
    return put_frame(b"OSMHeader", write_header(h)) + b"".join(
        put_frame(b"OSMData", write_block(block)) for block in cuts(entities))
