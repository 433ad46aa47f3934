"""The reference: numbers, fields and messages, as docs/FORMAT.md has them.

It works on whole lists, with nothing clever, so that a rule and the function that restates it can be read side by side. It shares no
code with pbfcut.
"""

from dataclasses import dataclass
from typing import Optional

FILE_LIMIT = 2**62
HEADER_LIMIT = 65_536            # a BlobHeader is below this
DATASIZE_LIMIT = 33_555_455      # datasize is at most this
RAW_LIMIT = 33_554_432           # a raw payload is below this
TEXTS_LIMIT = 1_048_576          # string table entries, at most
NUMBER_LIMIT = 2**62             # ids, refs, coordinates, times: strictly between - and + this
UID_LIMIT = 2**30
WEIGHT_LIMIT = 12_000_000        # of an entity, and of a written block
BLOCK_LIMIT = 8_000              # entities of a written block
KNOWN_FEATURES = (b"OsmSchema-V0.6", b"DenseNodes")
KEPT_LIMIT = 12_000_000          # source and base URL together


# ---- Reasons and faults


REASON_NAMES = {
    1: "VarintCut", 2: "VarintLong", 3: "NumberZero", 4: "TagLarge", 5: "Group", 6: "WireType",
    7: "LengthPast", 8: "FixedCut", 9: "WrongType",
    10: "PrefixCut", 11: "HeaderLong", 12: "HeaderCut", 13: "BlobCut", 14: "DataSize", 15: "NoRaw",
    16: "RawLong", 17: "Zlib", 18: "Lzma", 19: "Bzip2", 20: "Lz4", 21: "Zstd",
    22: "NoHeader", 23: "SecondHeader", 24: "DataFirst", 25: "Missing", 26: "FileLong",
    30: "TooManyStrings", 31: "StringIndex",
    40: "ColumnLengths", 41: "KeysVals", 42: "OutOfRange", 43: "EntityLarge",
    50: "TwiceMessage", 51: "MixedGroup", 52: "Changesets", 53: "Granularity", 54: "DateGranularity",
    55: "Feature", 56: "LocationsOnWays", 57: "TagColumns", 58: "MemberColumns", 59: "MemberKind",
    60: "LocationColumns",
}
REASON = {name: number for number, name in REASON_NAMES.items()}


@dataclass(frozen=True, order=True)
class Fault:
    """Ordered by phase, offset, reason and field number. `missing` is the field number of Missing, and 0 for every other reason."""
    phase: int
    offset: int
    reason: int
    missing: int = 0

    def name(self) -> str:
        name = REASON_NAMES[self.reason]
        return f"{name}({self.missing})" if self.reason == REASON["Missing"] else name

    def text(self) -> str:
        """As pbfcut prints it: `19: 55 Feature`."""
        return f"{self.offset}: {self.reason} {self.name()}"


class WireError(Exception):
    """A varint, field or column that can't be read; carries the reason alone."""

    def __init__(self, name: str):
        super().__init__(name)
        self.reason = REASON[name]


# ---- varints and numbers


def read_varint(m: bytes, at: int) -> tuple:
    """The number that is spelled at `m[at:]`, and the index after it."""
    value = 0
    for k in range(10):
        if at + k >= len(m):
            raise WireError("VarintCut")
        byte = m[at + k]
        if k == 9 and byte > 1:
            raise WireError("VarintLong")
        value += (byte % 128) << (7 * k)
        if byte < 128:
            return value, at + k + 1
    raise AssertionError("a tenth byte of at most 1 ends the varint")


def write_varint(v: int) -> bytes:
    """The shortest spelling of v."""
    assert 0 <= v < 2**64
    out = bytearray()
    while v >= 128:
        out.append(128 + v % 128)
        v //= 128
    out.append(v)
    return bytes(out)


def zigzag(n: int) -> int:
    return 2 * n if n >= 0 else -2 * n - 1


def unzigzag(v: int) -> int:
    return v // 2 if v % 2 == 0 else -(v + 1) // 2


def signed(v: int, bits: int) -> int:
    """The low bits of v in two's complement."""
    v %= 2**bits
    return v - 2**bits if v >= 2**(bits - 1) else v


# How a varint's 64 bits are read, by the type of the field.
READ = {
    "int32": lambda v: signed(v, 32),
    "uint32": lambda v: v % 2**32,
    "enum": lambda v: signed(v, 32),
    "sint32": lambda v: unzigzag(v % 2**32),
    "int64": lambda v: signed(v, 64),
    "sint64": unzigzag,
    "bool": lambda v: v != 0,
}


# ---- occurrences


@dataclass
class Occurrence:
    """One field occurrence. `place` is the file offset of its tag's first byte."""
    place: int
    number: int
    wire: int                               # the wire type
    value: int = 0                          # type 0: the number
    data: bytes = b""                       # types 1, 2, 5: the bytes
    data_at: int = 0                        # the file offset of the first byte of `data`
    entries: tuple = ()                     # of a column: its numbers, unread


def read_occurrence(m: bytes, at: int, i: int) -> tuple:
    """The occurrence that begins at `m[i]`, and the index after it; of several faults the one with the least number counts."""
    place = at + i
    tag, i = read_varint(m, i)
    if tag > 2**32 - 1:
        raise WireError("TagLarge")
    number, wire = tag // 8, tag % 8
    if number == 0:
        raise WireError("NumberZero")
    if wire in (3, 4):
        raise WireError("Group")
    if wire in (6, 7):
        raise WireError("WireType")
    if wire == 0:
        value, i = read_varint(m, i)
        return Occurrence(place, number, wire, value=value), i
    if wire == 2:
        length, i = read_varint(m, i)
        if length > len(m) - i:
            raise WireError("LengthPast")
    else:
        length = 8 if wire == 1 else 4
        if length > len(m) - i:
            raise WireError("FixedCut")
    return Occurrence(place, number, wire, data=m[i:i + length], data_at=at + i), i + length


def read_packed(data: bytes) -> tuple:
    """The numbers of one packed payload: whole varints by itself."""
    entries, i = [], 0
    while i < len(data):
        v, i = read_varint(data, i)
        entries.append(v)
    return tuple(entries)


def read_occurrences(m: bytes, at: int, kinds: dict) -> tuple:
    """The occurrences before the first wire fault, and that fault as (place, reason) or None. `kinds` maps field numbers to "Number",
    "Column" or "Bytes"; a number that isn't there is unknown, and every wire type is fine for it."""
    found, i = [], 0
    while i < len(m):
        place = at + i
        try:
            occurrence, i = read_occurrence(m, at, i)
            kind = kinds.get(occurrence.number)
            allowed = {"Number": (0,), "Column": (0, 2), "Bytes": (2,), None: (0, 1, 2, 5)}[kind]
            if occurrence.wire not in allowed:
                raise WireError("WrongType")
            if kind == "Column":
                packed = occurrence.wire == 2
                occurrence.entries = read_packed(occurrence.data) if packed else (occurrence.value,)
        except WireError as error:
            return found, (place, error.reason)
        found.append(occurrence)
    return found, None


# ---- the tables of fields


@dataclass
class Field:
    name: str
    kind: str                               # "Number", "Column" or "Bytes", as judge_wire has them
    type: str = ""                          # of numbers and columns, a key of READ
    delta: bool = False
    required: bool = False
    once: bool = False                      # a second occurrence is TwiceMessage
    child: Optional["Schema"] = None        # of an embedded message


class Schema:
    def __init__(self, name: str, fields: dict):
        self.name = name
        self.fields = fields
        self.kinds = {number: f.kind for number, f in fields.items()}
        self.number_of = {f.name: number for number, f in fields.items()}


def number(name, type, required=False):
    return Field(name, "Number", type, required=required)


def column(name, type):
    return Field(name, "Column", type)


def delta(name, type):
    return Field(name, "Column", type, delta=True)


def text(name, required=False):
    return Field(name, "Bytes", required=required)


def message(name, child, required=False, once=False):
    return Field(name, "Bytes", required=required, once=once, child=child)


BLOB_HEADER = Schema("BlobHeader", {
    1: text("type", required=True), 2: text("indexdata"), 3: number("datasize", "int32", required=True)})
BLOB = Schema("Blob", {
    1: text("raw"), 2: number("raw_size", "int32"), 3: text("zlib_data"), 4: text("lzma_data"),
    5: text("OBSOLETE_bzip2_data"), 6: text("lz4_data"), 7: text("zstd_data")})

HEADER_BBOX = Schema("HeaderBBox", {
    1: number("left", "sint64", required=True), 2: number("right", "sint64", required=True),
    3: number("top", "sint64", required=True), 4: number("bottom", "sint64", required=True)})
HEADER_BLOCK = Schema("HeaderBlock", {
    1: message("bbox", HEADER_BBOX, once=True), 4: text("required_features"), 5: text("optional_features"),
    16: text("writingprogram"), 17: text("source"), 32: number("osmosis_replication_timestamp", "int64"),
    33: number("osmosis_replication_sequence_number", "int64"), 34: text("osmosis_replication_base_url")})

STRING_TABLE = Schema("StringTable", {1: text("s")})
INFO = Schema("Info", {
    1: number("version", "int32"), 2: number("timestamp", "int64"), 3: number("changeset", "int64"),
    4: number("uid", "int32"), 5: number("user_sid", "uint32"), 6: number("visible", "bool")})
NODE = Schema("Node", {
    1: number("id", "sint64", required=True), 2: column("keys", "uint32"), 3: column("vals", "uint32"),
    4: message("info", INFO, once=True), 8: number("lat", "sint64", required=True),
    9: number("lon", "sint64", required=True)})
DENSE_INFO = Schema("DenseInfo", {
    1: column("version", "int32"), 2: delta("timestamp", "sint64"), 3: delta("changeset", "sint64"),
    4: delta("uid", "sint32"), 5: delta("user_sid", "sint32"), 6: column("visible", "bool")})
DENSE_NODES = Schema("DenseNodes", {
    1: delta("id", "sint64"), 5: message("denseinfo", DENSE_INFO, once=True), 8: delta("lat", "sint64"),
    9: delta("lon", "sint64"), 10: column("keys_vals", "int32")})
WAY = Schema("Way", {
    1: number("id", "int64", required=True), 2: column("keys", "uint32"), 3: column("vals", "uint32"),
    4: message("info", INFO, once=True), 8: delta("refs", "sint64"), 9: delta("lat", "sint64"),
    10: delta("lon", "sint64")})
RELATION = Schema("Relation", {
    1: number("id", "int64", required=True), 2: column("keys", "uint32"), 3: column("vals", "uint32"),
    4: message("info", INFO, once=True), 8: column("roles_sid", "int32"), 9: delta("memids", "sint64"),
    10: column("types", "enum")})
PRIMITIVE_GROUP = Schema("PrimitiveGroup", {
    1: message("nodes", NODE), 2: message("dense", DENSE_NODES, once=True), 3: message("ways", WAY),
    4: message("relations", RELATION), 5: text("changesets")})    # changesets aren't entered: no child
PRIMITIVE_BLOCK = Schema("PrimitiveBlock", {
    1: message("stringtable", STRING_TABLE, required=True, once=True),
    2: message("primitivegroup", PRIMITIVE_GROUP), 17: number("granularity", "int32"),
    18: number("date_granularity", "int32"), 19: number("lat_offset", "int64"),
    20: number("lon_offset", "int64")})

ENTITY_SCHEMAS = (NODE, WAY, RELATION)


# ---- Messages read by a schema


class Message:
    """A message with its occurrences before its first wire fault, and its embedded messages. `faults` holds this message's own
    faults, those of embedded messages not included."""

    def __init__(self, schema: Schema, m: bytes, at: int, place: int):
        self.schema = schema
        self.at = at                        # the file offset of the message's first byte
        self.place = place                  # its occurrence's place, or `at` of an outermost message
        self.occurrences, self.wire_fault = read_occurrences(m, at, schema.kinds)
        self.children = []                  # (field name, Message), in order
        for o in self.occurrences:
            known = schema.fields.get(o.number)
            if known and known.child:
                self.children.append((known.name, Message(known.child, o.data, o.data_at, o.place)))
        self.faults = set()

    def all_of(self, name: str) -> list:
        """The occurrences of one field."""
        wanted = self.schema.number_of[name]
        return [o for o in self.occurrences if o.number == wanted]

    def last(self, name: str) -> Optional[Occurrence]:
        found = self.all_of(name)
        return found[-1] if found else None

    def last_number(self, name: str, default=None):
        o = self.last(name)
        return default if o is None else READ[self.schema.fields[o.number].type](o.value)

    def last_bytes(self, name: str) -> Optional[bytes]:
        o = self.last(name)
        return None if o is None else o.data

    def each_bytes(self, name: str) -> list:
        return [o.data for o in self.all_of(name)]

    def joined(self, name: str) -> list:
        """The numbers of all occurrences in order, summed if the column is one of deltas: pairs of value and place."""
        f = self.schema.fields[self.schema.number_of[name]]
        entries = [(READ[f.type](v), o.place) for o in self.all_of(name) for v in o.entries]
        if not f.delta:
            return entries
        sums, total = [], 0
        for value, place in entries:
            total += value
            sums.append((total, place))
        return sums

    def values(self, name: str) -> list:
        return [value for value, _ in self.joined(name)]

    def children_of(self, *names) -> list:
        return [child for name, child in self.children if name in names]

    def walk(self):
        """This message and all embedded ones, outermost first."""
        yield self
        for _, child in self.children:
            yield from child.walk()

    def fault(self, phase: int, offset: int, reason_name: str, missing: int = 0):
        self.faults.add(Fault(phase, offset, REASON[reason_name], missing))

    def clean(self) -> bool:
        """Whether there is no fault up to now of this message itself and of its Info or DenseInfo."""
        return not self.faults and all(not c.faults for c in self.children_of("info", "denseinfo"))
