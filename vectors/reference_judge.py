"""The reference: the faults of a file, in the phases of docs/FORMAT.md."""

from dataclasses import dataclass
from typing import Optional

from reference_entities import DEFAULT_SCALE, decode_message, runs_of, weight
from reference_wire import (BLOB, BLOB_HEADER, DATASIZE_LIMIT, DENSE_INFO, DENSE_NODES, ENTITY_SCHEMAS, FILE_LIMIT, HEADER_BLOCK, HEADER_LIMIT,
                            KNOWN_FEATURES, NODE, NUMBER_LIMIT, PRIMITIVE_BLOCK, PRIMITIVE_GROUP, RAW_LIMIT, REASON, RELATION, STRING_TABLE,
                            TEXTS_LIMIT, UID_LIMIT, WAY, WEIGHT_LIMIT, Fault, Message)


@dataclass
class Frame:
    offset: int
    name: bytes
    size: int
    end: int
    payload_at: int = 0
    payload: Optional[bytes] = None         # None for a skipped blob


def fault_of(phase: int, offset: int, name: str, missing: int = 0) -> Fault:
    return Fault(phase, offset, REASON[name], missing)


def prefix_faults(b: bytes, p: int) -> set:
    """Phase 1: the four bytes before a BlobHeader."""
    left = len(b) - p
    if left < 4:
        return {fault_of(1, p, "PrefixCut")}
    length = int.from_bytes(b[p:p + 4], "big")
    faults = {fault_of(1, p, "HeaderLong")} if length >= HEADER_LIMIT else set()
    return faults | ({fault_of(1, p, "HeaderCut")} if length > left - 4 else set())


def header_faults(header: Message) -> set:
    """Phases 2 and 3: the BlobHeader."""
    if header.wire_fault:
        return {Fault(2, *header.wire_fault)}
    faults = {fault_of(3, header.at, "Missing", n) for n in (1, 3) if not any(o.number == n for o in header.occurrences)}
    if not 0 <= header.last_number("datasize", 0) <= DATASIZE_LIMIT:
        faults.add(fault_of(3, header.last("datasize").place, "DataSize"))
    return faults


def order_faults(p: int, name: bytes, end: int, had_header: bool) -> set:
    """Phase 4: whether the frame may come here."""
    faults = set()
    if name == b"OSMHeader" and had_header:
        faults.add(fault_of(4, p, "SecondHeader"))
    if name == b"OSMData" and not had_header:
        faults.add(fault_of(4, p, "DataFirst"))
    return faults | ({fault_of(4, p, "FileLong")} if end > FILE_LIMIT else set())


def blob_faults(blob: Message) -> set:
    """Phases 6 and 7: the Blob."""
    if blob.wire_fault:
        return {Fault(6, *blob.wire_fault)}
    faults = set()
    if not any(o.number in (1, 3, 4, 5, 6, 7) for o in blob.occurrences):
        faults.add(fault_of(7, blob.at, "NoRaw"))
    raw = blob.last("raw")
    if raw and len(raw.data) >= RAW_LIMIT:
        faults.add(fault_of(7, raw.place, "RawLong"))
    packings = {3: "Zlib", 4: "Lzma", 5: "Bzip2", 6: "Lz4", 7: "Zstd"}
    return faults | {fault_of(7, o.place, packings[o.number]) for o in blob.occurrences if o.number in packings}


def judge_frame(b: bytes, p: int, had_header: bool) -> tuple:
    """The frame at p (p < len(b)) and its faults of phases 1 to 7. The frame is None if it has any."""
    faults = prefix_faults(b, p)
    if faults:
        return None, faults
    length = int.from_bytes(b[p:p + 4], "big")
    header = Message(BLOB_HEADER, b[p + 4:p + 4 + length], p + 4, p + 4)
    faults = header_faults(header)
    if faults:
        return None, faults
    name, size = header.last_bytes("type"), header.last_number("datasize")
    blob_at = p + 4 + length
    end = blob_at + size
    faults = order_faults(p, name, end, had_header)
    if faults:
        return None, faults
    # Phase 5
    if end > len(b):
        return None, {fault_of(5, blob_at, "BlobCut")}
    if name not in (b"OSMHeader", b"OSMData"):
        return Frame(p, name, size, end), set()
    blob = Message(BLOB, b[blob_at:end], blob_at, blob_at)
    faults = blob_faults(blob)
    if faults:
        return None, faults
    raw = blob.last("raw")
    return Frame(p, name, size, end, raw.data_at, raw.data), set()


# ---- phases 8 to 11: payloads


def judge_payload(frame: Frame) -> Message:
    """The HeaderBlock or PrimitiveBlock of a frame; every message in it holds its faults."""
    schema = HEADER_BLOCK if frame.name == b"OSMHeader" else PRIMITIVE_BLOCK
    root = Message(schema, frame.payload, frame.payload_at, frame.payload_at)

    # Phase 8, payload wire
    for m in root.walk():
        if m.wire_fault:
            place, reason = m.wire_fault
            m.faults.add(Fault(8, place, reason))

    # Phase 9, payload structure. Which messages are judged is settled before any of them is, so that a
    # fault of phase 9 in one keeps no other from being judged in phase 9.
    judged = [m for m in root.walk() if m.clean()]
    for m in judged:
        judge_structure(m)

    # Phase 10, values, and phase 11, weights
    if not root.faults:
        judge_root_values(root)
    tables = root.children_of("stringtable") if schema is PRIMITIVE_BLOCK else []
    if len(tables) == 1 and not tables[0].faults:
        texts = tables[0].each_bytes("s")
        entities = [m for m in root.walk() if m.schema in ENTITY_SCHEMAS or m.schema is DENSE_NODES]
        for m in [m for m in entities if m.clean()]:
            judge_values(m, len(texts))
        for m in [m for m in entities if m.clean()]:
            if any(weight(e) > WEIGHT_LIMIT for e in decode_message(m, texts, DEFAULT_SCALE)):
                m.fault(11, m.place, "EntityLarge")
    return root


def all_faults(root: Message) -> set:
    return set().union(*(m.faults for m in root.walk()))


def judge_structure(m: Message):
    """Phase 9, of one message."""
    schema = m.schema
    for n, f in schema.fields.items():
        count = sum(1 for o in m.occurrences if o.number == n)
        if f.required and count == 0:
            m.fault(9, m.place, "Missing", n)
        if f.once:
            for o in m.all_of(f.name)[1:]:
                m.fault(9, o.place, "TwiceMessage")

    if schema is STRING_TABLE and len(m.each_bytes("s")) > TEXTS_LIMIT:
        m.fault(9, m.place, "TooManyStrings")

    if schema is PRIMITIVE_GROUP:
        kinds = [o for o in m.occurrences if 1 <= o.number <= 4]
        for o in kinds:
            if o.number != kinds[0].number:
                m.fault(9, o.place, "MixedGroup")
        for o in m.all_of("changesets"):
            m.fault(9, o.place, "Changesets")

    if schema is DENSE_NODES:
        count = len(m.joined("id"))
        if len(m.joined("lat")) != count or len(m.joined("lon")) != count:
            m.fault(9, m.place, "ColumnLengths")
        for info in m.children_of("denseinfo"):
            if any(len(info.joined(f.name)) not in (0, count) for f in DENSE_INFO.fields.values()):
                info.fault(9, info.place, "ColumnLengths")
        if runs_of(m.values("keys_vals"), count) is None:
            m.fault(9, m.place, "KeysVals")

    if schema in ENTITY_SCHEMAS and len(m.joined("keys")) != len(m.joined("vals")):
        m.fault(9, m.place, "TagColumns")

    if schema is WAY:
        lats, lons, refs = (len(m.joined(name)) for name in ("lat", "lon", "refs"))
        if not (lats == lons == 0 or lats == lons == refs):
            m.fault(9, m.place, "LocationColumns")

    if schema is RELATION:
        if len({len(m.joined(name)) for name in ("roles_sid", "memids", "types")}) != 1:
            m.fault(9, m.place, "MemberColumns")


def judge_root_values(root: Message):
    """Phase 10, of the HeaderBlock or PrimitiveBlock itself."""
    if root.schema is HEADER_BLOCK:
        for o in root.all_of("required_features"):
            if o.data not in KNOWN_FEATURES:
                root.fault(10, o.place, "Feature")
    else:
        for name, reason in (("granularity", "Granularity"), ("date_granularity", "DateGranularity")):
            if root.last_number(name, 1) < 1:
                root.fault(10, root.last(name).place, reason)


def ranged(m: Message, entries: list, limit: int = NUMBER_LIMIT):
    for value, place in entries:
        if not -limit < value < limit:
            m.fault(10, place, "OutOfRange")


def indices(m: Message, entries: list, texts: int):
    """Indices of a string table of so many texts."""
    for value, place in entries:
        if not 0 <= value < texts:
            m.fault(10, place, "StringIndex")


def single(m: Message, name: str) -> list:
    """The last occurrence of a singular number, as a list of at most one entry."""
    o = m.last(name)
    return [] if o is None else [(m.last_number(name), o.place)]


def judge_dense_values(m: Message, texts: int):
    for name in ("id", "lat", "lon"):
        ranged(m, m.joined(name))
    in_key_place = True
    for value, place in m.joined("keys_vals"):
        if in_key_place and value == 0:
            continue
        indices(m, [(value, place)], texts)
        in_key_place = not in_key_place
    for info in m.children_of("denseinfo"):
        ranged(m, info.joined("timestamp"))
        ranged(m, info.joined("changeset"))
        ranged(m, info.joined("uid"), UID_LIMIT)
        indices(m, info.joined("user_sid"), texts)


def judge_values(m: Message, texts: int):
    """Phase 10, of an entity or a dense, with its Info or DenseInfo. `texts` is the table's length."""
    if m.schema is DENSE_NODES:
        judge_dense_values(m, texts)
        return
    ranged(m, single(m, "id"))
    for name in ("keys", "vals"):
        indices(m, m.joined(name), texts)
    for info in m.children_of("info"):
        ranged(m, single(info, "timestamp"))
        ranged(m, single(info, "changeset"))
        ranged(m, single(info, "uid"), UID_LIMIT)
        indices(m, single(info, "user_sid"), texts)
    if m.schema is NODE:
        ranged(m, single(m, "lat"))
        ranged(m, single(m, "lon"))
    if m.schema is WAY:
        for name in ("refs", "lat", "lon"):
            ranged(m, m.joined(name))
    if m.schema is RELATION:
        indices(m, m.joined("roles_sid"), texts)
        ranged(m, m.joined("memids"))
        for value, place in m.joined("types"):
            if value not in (0, 1, 2):
                m.fault(10, place, "MemberKind")



# ---- a whole file


@dataclass
class Judged:
    """What the judgement of a whole file gives. `frames` are those before the first faulty one (all, where
    there is no fault), `payloads` their parsed payloads (None for a skipped blob)."""
    frames: list
    payloads: list
    faults: set

    def first(self) -> Optional[Fault]:
        return min(self.faults) if self.faults else None


def judge(b: bytes, frames_alone: bool = False) -> Judged:
    """The whole judgement; with `frames_alone` only phases 1 to 7."""
    frames, payloads, p, had_header = [], [], 0, False
    while p < len(b):
        frame, faults = judge_frame(b, p, had_header)
        root = None
        if frame and frame.payload is not None and not frames_alone:
            root = judge_payload(frame)
            faults = all_faults(root)
        if faults:
            return Judged(frames, payloads, faults)
        frames.append(frame)
        payloads.append(root)
        had_header = had_header or frame.name == b"OSMHeader"
        p = frame.end
    if not had_header:
        return Judged(frames, payloads, {Fault(4, len(b), REASON["NoHeader"])})
    return Judged(frames, payloads, set())
