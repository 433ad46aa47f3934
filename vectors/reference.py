"""The reference: what should be read and written of a file, as case.json has it.

It follows docs/FORMAT.md in another language and in another way than pbfcut: on whole lists, one definition after the other. It shares
no code with pbfcut. reference_wire.py, reference_judge.py, reference_entities.py and reference_written.py are its parts.
"""

import concurrent.futures

from reference_entities import Entity, Header, decode_block, decode_header
from reference_judge import Frame, Judged, judge
from reference_wire import KEPT_LIMIT, REASON, Fault
from reference_written import Box, extract, header_out, write_file
from suite import CALLS, Case, digest, entity_lines, nanodegrees, processors, quoted

KINDS = {"N": "node", "W": "way", "R": "relation"}


# ---- texts


def told_text(text: bytes):
    """A text of case.json: a string, or the hex of what isn't UTF-8."""
    try:
        return text.decode("utf-8")
    except UnicodeDecodeError:
        return {"hex": text.hex()}


def quoted_line(text: bytes) -> str:
    return quoted(told_text(text)).decode("utf-8", "surrogateescape")


def header_lines(header: Header) -> list:
    """The lines of `show` for a header."""
    lines = []
    if header.bbox is not None:
        left, right, top, bottom = header.bbox
        lines.append(f"H bbox {left} {bottom} {right} {top}")
    lines += ["H required " + quoted_line(name) for name in header.required]
    lines += ["H optional " + quoted_line(name) for name in header.optional]
    for name, value in (("program", header.program), ("source", header.source)):
        lines += [f"H {name} {quoted_line(value)}"] if value is not None else []
    for name, value in (("timestamp", header.timestamp), ("sequence", header.sequence)):
        lines += [f"H {name} {value}"] if value is not None else []
    return lines + ([f"H url {quoted_line(header.url)}"] if header.url is not None else [])


def blob_line(frame: Frame) -> str:
    """The line of `blobs` for a frame."""
    if frame.payload is None:
        return f"{frame.offset} {quoted_line(frame.name)} {frame.size} skipped"
    return f"{frame.offset} {frame.name.decode()} {frame.size} {len(frame.payload)}"


# ---- entities


def told_entity(entity: Entity) -> dict:
    """An entity as case.json tells it."""
    meta = entity.meta
    told = {"kind": KINDS[entity.kind], "id": entity.id, "version": meta.version, "time": entity.millis(), "changeset": meta.changeset}
    told.update(uid=meta.uid, user=None if meta.user is None else told_text(meta.user), visible=meta.visible)
    told["tags"] = [[told_text(key), told_text(value)] for key, value in entity.tags] or None
    if entity.kind == "N":
        told.update(lat=entity.nano_lat(), lon=entity.nano_lon())
    elif entity.kind == "W":
        told["refs"] = list(entity.refs)
        told["locations"] = [list(place) for place in entity.nano_locations()] or None
    else:
        told["members"] = [[kind, member, told_text(role)] for kind, member, role in entity.members]
    return {name: value for name, value in told.items() if value is not None}


def counted(entities: list) -> list:
    return [sum(1 for entity in entities if entity.kind == kind) for kind in KINDS]


def told_fault(fault: Fault) -> dict:
    return {"offset": fault.offset, "number": fault.reason, "reason": fault.name()}


# ---- a file


def header_of(judged: Judged):
    """The payload of the header's frame."""
    return next(root for frame, root in zip(judged.frames, judged.payloads) if frame.name == b"OSMHeader")


def entities_of(judged: Judged) -> list:
    return [entity for frame, root in zip(judged.frames, judged.payloads) if frame.name == b"OSMData" for entity in decode_block(root)]


def box_of(edges: str) -> Box:
    return Box(*(nanodegrees(edge) for edge in edges.split(",")))


def written(header: Header, entities: list, box: Box, call: str) -> tuple:
    """The entities that a call writes, and its bytes."""
    chosen = entities if call == "convert" else extract(entities, box, call == "parents")
    return chosen, write_file(header_out(header, None if call == "convert" else box), chosen)


def blobs_told(data: bytes) -> dict:
    judged = judge(data, frames_alone=True)
    told = {"blobs": [blob_line(frame) for frame in judged.frames]}
    return {**told, "blobs_refused": told_fault(judged.first())} if judged.faults else told


def expected(data: bytes, edges: str) -> tuple:
    """What case.json tells of a file and a box, and what each call writes."""
    judged = judge(data)
    if judged.faults:
        return {"refused": told_fault(judged.first()), **blobs_told(data)}, {}
    message, entities = header_of(judged), entities_of(judged)
    header = decode_header(message)
    told = {"header": header_lines(header), "all": counted(entities), "entities": [told_entity(entity) for entity in entities], **blobs_told(data)}
    if len(header.source or b"") + len(header.url or b"") > KEPT_LIMIT:
        return {**told, "unwritten": told_fault(Fault(11, message.place, REASON["EntityLarge"]))}, {}
    made = {call: written(header, entities, box_of(edges), call) for call in CALLS}
    told["counts"] = {call: counted(chosen) for call, (chosen, _) in made.items()}
    return told, {call: bytes_of for call, (_, bytes_of) in made.items()}


# ---- a case beside the reference


def as_told(value, told, lines):
    """A value in the form that case.json has it: a digest where it is long."""
    return digest(lines(value)) if isinstance(told, dict) else value


def differences(case: Case) -> list:
    """What case.json or the case's files tell otherwise than the reference."""
    wanted, files = expected(case.input(), case.told["box"])
    found = []
    for name in ("refused", "unwritten", "blobs", "blobs_refused", "header", "all", "counts", "entities"):
        value = wanted.get(name)
        if name == "entities" and value is not None:
            value = as_told(value, case.told.get(name), entity_lines)
        if name == "header" and value is not None:
            value = as_told(value, case.told.get(name), lambda lines: "".join(line + "\n" for line in lines).encode("utf-8", "surrogateescape"))
        if value != case.told.get(name):
            found.append(f"{case.name}: {name} is {str(case.told.get(name))[:200]}, and by the reference {str(value)[:200]}")
    for call, data in files.items():
        if case.written(call) != data:
            found.append(f"{case.name}: {call} writes other bytes by the reference")
    return found


def run_reference(chosen: list) -> int:
    """Compares the cases with the reference, as many at a time as there are processors; answers the exit status."""
    with concurrent.futures.ProcessPoolExecutor(processors()) as pool:
        found = [line for lines in pool.map(differences, chosen, chunksize=8) for line in lines]
    for line in found:
        print(line)
    print(f"{len(chosen)} cases, {len(found)} differences from the reference")
    return 1 if found or not chosen else 0
