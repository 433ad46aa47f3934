#!/usr/bin/python3
"""Prints the entities of a file as the suite's JSON lines, as pyosmium reads them."""

import json

import batch
import osmium


class Printer(osmium.SimpleHandler):
    """Prints each entity."""

    def told(self, kind: str, thing, **more):
        entity = {"kind": kind, "id": thing.id, "version": thing.version, "time": int(thing.timestamp.timestamp()) * 1000}
        entity.update(changeset=thing.changeset, uid=thing.uid, user=thing.user, visible=thing.visible)
        entity["tags"] = [[tag.k, tag.v] for tag in thing.tags]
        entity.update(more)
        print(json.dumps(entity, ensure_ascii=False))

    def node(self, node):
        place = node.location
        more = {"lat": place.y * 100, "lon": place.x * 100} if place.valid() else {}
        self.told("node", node, **more)

    def way(self, way):
        refs = [ref.ref for ref in way.nodes]
        places = [(ref.location.y * 100, ref.location.x * 100) if ref.location.valid() else None for ref in way.nodes]
        self.told("way", way, refs=refs, **({"locations": places} if any(places) else {}))

    def relation(self, relation):
        self.told("relation", relation, members=[[member.type, member.ref, member.role] for member in relation.members])


def main(file: str) -> int:
    Printer().apply_file(file)
    return 0


if __name__ == "__main__":
    batch.run(main)
