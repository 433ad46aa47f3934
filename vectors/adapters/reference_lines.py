#!/usr/bin/env python3
"""Prints the entities of a file as the suite's JSON lines, as the suite's own reference reads them: raw blobs only. It shows what an adapter
has to do, and tries the suite where there is no other reader."""

import json
import os
import sys

import batch

sys.path.insert(0, os.path.dirname(os.path.dirname(os.path.realpath(__file__))))

from reference import entities_of, told_entity
from reference_judge import judge


def main(file: str) -> int:
    with open(file, "rb") as source:
        judged = judge(source.read())
    if judged.faults:
        print(judged.first().name(), file=sys.stderr)
        return 1
    for entity in entities_of(judged):
        print(json.dumps(told_entity(entity), ensure_ascii=False))
    return 0


if __name__ == "__main__":
    batch.run(main)
