#!/usr/bin/python3
"""Prints the nodes of a file as the suite's JSON lines, as GDAL's driver reads them. It makes geometries of ways and relations, and
only where their nodes are in the file, so those are not compared."""

import datetime
import json
import os
import re
import sys

import batch
from osgeo import gdal

CONFIG = os.path.join(os.path.dirname(os.path.abspath(__file__)), "gdal.ini")
PAIR = re.compile(r'"((?:[^"\\]|\\.)*)"=>"((?:[^"\\]|\\.)*)"', re.DOTALL)


def plain(text: str) -> str:
    """A text of hstore."""
    return re.sub(r"\\(.)", r"\1", text, flags=re.DOTALL)


def seconds(field: list) -> int:
    """A time that GDAL gives as year, month, day, hour, minute, second and zone."""
    year, month, day, hour, minute, second = (int(part) for part in field[:6])
    start = datetime.datetime(year, month, 1) - datetime.datetime(1970, 1, 1)
    return (start.days + day - 1) * 86400 + hour * 3600 + minute * 60 + second


def told(feature) -> dict:
    point = feature.GetGeometryRef()
    entity = {"kind": "node", "id": int(feature.GetFieldAsString("osm_id"))}
    for name in ("version", "uid", "changeset"):
        if feature.IsFieldSetAndNotNull("osm_" + name):
            entity[name] = feature.GetFieldAsInteger64("osm_" + name)
    if feature.IsFieldSetAndNotNull("osm_timestamp"):
        entity["time"] = seconds(feature.GetFieldAsDateTime("osm_timestamp")) * 1000
    entity["user"] = feature.GetFieldAsString("osm_user")
    tags = feature.GetFieldAsString("all_tags") if feature.IsFieldSetAndNotNull("all_tags") else ""
    entity["tags"] = [[plain(key), plain(value)] for key, value in PAIR.findall(tags)]
    entity["lat"], entity["lon"] = round(point.GetY() * 1e9), round(point.GetX() * 1e9)
    return entity


def main(file: str) -> int:
    errors = []
    gdal.PushErrorHandler(lambda level, number, text: errors.append(text) if level >= gdal.CE_Failure else None)
    gdal.SetConfigOption("OSM_CONFIG_FILE", CONFIG)
    # The usual index of nodes is for files whose nodes are sorted.
    gdal.SetConfigOption("OSM_USE_CUSTOM_INDEXING", "NO")
    source = gdal.OpenEx(file, gdal.OF_VECTOR, allowed_drivers=["OSM"])
    for number in range(source.GetLayerCount() if source else 0):
        for feature in source.GetLayer(number):
            if number == 0:
                print(json.dumps(told(feature), ensure_ascii=False))
    if errors or not source:
        print(errors[0] if errors else "the driver doesn't know the file", file=sys.stderr)
    return 1 if errors or not source else 0


if __name__ == "__main__":
    sys.stdout.reconfigure(errors="surrogateescape")
    batch.run(main)
