"""The area that a picture or a page shows: a box, or the polygons of a .poly or GeoJSON file.

A place is a pair of longitude and latitude in whole nanodegrees, and nothing is rounded. As for pbfcut, a place is in a polygon if it is on an edge of
its rings or an odd number of edges is east of it, and in the area if it is in any of the polygons.
"""

import argparse
import json
import sys
from decimal import Decimal
from itertools import chain

DEGREE = 1_000_000_000
BANDS = 1000


def nanodegrees(number) -> int:
    """Of a number of degrees, as text or Decimal; what comes after the ninth decimal place is cut off."""
    return int(Decimal(number).scaleb(9))


def read_box(text: str) -> tuple:
    """West, south, east, north."""
    try:
        west, south, east, north = map(nanodegrees, text.split(","))
    except (ValueError, ArithmeticError):
        raise argparse.ArgumentTypeError(f"'{text}' is not four numbers of degrees: west,south,east,north") from None
    if not (-180 * DEGREE <= west <= east <= 180 * DEGREE and -90 * DEGREE <= south <= north <= 90 * DEGREE):
        raise argparse.ArgumentTypeError(f"'{text}' is no box: the order is west,south,east,north, in degrees")
    return west, south, east, north


def place_of(numbers: list) -> tuple:
    return nanodegrees(numbers[0]), nanodegrees(numbers[1])


def poly_rings(text: str) -> list:
    """The rings of a .poly file. The first line is its name; a line before a ring is the ring's."""
    rings, ring = [], None
    for words in filter(None, map(str.split, text.splitlines()[1:])):
        if words == ["END"]:
            if ring is None:
                return rings
            rings.append(ring)
            ring = None
        elif ring is None:
            ring = []
        else:
            ring.append(place_of(words))
    raise ValueError("it has no END")


def geojson_polygons(value: dict) -> list:
    kind = value["type"]
    if kind in ("Polygon", "MultiPolygon"):
        polygons = [value["coordinates"]] if kind == "Polygon" else value["coordinates"]
        return [[[place_of(place) for place in ring] for ring in rings] for rings in polygons]
    parts = {"Feature": "geometry", "FeatureCollection": "features", "GeometryCollection": "geometries"}[kind]
    return [polygon for part in ([value[parts]] if kind == "Feature" else value[parts]) for polygon in geojson_polygons(part)]


def read_polygons(path: str) -> list:
    """The polygons of a file, each a list of rings."""
    try:
        with open(path, encoding="utf-8-sig") as file:
            text = file.read()
        if text.lstrip().startswith("{"):
            polygons = geojson_polygons(json.loads(text, parse_float=Decimal, parse_int=Decimal))
        else:
            polygons = [poly_rings(text)]
        if not polygons or not all(rings and all(len(ring) > 2 for ring in rings) for rings in polygons):
            raise ValueError("a ring has fewer than three corners")
    except OSError as error:
        raise argparse.ArgumentTypeError(f"{path}: {error.strerror}") from None
    except (ValueError, ArithmeticError, LookupError, TypeError, AttributeError, RecursionError):
        raise argparse.ArgumentTypeError(f"{path}: it has no polygon of a .poly or GeoJSON file") from None
    return polygons


def side(start: tuple, end: tuple, place: tuple) -> int:
    """Above 0 if the place is left of the line from start to end, 0 if it is on it."""
    return (end[0] - start[0]) * (place[1] - start[1]) - (place[0] - start[0]) * (end[1] - start[1])


def boxes_meet(one: tuple, other: tuple) -> bool:
    return one[0] <= other[2] and other[0] <= one[2] and one[1] <= other[3] and other[1] <= one[3]


def bounds_of(places) -> tuple:
    """The least box that has these places."""
    places = iter(places)
    west, south = east, north = next(places)
    for lon, lat in places:
        west, east = min(west, lon), max(east, lon)
        south, north = min(south, lat), max(north, lat)
    return west, south, east, north


class Area:
    def __init__(self, polygons: list, is_box=False):
        self.polygons, self.is_box = polygons, is_box
        self.bounds = bounds_of(self.corners())
        self.step = (self.bounds[3] - self.bounds[1]) // BANDS + 1
        # the edges from south to north, with the number of their polygon, by the bands of latitude that they are in
        self.bands = [[] for _ in range(BANDS)]
        for number, rings in enumerate(polygons):
            for ring in rings:
                for edge in zip(ring, [*ring[1:], ring[0]]):
                    south, north = sorted(edge, key=lambda place: place[1])
                    for band in self.bands_between(south[1], north[1]):
                        band.append((number, south, north))

    @classmethod
    def of_box(cls, box: tuple):
        west, south, east, north = box
        return cls([[[(west, south), (east, south), (east, north), (west, north)]]], is_box=True)

    def corners(self):
        return (place for rings in self.polygons for ring in rings for place in ring)

    def bands_between(self, south: int, north: int) -> list:
        first = max(0, (south - self.bounds[1]) // self.step)
        return self.bands[first:max(0, (north - self.bounds[1]) // self.step + 1)]

    def contains(self, place: tuple) -> bool:
        lon, lat = place
        west, south, east, north = self.bounds
        if not (west <= lon <= east and south <= lat <= north):
            return False
        odd = set()
        for number, start, end in [] if self.is_box else self.bands[(lat - south) // self.step]:
            if start[1] <= lat <= end[1]:
                where = side(start, end, place)
                if where == 0 and min(start[0], end[0]) <= lon <= max(start[0], end[0]):
                    return True
                if where > 0 and lat < end[1]:
                    odd ^= {number}
        return self.is_box or bool(odd)

    def is_crossed(self, start: tuple, end: tuple) -> bool:
        """Whether the line from start to end has a place in common with an edge."""
        extent = bounds_of((start, end))
        if not boxes_meet(extent, self.bounds):
            return False
        for band in self.bands_between(extent[1], extent[3]):
            for _, first, last in band:
                if boxes_meet(extent, bounds_of((first, last))) and side(start, end, first) * side(start, end, last) <= 0 \
                        and side(first, last, start) * side(first, last, end) <= 0:
                    return True
        return False

    def is_within(self, ring: list) -> bool:
        """Whether it lies within a ring that crosses none of its edges."""
        return bounds_of(chain(ring, self.corners())) == bounds_of(ring) and Area([[ring]]).contains(self.polygons[0][0][0])


class Arguments(argparse.ArgumentParser):
    """A command line whose help is its description, and whose mistakes are one line and status 2."""

    def format_help(self) -> str:
        return self.description

    def error(self, message: str):
        print(f"{self.prog}: {message}; --help says how it is used", file=sys.stderr)
        sys.exit(2)

    def parse_args(self, args=None, namespace=None):
        """A box that begins with a minus is no option."""
        words = []
        for word in sys.argv[1:] if args is None else args:
            if words and words[-1] in ("--box", "--view"):
                words[-1] += "=" + word
            else:
                words.append(word)
        return super().parse_args(words, namespace)
