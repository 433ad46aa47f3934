"""The readers that Debian has: the package of each, its command, and what of its output is compared."""

import os
import subprocess
import sys
import tempfile
from typing import NamedTuple

import report
from readers import is_here, results_of
from suite import HERE

ADAPTERS = os.path.join(HERE, "adapters")


class Packaged(NamedTuple):
    """A reader. In its commands {here} is the folder of the adapters, {built} that of what `build` makes, and {} the file."""

    name: str
    title: str
    package: str
    command: str
    options: dict = {}
    build: str = ""

    def words(self, command: str, built: str) -> list:
        return [word.replace("{here}", ADAPTERS).replace("{built}", built) for word in command.split()]

    def version(self) -> str:
        """The version of its Debian package, or nothing where there is none."""
        try:
            asked = ["dpkg-query", "-W", "-f", "${Version}", self.package]
            return subprocess.run(asked, capture_output=True, text=True, check=False).stdout
        except FileNotFoundError:
            return ""

    def is_ready(self, built: str) -> bool:
        """Whether the package is installed, and what must be built could be."""
        if not self.version():
            return False
        build = self.words(self.build, built)
        if build and (not is_here(build) or subprocess.run(build, check=False).returncode):
            return False
        return is_here(self.words(self.command, built))


JAVA = "java -XX:TieredStopAtLevel=1 -XX:+UseSerialGC"
SHARE = "/usr/share/java"
OSMOSIS = f"/usr/share/osmosis/*:{SHARE}/protobuf.jar:{SHARE}/guava.jar:{SHARE}/commons-compress.jar:{SHARE}/jpf.jar"
MKGMAP = f"/usr/share/mkgmap/mkgmap.jar:{SHARE}/osmpbf.jar:{SHARE}/protobuf.jar:{SHARE}/fastutil.jar"
CXX = "c++ -O1 -o {built}/osmpbf_lines {here}/osmpbf_lines.cc -losmpbf -lprotobuf -lz"
JAVAC_OSMOSIS = f"javac -cp {OSMOSIS} -d {{built}} {{here}}/OsmosisLines.java"
JAVAC_MKGMAP = f"javac -cp {MKGMAP} -d {{built}} {{here}}/MkgmapLines.java"

LINES = {"form": "lines"}
BATCH = {**LINES, "batch": True}
NODES = {**BATCH, "kinds": ["node"]}
REFS = {**BATCH, "without": ["locations"]}
COARSE = {**BATCH, "without": ["version", "time", "changeset", "uid", "user", "tags", "place", "locations"]}
READERS = (
    Packaged("protobuf", "protobuf with OSM-binary's .proto files", "libosmpbf-dev", "{built}/osmpbf_lines {}", LINES, CXX),
    Packaged("osmium", "Osmium", "osmium-tool", "osmium cat -f opl,locations_on_ways=true {}", {"form": "opl"}),
    Packaged("pyosmium", "pyosmium", "python3-pyosmium", "{here}/pyosmium_lines.py", BATCH),
    Packaged("osmosis", "Osmosis, --read-pbf", "osmosis", f"{JAVA} -cp {OSMOSIS}:{{built}} OsmosisLines", REFS, JAVAC_OSMOSIS),
    Packaged("osmosis-fast", "Osmosis, --read-pbf-fast", "osmosis", f"{JAVA} -cp {OSMOSIS}:{{built}} OsmosisLines fast", REFS, JAVAC_OSMOSIS),
    Packaged("mkgmap", "mkgmap", "mkgmap", f"{JAVA} -cp {MKGMAP}:{{built}} MkgmapLines", COARSE, JAVAC_MKGMAP),
    Packaged("gdal", "GDAL", "python3-gdal", "{here}/gdal_lines.py", NODES),
    Packaged("readosm", "ReadOSM", "libreadosm1", "{here}/readosm_lines.py", REFS),
    Packaged("routino", "Routino", "routino", "planetsplitter --dir=. --parse-only {}", {"form": "counts"}),
    Packaged("osmconvert", "osmconvert", "osmctools", "osmconvert {} --out-osm", {"form": "xml", "packed": True}),
    Packaged("osmpbf-outline", "osmpbf-outline", "osmpbf-bin", "{here}/outline_counts.py {}", {"form": "counts", "packed": True}),
    Packaged("maptool", "Navit's maptool", "maptool", "maptool --protobuf -i {} out.bin", {"form": "status", "packed": True}),
)


def measured(reader: Packaged, built: str, chosen: list, options: dict) -> dict:
    """The report of a reader's results."""
    results = results_of(reader.words(reader.command, built), chosen, {**options, **reader.options})
    told = {"name": reader.name, "package": reader.package, "version": reader.version(), "options": reader.options}
    return {**told, **report.told_of(reader.title, reader.command, results)}


def run_debian(names: list, chosen: list, options: dict) -> list:
    """The reports of the readers of these names, or of all, that are here."""
    found = []
    with tempfile.TemporaryDirectory() as built:
        for reader in READERS:
            if names and reader.name not in names:
                continue
            if not reader.is_ready(built):
                print(f"{reader.name} is not here: apt-get install {reader.package}", file=sys.stderr)
                continue
            found.append(measured(reader, built, chosen, options))
            print(f"{reader.name}: done", file=sys.stderr, flush=True)
    return found
