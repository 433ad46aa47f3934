"""Makes the folders of the cases that recipes.py describes."""

import json
import os

from recipes import RECIPES, Recipe
from reference import expected
from suite import CALLS, HERE

ORDER = ("title", "odd", "rule", "topic", "verdict", "harmless", "choice", "box", "header", "all", "counts", "writes", "refused", "unwritten", "entities")
ORDER += ("blobs", "blobs_refused")


def case_text(told: dict) -> str:
    """The text of case.json: a line for each part, and for each entry of a list of texts or entities."""
    lines = []
    for name in ORDER:
        if name not in told:
            continue
        value = told[name]
        if name in ("header", "entities", "blobs") and isinstance(value, list) and value:
            entries = ",\n".join("    " + json.dumps(entry, ensure_ascii=False) for entry in value)
            lines.append(f'  "{name}": [\n{entries}\n  ]')
        else:
            lines.append(f'  "{name}": {json.dumps(value, ensure_ascii=False)}')
    return "{\n" + ",\n".join(lines) + "\n}\n"


def files_of(recipe: Recipe) -> dict:
    """The names and bytes of the files of a case's folder. Bytes that two calls write stand in one file."""
    told, written = expected(recipe.file, recipe.box)
    files = {"in.osm.pbf": recipe.file}
    if written:
        told["writes"] = {}
        for call in CALLS:
            same = next((name for name, data in files.items() if data == written[call]), f"{call}.osm.pbf")
            files[same] = written[call]
            told["writes"][call] = same
    for name in ("odd", "rule", "topic", "verdict", "harmless", "choice", "box"):
        if getattr(recipe, name):
            told[name] = getattr(recipe, name)
    told["title"] = recipe.name.replace("_", " ").capitalize()
    files["case.json"] = case_text(told).encode()
    return files


def written_files(recipe: Recipe, check: bool) -> list:
    """Writes a case's folder, or says which of its files is not as the recipe has it."""
    folder = os.path.join(HERE, recipe.name)
    wanted = files_of(recipe)
    if not check:
        os.makedirs(folder, exist_ok=True)
        for name, data in wanted.items():
            with open(os.path.join(folder, name), "wb") as file:
                file.write(data)
        return []
    found = {}
    if os.path.isdir(folder):
        for name in os.listdir(folder):
            with open(os.path.join(folder, name), "rb") as file:
                found[name] = file.read()
    return [f"{recipe.name}/{name}" for name in sorted({*wanted, *found}) if wanted.get(name) != found.get(name)]


def run_make(check: bool) -> int:
    """All recipes; with `check` answers 1 where a file is another."""
    stale = [name for recipe in RECIPES for name in written_files(recipe, check)]
    for name in stale:
        print(f"{name} is not as recipes.py has it: run.py make writes it")
    return 1 if stale else 0
