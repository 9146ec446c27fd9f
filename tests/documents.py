#!/usr/bin/env python3
"""Holds the documents to the repository: every file that they name is there, every wrong program that docs/PROMISES.md names is tried,
every one that is tried is named there, and the names of theorems that stand behind a file are in that file. So too the wrong programs:
the text that one changes stands in the sources. Prints what is wrong."""

import pathlib
import re
import sys

from wrong_programs import applied

ROOT = pathlib.Path(__file__).resolve().parent.parent
PAGES = [ROOT / "README.md", *sorted((ROOT / "docs").glob("*.md"))]
# Names that stand for many files, and files beside the repository (the Rust, the kit's) or made by a command.
OTHERS = re.compile(r"\*|NAME|MODULE|/F/|^\.\./shared|^target/|^port\.py$|(?<!examples/first)\.rs$")
# What CHANGES.md says of earlier landings, and PORT.md and DESIGN-PASS.md of what moved, may name files that are gone.
FREE = {"CHANGES.md", "PORT.md", "DESIGN-PASS.md"}

folders = {folder: folder.name for folder in ROOT.glob("tests/edits/*")} | {folder: folder.parent.name for folder in ROOT.glob("crates/*/must-fail")}
edits = {edit.stem for folder in folders for edit in folder.glob("*.edit")}
wrong = []
for folder, crate in folders.items():
    for edit in sorted(folder.glob("*.edit")):
        try:
            applied(ROOT / "crates" / crate, edit)
        except ValueError as why:
            wrong.append(str(why).replace(f"{ROOT}/", ""))


def found(name):
    """The files that a page may mean by a name: below the root, below crates/, or anywhere under crates/ where the name is bare."""
    places = [ROOT / name, ROOT / "crates" / name, ROOT / "docs" / name, ROOT / "differential" / name]
    return [path for path in places if path.exists()] or list((ROOT / "crates").rglob(name)) + list((ROOT / "differential/src").rglob(name))


for page in PAGES:
    text = page.read_text()
    if page.name in FREE:
        continue
    for name in set(re.findall(r"[\w./*-]+\.(?:antt|rt|md|rs|py|sh|h|c|txt|edit)\b", text)):
        if not OTHERS.search(name) and not found(name):
            wrong.append(f"{page.name}: {name} isn't there")
    for path, names in re.findall(r"([\w/]+\.antt)((?:,? (?:and )?`[\w-]+`)+)", text):
        inside = "".join(file.read_text() for file in found(path))
        for name in re.findall(r"`([\w-]+)`", names):
            if not re.search(rf"(?:^|\s|[(]){re.escape(name)}(?:\s|$)", inside):
                wrong.append(f"{page.name}: {path} has no {name}")

promises = (ROOT / "docs/PROMISES.md").read_text()
table = promises[promises.index("## Wrong programs") : promises.index("## The forms")]
# Functions stand in backticks, wrong programs don't.
named = set(re.findall(r"\b[a-z]+(?:_[a-z0-9]+)+\b", re.sub(r"`[^`]*`|\S*/\S*|\*\*[^*]*\*\*", "", table)))
wrong += [f"PROMISES.md: no edit {name}" for name in sorted(named - edits)]
wrong += [f"PROMISES.md doesn't name the edit {name}" for name in sorted(edits - named)]

print("\n".join(wrong) if wrong else f"documents: {len(PAGES)} pages, {len(edits)} wrong programs, nothing named that isn't there")
sys.exit(bool(wrong))
