#!/usr/bin/env python3
"""Tries wrong programs by `rt must-fail`, over a copy of the repository: the prover must refuse each because a fact fails.

    tests/try-edits.py            those of tests/edits, which `rt ci` doesn't try; the gate calls this
    tests/try-edits.py NAME...    all those of the crates named, of crates/NAME/must-fail too

Each crate is checked in the copy without an edit first; what that check kept the trials begin with. Prints a line for each edit: the
place of the first fact that fails, and what the prover says of it. It ends with 1 where an edit is proved, can't be applied or read or
wasn't tried, where only a proof file no longer fits the code (it names what the edit took away), where the prover met a limit and gave
no verdict, or where a crate isn't proved without any."""

import pathlib
import re
import shutil
import subprocess
import sys
import tempfile

from wrong_programs import applied

ROOT = pathlib.Path(__file__).resolve().parent.parent
KEPT = ROOT / "tests/edits"

TRIED = re.compile(r"^rt: must-fail (\w+)/(\S+)\.edit: (.*(?:\n(?!rt: ).*)*)", re.M)
# What `rt must-fail` says of an edit that is refused, and what it adds where no fact failed.
REFUSED = "refused, as it must be"
NO_FACT = ("(only because a proof file names", "(only by a limit of the prover")
# Of a refusal `rt must-fail` prints the first line alone that isn't about a name. That line may itself only follow from one: a goal is named
# after the code, so where the name goes, the goal stands without the proof that a file has for it, and proofs that cite that one aren't tried.
# (The goal `returns` keeps its name whatever changes.)
MAY_FOLLOW = re.compile(r"^refused, as it must be: (note: (?!.*\(`returns`\))|.*declarations? that depends? on)")
NAMED = re.compile(r"(note: )?(\./)?proofs/.*(has no field|is not in scope|has no `|\(nearest: |was not admitted|not checked)")
FALSE = "the facts known there allow values"


def copied(edits, folder):
    """A copy of what is proved, without what checks kept in it, whose crates have these edits and no others."""
    copy = pathlib.Path(folder) / "copy"
    shutil.copytree(ROOT / "crates", copy / "crates", ignore=shutil.ignore_patterns("out", "must-fail"))
    for name in ("crates.txt", "HANDLES"):
        if (ROOT / name).exists():
            shutil.copy(ROOT / name, copy)
    for crate, of in edits.items():
        must_fail = copy / "crates" / crate / "must-fail"
        must_fail.mkdir()
        for edit in of:
            shutil.copy(edit, must_fail)
    return copy


def run(words, folder):
    ran = subprocess.run(words, cwd=folder, stdin=subprocess.DEVNULL, stdout=subprocess.PIPE, stderr=subprocess.STDOUT, text=True, errors="replace")
    return ran.returncode, ran.stdout


def of_names_alone(crate, edit):
    """Whether all that a check of the crate in this folder with the edit says follows from names that the edit took away."""
    texts = applied(crate, edit)
    before = {path: path.read_text() for path in texts}
    try:
        for path, text in texts.items():
            path.write_text(text)
        _, said = run(["rt", "check"], crate)
    finally:
        for path, text in before.items():
            path.write_text(text)
    told = re.findall(r"^(?:note: \S+:\d+:\d+: |\S+:\d+:\d+: error).*", said, re.M)
    other = [line for line in told if not NAMED.match(line)]
    return len(other) < len(told) and not any(FALSE in line or not line.startswith("note: ") for line in other)


def judged(said, crate, edit):
    """Whether the edit is refused because a fact fails, and what to say of it."""
    good = said.startswith(REFUSED) and not any(words in said for words in NO_FACT)
    if good and MAY_FOLLOW.match(said) and FALSE not in said and of_names_alone(crate, edit):
        good, said = False, f"{said} (which only follows from a name in a proof file that the edit took away)"
    said = " ".join(said.split())[:400]
    return good, said.replace(REFUSED, "refused") if good else f"NO FACT FAILS: {said}"


def main():
    folders = {name: [KEPT / name, ROOT / "crates" / name / "must-fail"] for name in sys.argv[1:]}
    folders = folders or {folder.name: [folder] for folder in sorted(KEPT.iterdir())}
    edits = {crate: sorted(edit for folder in of for edit in folder.glob("*.edit")) for crate, of in folders.items()}
    edits = {crate: of for crate, of in edits.items() if of}
    failed = done = 0
    with tempfile.TemporaryDirectory() as folder:
        copy = copied(edits, folder)
        for crate in edits:
            status, said = run(["rt", "check"], copy / "crates" / crate)
            print(f"{crate}: {'NOT PROVED' if status else 'proved'} without an edit", flush=True)
            if status:
                print(said[-1000:])
                failed += 1
        # A refusal says nothing where the crate isn't proved without it.
        for crate, of in {} if failed else edits.items():
            status, said = run(["rt", "must-fail", crate], copy)
            told = {edit: what for name, edit, what in TRIED.findall(said) if name == crate}
            lines = [(edit.stem, *judged(told.get(edit.stem, "NOT TRIED"), copy / "crates" / crate, edit)) for edit in of]
            for edit, good, line in lines:
                print(f"{crate}/{edit}: {line}", flush=True)
            bad = sum(not good for _, good, _ in lines)
            if status and not bad:
                print(f"{crate}: rt must-fail ended with {status}: {said[-1000:]}")
            failed += bad or status != 0
            done += len(of)
    print(f"edits: {done} tried, {failed} not refused because a fact fails")
    sys.exit(failed > 0 or done == 0)


main()
