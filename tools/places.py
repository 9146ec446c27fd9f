#!/usr/bin/env python3
"""Counts the places in crates/*/src that docs/DESIGN-PASS.md goes by, in this checkout or at a commit.

    tools/places.py [--at COMMIT] [--list]      --list names each place

What is counted is what a reader looks at first, not what is wrong: each is then changed or kept, and the page says which."""

import argparse
import difflib
import itertools
import pathlib
import re
import subprocess
import tempfile

ROOT = pathlib.Path(__file__).resolve().parent.parent
WORDS = {"for", "in", "while", "if", "else", "match", "let", "mut", "return", "as", "break", "loop"}

# name, what a line must look like
LINES = [
    ("1 enums", r"^(pub |pub\(crate\) )?enum "),
    ("1 constants of a byte", r"^(pub )?const [A-Z_]+: u8"),
    ("1 answers of a byte", r"-> u8\b"),
    ("1 refusals as a byte", r"refusal: u8"),
    ("1 flags", r"^ +(pub )?[a-z_]+: bool,$"),
    ("1 kinds as numbers", r"\b(mode|requested|recording|kind): u8|let kind\b"),
    ("3 while", r"^ *while "),
    ("3 for over numbers", r"^ *('[a-z]+: )?for \w+ in (?!&)[^{]*\.\."),
    ("3 for over values", r"^ *('[a-z]+: )?for .* in (&|(?![^{]*\.\.))"),
    ("3 loop", r"^ *('[a-z]+: )?loop \{"),
    ("4 bytes joined, compared or copied one by one", r"% 256\b|<< 8\b|\bsame\(|\bsmaller\(|\[at \+ i\] ="),
    ("6 arrays with a length", r"\[[a-z0-9]*; [A-Z0-9_]+\]"),
    ("7 switches on a step", r"\bstep: bool|\bkind =="),
]
TRAVELLERS = [("image", "term"), ("docs", "freqs"), ("skips", "postings"), ("ids", "freqs"), ("mode", "recording"), ("held", "term")]
TRAVELLERS += [("layout", "term"), ("full", "offset")]


def functions(text):
    """Name, parameters and body of each function."""
    for m in re.finditer(r"^ *(?:pub(?:\(crate\))? )?(?:extern \"C\" )?fn (\w+)(?:<[^>]*>)?\(([^)]*)\)", text, re.M):
        begin = re.compile(r"^( *)\{$", re.M).search(text, m.end()) or re.compile(r"\{$", re.M).search(text, m.end())
        end = re.compile(r"^%s\}$" % (begin.group(1) if begin.groups() else ""), re.M).search(text, begin.end())
        yield m.group(1), re.findall(r"(\w+):", m.group(2)), text[begin.end() : end.start() if end else len(text)]


def shape(body):
    words = re.findall(r"[A-Za-z_]\w*|\d+|\S", re.sub(r"//.*", "", body))
    return ["0" if w[0].isdigit() else "x" if (w[0].isalpha() or w[0] == "_") and w not in WORDS else w for w in words]


def twins(every):
    """Functions whose bodies have the same shape but for names and numbers."""
    long = [(name, s) for name, s in ((name, shape(body)) for name, _, body in every) if len(s) >= 12]
    for (a, s), (b, t) in itertools.combinations(long, 2):
        if max(len(s), len(t)) <= 1.5 * min(len(s), len(t)) and difflib.SequenceMatcher(None, s, t, False).ratio() > 0.9:
            yield f"{a} ~ {b}"


def main():
    words = argparse.ArgumentParser()
    words.add_argument("--at")
    words.add_argument("--list", action="store_true")
    words = words.parse_args()
    with tempfile.TemporaryDirectory() as folder:
        root = ROOT
        if words.at:
            root = pathlib.Path(folder)
            tar = subprocess.run(["git", "archive", words.at, "crates"], cwd=ROOT, stdout=subprocess.PIPE, check=True).stdout
            subprocess.run(["tar", "x", "-C", folder], input=tar, check=True)
        files = {f: f.read_text() for f in sorted(root.glob("crates/*/src/**/*.rt"))}
        found = {name: [] for name, _ in LINES}
        every = []
        for f, text in files.items():
            crate = f.relative_to(root).parts[1]
            for number, line in enumerate(text.splitlines(), 1):
                for name, pattern in LINES:
                    if re.search(pattern, line.split("//")[0]):
                        found[name].append(f"{f.relative_to(root)}:{number}: {line.strip()}")
            every += [(f"{crate}::{name}", params, body) for name, params, body in functions(text)]
        found["2 functions of one shape"] = list(twins(every))
        for pair in TRAVELLERS:
            found["5 parameters together: " + ", ".join(pair)] = [name for name, params, _ in every if set(pair) <= set(params)]
        for name in sorted(found):
            print(f"{name}: {len(found[name])}")
            if words.list:
                print("".join(f"    {place}\n" for place in found[name]), end="")


main()
