#!/usr/bin/env python3
"""Spells this repository's own definitions and lemmas as today's Rattle spells names (its PORTING.md, part 3).

usage: tools/respell.py            rewrites the files below crates/, tests/edits/, README.md and docs/, once, right behind port.py
       tools/respell.py --table    prints the names that change, old and new, and writes nothing

    definitions, fields, constructors   snake case: `takeDoc` is `take_doc`, the field `mode-known` is `mode_known`
    lemmas                              a dash joins two names, a plain word comes after `_`: `putAt-fits` is `put_at_fits`, `readFrom-suc` is
                                        `read_from-suc`; a fact keeps its capital: `allBelow-le` is `AllBelow-le`
    types, facts, modules               as they are; so are functions of src/, exported names, strings, inputs and outputs

A name that falls together with another has one of its own in CHOSEN. A definition that would be spelled like a function of src/ gets `_of` (`fullBlocks` beside `full_blocks` is `full_blocks_of`), a lemma `_lem`. Where
a lemma would fall together with another name, its dashes stay. `table` refuses where two names still fall together.
"""
import collections
import os
import re
import sys

NAME = r'[^\s(){}.;,@"«»]+'
DECLARED = re.compile(rf"^( *)((?:(?:unfoldable|abbrev|pub|instance|private|opaque) +)*)({NAME})((?: +[{{(].*?[)}}])*) +:(?= |$)")
OPENS = re.compile(rf"^( *)(?:(?:abbrev|unfoldable|pub) +)*(record|data|module|mod) +({NAME})")
ITEM = re.compile(r"\b(?:const|static|struct|enum|type|trait|fn|mod) +(\w+)")
QUIET = re.compile(r'"(?:[^"\\\n]|\\.)*"|--[^\n]*')
SPAN = re.compile(r"`[^`\n]+`")
WORD = re.compile(NAME)
GHOST_USE = re.compile(r"ghost use[^;]*;")
CLAUSE = re.compile(r"\b(?:requires|ensures|ghost)\*?\s*(?:\w+\s*)?(?::\s*)?\{")
# words that stand for a constructor, a constant or an operator in a lemma's name, as in the library's `drop-cons`
SIGNS = set("nil cons zero suc one two append tt true false add sub mul div mod min max le lt eq and or not some none ok refused yes no".split())
# names that would fall together with another, or whose word has another name today
CHOSEN = {
    "answers-after": "answers_after_is",
    "model-answers": "model_answers_is",
    "entries-read": "entries_read_is",
    "postings-at": "postings_at_is",
    "skips-at": "skips_at_is",
    "block-most": "block_most_is",
    "block-fits": "block_fits_here",
    "slice-val": "slice_val_here",
    "all_known": "all_known_lem",
    "all_yes": "all_yes_lem",
    "no_room": "no_room_lem",
    "tooLarge": "any_too_large",
    "takeAll": "take_all_docs",
    "takeAll-cons": "take_all_docs-cons",
    "takeAll-ok": "take_all_docs-ok",
}
ORDER = ["lemma", "field", "definition"]  # what a name counts as, where it is declared as several
# names that Rattle makes, which proof files define or cite
MADE = re.compile(r"^(?:returns|invariant|decreases|measure|loop|Need|Else|If)(?:-.*)?$")


def files(kinds, *tops):
    for top in tops:
        if os.path.isfile(top):
            yield top
        for folder, dirs, names in os.walk(top):
            dirs[:] = sorted(d for d in dirs if d != "out")
            for name in sorted(names):
                if name.endswith(kinds):
                    yield os.path.join(folder, name)


def text_of(path):
    with open(path, encoding="utf-8") as f:
        return f.read()


def snake(word):
    return re.sub(r"(?<=[a-z0-9])([A-Z])", lambda m: "_" + m[1].lower(), word)


def declarations(path):
    """(name, kind) for each name that a proof or spec file declares; kind is definition or lemma."""
    text = re.sub(r"--[^\n]*", "", text_of(path))
    inside, found = [], []  # the blocks that are open, with their indentation
    for line in text.split("\n"):
        if not line.strip():
            continue
        depth = len(line) - len(line.lstrip())
        while inside and inside[-1][0] >= depth:
            inside.pop()
        opens = OPENS.match(line)
        if opens:
            inside.append((depth, opens[2]))
            continue
        it = DECLARED.match(line)
        if it and it[3] not in ("use", "→", "let", "in"):
            kept = inside and inside[-1][1] in ("record", "data")
            definition = "/specs/" in path or "unfoldable" in it[2] or "abbrev" in it[2]
            kind = "field" if kept else "definition" if definition else "lemma"
            found.append((it[3], kind, "tie." in line.split(" : ")[-1]))
    return found


def table():
    kinds, types, rust = {}, set(), set()
    for path in files((".rt",), "crates"):
        text = re.sub(r"//[^\n]*", "", text_of(path))
        rust |= set(ITEM.findall(text))
        rust |= {os.path.basename(path)[:-3]}
    for path in files((".antt",), "crates"):
        text = re.sub(r"--[^\n]*", "", text_of(path))
        types |= set(re.findall(rf"(?m)^ *(?:(?:abbrev|unfoldable|pub) +)*(?:record|data) +({NAME})", text))
        for name, kind, made in declarations(path):
            if made or MADE.match(name) or not re.match(r"[a-z]", name):
                continue
            if ORDER.index(kind) >= ORDER.index(kinds.get(name, "lemma")):
                kinds[name] = kind
        for name, kind, made in declarations(path):
            if re.match(r"[A-Z]", name):
                types.add(name)
    library = set()
    for path in files((".antt",), "crates"):
        for it in re.findall(r"(?m)^use (?!Rattle\.(?:format|common|bitpacking|vint|compression|skip|block_search|serializer|thin|serves|segment_postings|postings|exports|bench|listing|vectors|first_uses))\S+\.\{([^}]*)\}", text_of(path)):
            library |= {w.split(" as ")[-1].strip() for w in it.split(",")}
    known = {snake(n) for n, k in kinds.items() if k != "lemma"} | library | SIGNS
    facts = {t[0].lower() + t[1:]: t for t in types}
    all_names = set(kinds) | library

    def part(word):
        if word == "getD":
            return "get_or"
        if kinds.get(word, "lemma") != "lemma" and word in new:
            return new[word]
        return facts[word] if word in facts and re.search("[A-Z]", word) else snake(word)

    new = {}
    for name, kind in sorted(kinds.items(), key=lambda it: it[1] == "lemma"):
        if name in CHOSEN:
            to = CHOSEN[name]
        elif kind != "lemma" or name.endswith("-spec"):
            to = snake(name).replace("-", "_")
            if kind == "definition" and to != name and to in rust:
                to += "_of"
        else:
            known |= set(new.values())
            parts = [part(w) for w in name.split("-")]
            to = parts[0]
            for a, b in zip(parts, parts[1:]):
                joined = (a in known or a in types) and (b in known or b in types)
                to += ("-" if joined else "_") + b
            if to != name and to in rust:
                to += "_lem"
        if to != name:
            new[name] = to
    # names that fall together
    for _ in range(4):
        at = collections.defaultdict(list)
        for n in all_names:
            at[new.get(n, n)].append(n)
        for to, olds in at.items():
            if len(olds) > 1:
                for n in olds:
                    if kinds.get(n) == "lemma" and n in new:
                        kept = "-".join(part(w) for w in n.split("-"))
                        if kept == new[n]:
                            kept += "_lem"
                        if kept == n:
                            del new[n]
                        else:
                            new[n] = kept
    at = collections.defaultdict(list)
    for n in all_names:
        at[new.get(n, n)].append(n)
    clash = {to: olds for to, olds in at.items() if len(olds) > 1}
    return new, clash


def turn(text, new):
    def one(m):
        w = m[0]
        if w in new:
            return new[w]
        bare = w.strip("`:'*,")
        if bare != w and bare in new:
            return w.replace(bare, new[bare], 1)
        return w

    return WORD.sub(one, text)


def antt(text, new):
    out, at = [], 0
    for m in QUIET.finditer(text):
        out.append(turn(text[at : m.start()], new))
        out.append(m[0] if m[0][0] == '"' else comment(m[0], new))
        at = m.end()
    return "".join(out) + turn(text[at:], new)


def comment(text, new):
    text = SPAN.sub(lambda m: "`" + turn(m[0][1:-1], new) + "`", text)
    camel = {n: t for n, t in new.items() if re.search("[a-z][A-Z]", n)}
    return turn(text, camel)


def rt(text, new):
    spans = [m.span() for m in GHOST_USE.finditer(text)]
    for m in CLAUSE.finditer(text):
        depth, end = 1, m.end()
        while depth and end < len(text):
            depth += {"{": 1, "}": -1}.get(text[end], 0)
            end += 1
        spans.append((m.start(), end))
    spans += [m.span() for m in re.finditer(r"//[^\n]*", text)]
    out, at = [], 0
    for start, end in sorted(spans):
        if start < at:
            continue
        out.append(text[at:start])
        piece = text[start:end]
        out.append(comment(piece, new) if piece.startswith("//") else turn(piece, new))
        at = end
    return "".join(out) + text[at:]


def edit(text, new):
    spelled = {n: t for n, t in new.items() if re.search("[A-Z]|-", n)}
    return turn(text, spelled)


def page(text, new):
    text = SPAN.sub(lambda m: "`" + turn(m[0][1:-1], new) + "`", text)
    camel = {n: t for n, t in new.items() if re.search("[a-z][A-Z]|-", n)}
    fence = False
    lines = []
    for line in text.split("\n"):
        if line.startswith("    ") or fence:
            line = turn(line, camel)
        lines.append(line)
    return "\n".join(lines)


def main():
    new, clash = table()
    if "--table" in sys.argv:
        for n in sorted(new):
            print(f"{n}\t{new[n]}")
        for to, olds in sorted(clash.items()):
            print(f"falls together: {to}: {' '.join(olds)}")
        return
    if clash:
        print("names fall together:", clash)
        raise SystemExit(1)
    turned = 0
    for kinds, how, tops in (
        ((".antt",), antt, ("crates",)),
        ((".rt",), rt, ("crates",)),
        ((".edit",), edit, ("crates", "tests/edits")),
        ((".md",), page, ("README.md", "docs")),
    ):
        for path in files(kinds, *tops):
            old = text_of(path)
            text = how(old, new)
            if text != old:
                with open(path, "w", encoding="utf-8") as f:
                    f.write(text)
                turned += 1
    print(f"{len(new)} names, {turned} files")


if __name__ == "__main__":
    main()
