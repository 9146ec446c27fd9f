"""What a wrong program (an .edit file) changes in the sources of its crate."""

import re


def applied(folder, edit):
    """The files of the crate in `folder` that the edit changes, and their texts with it. A `file:` line holds for the changes after it, and each
    `old:` and `new:` text is one line. Raises ValueError, which says why, where `rt must-fail` couldn't apply the edit: a file is none of src/,
    specs/ or proofs/, an old text isn't there exactly once, or nothing changes."""
    texts, before = {}, {}
    path = old = None
    for word, rest in re.findall(r"^(file|old|new): ?(.*)$", edit.read_text(), re.M):
        if word == "file":
            path = folder / rest.strip()
            if not re.match(r"(src|specs|proofs)/", rest.strip()) or not path.is_file():
                raise ValueError(f"{edit}: there is no file {rest.strip()}")
            before.setdefault(path, path.read_text())
            texts.setdefault(path, before[path])
        elif word == "old":
            old = rest
        else:
            if path is None or not old:
                raise ValueError(f"{edit}: a new text has no file or no old text before it")
            there = texts[path].count(old)
            if there != 1:
                raise ValueError(f"{edit}: its old text is there {there} times: {old.strip()[:80]}")
            texts[path] = texts[path].replace(old, rest)
            old = None
    if texts == before:
        raise ValueError(f"{edit}: it changes nothing")
    return texts
