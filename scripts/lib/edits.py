"""Wrong edits: files of texts that are to be replaced, for the prover to refuse.

A file has a line `file: PATH`, of a file of its crate, and then pairs of lines `old: TEXT` and `new: TEXT`. Another `file:` may
follow. Each old text is in its file exactly once, when the pairs before it are replaced.
"""

import collections

PLACES = ("src/", "specs/", "proofs/")

# An edit: its pairs of texts with the path of their file, and what is wrong with it.
Edit = collections.namedtuple("Edit", "pairs faults")


def _pairs(text):
    """The pairs of texts of an edit with the path of their file, and the lines that are none."""
    pairs, faults, path, old = [], [], None, None
    for number, line in enumerate(text.split("\n"), 1):
        head, _, rest = line.partition(":")
        rest = rest.removeprefix(" ")
        if head == "file" and old is None:
            path = rest.strip()
        elif head == "old" and path and old is None:
            old = rest
        elif head == "new" and old is not None:
            pairs.append((path, old, rest))
            old = None
        elif line.strip():
            faults.append(f"line {number} is no file:, old: or new: in its order")
    if old is not None or not pairs:
        faults.append("no pair of old: and new:")
    return pairs, faults


def edits_of(file, crate):
    """The edit in a file, for a crate's folder."""
    pairs, faults = _pairs(file.read_text())
    texts = {}
    for path, old, new in pairs:
        if not path.startswith(PLACES) or not (crate / path).is_file():
            faults.append(f"no file {path}")
            continue
        text = texts.get(path) or (crate / path).read_text()
        if (found := text.count(old)) != 1:
            faults.append(f"{found} times in {path}, not once: {old.strip()[:80]}")
        if old == new:
            faults.append(f"nothing is changed: {old.strip()[:80]}")
        texts[path] = text.replace(old, new, 1)
    return Edit(pairs, faults)
