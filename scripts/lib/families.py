"""The families of crates: the headings of crates.txt, each with the crates below it."""

import re

from lib.tools import TOP, crates

HEADING = re.compile(r"# ---- (.+)")


def families():
    """Each heading with the names of its crates, in the order of crates.txt."""
    known, found = crates(), []
    for line in (TOP / "crates.txt").read_text().splitlines():
        name = line.partition(":")[0].removesuffix(" staticlib").strip()
        if heading := HEADING.match(line):
            found.append((heading[1], []))
        elif name in known:
            found[-1][1].append(name)
    return found
