"""What readelf says of a file's call frames."""

import bisect
import collections
import re

from lib.tools import output

# An entry's head, and the table of its rows if it has one.
ENTRY = re.compile(
    r"^([0-9a-f]{8,16}) [0-9a-f]{8,16} [0-9a-f]{8,16} (?:(CIE) |FDE cie=([0-9a-f]+) pc=([0-9a-f]+)\.\.([0-9a-f]+))[^\n]*\n"
    r"((?: +LOC[^\n]*\n(?:[0-9a-f]{16} [^\n]*\n)*)?)",
    re.M,
)

# Where a row begins, its CFA, and its rules by readelf's names of registers.
Row = collections.namedtuple("Row", "start cfa rules")


class Fde(collections.namedtuple("Fde", "offset cie start end rows")):
    """An FDE with the rows that readelf prints for it: none if it has no instruction of its own."""

    def row(self, address):
        """The row at an address."""
        return self.rows[bisect.bisect_right([row.start for row in self.rows], address) - 1]


def dump(file, what="frames-interp"):
    """What readelf prints of a file. Its status is 1 also if it misses a separate file of debug information."""
    return output("readelf", "--wide", "--debug-dump=no-follow-links", f"--debug-dump={what}", str(file), statuses=(0, 1))


def part_of(text, name):
    """The part of such a text that is of a section: none if the section has no bytes."""
    return next((part for part in re.split(r"^Contents of the ", text, flags=re.M)[1:] if part.startswith(f"{name} section")), "")


def listing_in(text, name):
    """What such a text has of a section, as far as `frame_table` lists it: without headers of sections and lines of terminators."""
    text = part_of(text, name).partition("\n")[2].partition("\n")[2]
    return re.sub(r"\n[0-9a-f]{8,16} ZERO terminator\n+", "\n", text).strip("\n")


def _rows(table):
    names, *lines = table.splitlines() or [""]
    names = names.split()[2:]
    # readelf names a register after its number.
    lines = [re.sub(r" \(\w+\)", "", line).split() for line in lines]
    return [Row(int(start, 16), cfa, dict(zip(names, rules))) for start, cfa, *rules in lines]


def fdes(file, name=".eh_frame", rows_of_cies=False):
    """The FDEs of a section. On request those without rows get the row of their CIE, or a row that says nothing if it has none."""
    found, of_cies = [], {}
    for offset, is_cie, cie, start, end, table in ENTRY.findall(part_of(dump(file), name)):
        rows = _rows(table)
        if is_cie:
            of_cies[int(offset, 16)] = rows[0][1:] if rows else ("missing", {})
            continue
        offset, cie, start, end = (int(number, 16) for number in (offset, cie, start, end))
        if rows_of_cies and not rows:
            rows = [Row(start, *of_cies[cie])]
        found.append(Fde(offset, cie, start, end, rows))
    return found
