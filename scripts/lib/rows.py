"""Rows of crates/cases_unwinding/data/rows.jsonl, which scripts write: documents, and what the program prints of them."""

import json
import sys

from lib.tools import TOP

FILE = TOP / "crates/cases_unwinding/data/rows.jsonl"


def add_rows(parser):
    """Adds the options to write the rows or to check them."""
    group = parser.add_mutually_exclusive_group()
    group.add_argument("--write", action="store_true")
    group.add_argument("--check", action="store_true")


def show_rows(given, prefix, rows, command):
    """Prints the rows, whose names have a prefix; or puts them in the place of those in the file, or says whether the file has them."""
    made = [json.dumps(row) + "\n" for row in rows]
    held = FILE.read_text().splitlines(keepends=True)
    mine = [line for line in held if json.loads(line)["name"].startswith(prefix)]
    if given.write:
        FILE.write_text("".join([line for line in held if line not in set(mine)] + made))
    elif given.check:
        print(f"{len(mine)} rows, {'as they should be' if mine == made else f'which differ: scripts/{command} --write'}")
        sys.exit(mine != made)
    else:
        print("".join(made), end="")
