"""The command lines of scripts, and their ends."""

import argparse
import difflib
import inspect
import sys
import traceback

from lib import records
from lib.tools import TOP, give_up

# So many names are listed if one is unknown.
MOST_NAMES = 60


class Parser(argparse.ArgumentParser):
    """A parser that gives up where a run can't be recorded as its options say."""

    def parse_args(self, *words):
        given = super().parse_args(*words)
        if getattr(given, "record", None):
            records.begin(given)
        return given


def parser_of(doc):
    """A parser whose help is the text at the head of the script: its first line says what the script is for."""
    return Parser(description=inspect.cleandoc(doc), formatter_class=argparse.RawDescriptionHelpFormatter)


def run_main(main):
    """Runs a script, and ends it with the status that its `main` returns, of 0 if it returns none: 2 if it raises an exception."""
    try:
        status = main()
    except BrokenPipeError:
        # What was printed is read no further.
        sys.stderr.close()
        status = 2
    except Exception:
        traceback.print_exc()
        status = 2
    sys.exit(status or 0)


def print_table(doc, tables):
    """The command line of a script that prints one of several tables, each by a function of its name, or its only table."""
    parser = parser_of(doc)
    if len(tables) > 1:
        parser.add_argument("table", choices=tables)
    given = parser.parse_args()
    run_main(tables[getattr(given, "table", next(iter(tables)))])


def add_program(parser, default):
    parser.add_argument("--program", help=f"the program that is run, instead of {default}")


def unwind_of(given):
    """The program that the options name instead of ./unwind; or the one that is built, if no source is newer; or ./unwind."""
    is_built = records.is_proved(given, ["unwind_run"])
    return given.program or str(TOP / ("crates/unwind_run/out/unwind_run" if is_built else "unwind"))


def add_record(parser):
    """Adds the option of comparisons that writes a record."""
    parser.add_argument("--record", metavar="NAME", help="writes what is counted into the record evidence/NAME.toml, which is of this command")


def chosen(parser, names, known):
    """The names that were given, or all that are known if none was. Gives up if one is unknown."""
    known = list(known)
    if unknown := [name for name in names if name not in known]:
        near = [it for name in unknown for it in difflib.get_close_matches(name, known, MOST_NAMES, 0.3)]
        listed = known if len(known) <= MOST_NAMES else [*(near or known[:MOST_NAMES]), f".. {len(known)} in all"]
        parser.error(f"no {', '.join(unknown)}: there are {', '.join(listed)}")
    return list(names) or known


def compared(given, counts, differences=0, **more):
    """Ends a comparison: gives up if nothing was compared, and writes the record that the options name. Returns the status."""
    if not any(counts.values()):
        give_up("nothing was compared")
    if getattr(given, "record", None):
        record = records.named(given.record)
        proved = more.pop("proved", records.is_proved(given, record.inputs))
        records.write(given.record, {**counts, "differences": differences}, proved, **more)
    return 1 if differences else 0
