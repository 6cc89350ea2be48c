"""The repository's folder and crates, other programs as tools, and the ends of scripts.

Scripts end with status 0 if all is as it should be, 1 if something differs, and 2 if they could not do their work.
"""

import pathlib
import subprocess
import sys

TOP = pathlib.Path(__file__).resolve().parents[2]
LIBC = "/lib/x86_64-linux-gnu/libc.so.6"
LIBSTDCXX = "/usr/lib/x86_64-linux-gnu/libstdc++.so.6"
ARM_LIBC = "/usr/aarch64-linux-gnu/lib/libc.so.6"
ARM_LIBSTDCXX = "/usr/aarch64-linux-gnu/lib/libstdc++.so.6"
# The tools that this run called.
CALLED = set()


def give_up(reason):
    """Ends the script, which could not do its work."""
    print(f"{pathlib.Path(sys.argv[0]).name}: {reason}", file=sys.stderr)
    sys.exit(2)


def run(*command, folder=None, statuses=(0,), **options):
    """Runs a tool in a folder to its end. Gives up if there is no such tool, or if it ends with another status."""
    CALLED.add(str(command[0]))
    try:
        done = subprocess.run(command, cwd=folder, capture_output=True, text=True, **options)
    except FileNotFoundError:
        give_up(f"{command[0]} is needed, and is not installed")
    if done.returncode not in statuses:
        give_up(f"{' '.join(map(str, command))} ended with status {done.returncode}: {done.stdout[-200:]}{done.stderr[-800:]}")
    return done


def output(*command, folder=None, statuses=(0,), **options):
    """What a tool prints."""
    return run(*command, folder=folder, statuses=statuses, **options).stdout


def crates():
    """The names of all crates with the names of those below each, in the order of crates.txt: each comes after those below it."""
    lines = (line.partition("#")[0].strip() for line in (TOP / "crates.txt").read_text().splitlines())
    return {name.split()[0]: below.split() for name, _, below in (line.partition(":") for line in lines if line)}


def built_program(crate):
    """The program of a crate. Gives up if `rt run` has not built it."""
    program = TOP / "crates" / crate / "out" / crate
    if not program.is_file():
        give_up(f"build the program first: rt run {crate}")
    return program
