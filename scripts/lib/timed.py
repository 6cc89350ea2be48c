"""The programs over `bench_steps` whose times are taken: one for each architecture and each kind, since with two in one program compilers
share functions between them. No crate of the repository has them: each is made and built in a copy of the crates."""

import pathlib
import shutil
import subprocess
import tempfile

from lib.tools import TOP, give_up

ARCHS = {"x86_64": "X86_64", "aarch64": "Aarch64"}
# Of each kind: the function that is called, the way in which modules are made, and the types of architectures by their names in those of
# programs.
KINDS = {"walks": ("run", "Plain", ARCHS), "tables": ("run", "Tabulated", ARCHS), "compact_steps": ("run_compact", None, ARCHS),
         "caches": ("run_caches", None, {"x86_64": ARCHS["x86_64"]}), "pe": ("run_pe", None, {"": ARCHS["x86_64"]}),
         "frames": ("run_frames", None, {"": None})}
NAMES = ["_".join(filter(None, ["bench", kind, arch])) for kind, (*_, archs) in KINDS.items() for arch in archs]
BUILT = TOP / "crates/bench_steps/out"
# The program of the gate that makes what all of these time.
CASES = TOP / "crates/cases_unwinding"


def parts_of(name):
    """The kind of a program, and its architecture or an empty text."""
    kind = next(kind for kind in KINDS if name.startswith(f"bench_{kind}"))
    return kind, name.removeprefix(f"bench_{kind}").removeprefix("_")


def main_of(name):
    """The text of a program's main file."""
    kind, arch = parts_of(name)
    call, way, archs = KINDS[kind]
    types = list(filter(None, [archs[arch], way]))
    names = f"{{{', '.join([*sorted(types), call])}}}" if types else call
    return "\n".join([f"//! Times {kind.replace('_', ' ')}{f' of {arch}' if arch else ''}.", "#![tactic(auto)]", "", "use anyhow::Result;",
                      f"use bench_steps::{names};", "", "fn main(rt: HostRuntime) -> Result<()> {",
                      f"    {call}::<{', '.join([*types, 'HostRuntime'])}>(&rt)", "}", ""])


def stored_of(name):
    """The file of what a program is run on once it is built, as the arguments of `cases_unwinding` name it."""
    words = (CASES / "args").read_text().splitlines()
    return dict(zip(words[::2], words[1::2]))[name.removeprefix("bench_")]


def build(name):
    """Proves and builds a program, and keeps it in the folder of `bench_steps`."""
    with tempfile.TemporaryDirectory(prefix="bench-programs-") as room:
        copy = pathlib.Path(room)
        shutil.copytree(TOP / "crates", copy / "crates", ignore=shutil.ignore_patterns("out", "data"))
        shutil.copy(TOP / "HANDLES", copy)
        (copy / "crates.txt").write_text((TOP / "crates.txt").read_text() + f"{name}: bench_steps anyhow\n")
        folder = copy / "crates" / name
        (folder / "src").mkdir(parents=True)
        (folder / "src/main.rt").write_text(main_of(name))
        with open(CASES / "data" / stored_of(name), "rb") as source:
            done = subprocess.run(["rt", "run"], cwd=folder, stdin=source, stdout=subprocess.DEVNULL)
        if done.returncode:
            give_up(f"rt run {name} ended with status {done.returncode}")
        BUILT.mkdir(exist_ok=True)
        shutil.copy(folder / "out" / name, BUILT / name)


def timed_program(name):
    """The program of a name. Gives up if `bench/programs` has not built it."""
    if not (BUILT / name).is_file():
        give_up(f"build the program first: bench/programs {name}")
    return BUILT / name
