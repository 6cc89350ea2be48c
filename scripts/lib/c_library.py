"""Programs of scripts/lib/c over the C library, and what documents have for them, as those of `cases_unwinding`."""

import json
import os
import pathlib
import subprocess

from lib.tools import CALLED, TOP, give_up, output, run

ROWS = TOP / "crates/cases_unwinding/data/rows.jsonl"
ARCHITECTURES = {"x86_64": 0, "aarch64": 1}
HAS_BYTES, HAS_RANGE, IS_SEGMENT = 1, 2, 4
NO_MASK = "0xffffffffffffffff"
# What a load may ask for, by the numbers of the header.
LOOKUPS = ("auto", "index", "scan")
CODE_RULES = ("published", "known", "ways")
FLAGS = ["-std=c99", "-O1", "-g", "-Wall", "-Wextra", "-pedantic", "-DFRAMEHOP_REFUSES"]
SANITIZERS = ["-fsanitize=address,undefined", "-fno-sanitize-recover=all"]
VALGRIND = ["valgrind", "-q", "--error-exitcode=9", "--leak-check=full", "--exit-on-first-error=yes"]


# For the C library on another machine: its compiler, and what runs its programs here. The sanitizers don't run there.
MACHINES = {"aarch64": (["aarch64-linux-gnu-gcc", "-static"], ["qemu-aarch64"])}


def add_valgrind(parser):
    parser.add_argument("--valgrind", action="store_true", help="runs under valgrind in place of the sanitizers, some fifty times slower")


def add_target(parser):
    parser.add_argument("--target", choices=MACHINES, help="takes the library for this machine, and runs the program under qemu-user, without sanitizers")


def build(folder, name, by_valgrind, target=None):
    """Links a program of scripts/lib/c with the library and with examples/c/heap.c. Returns its command."""
    out = pathlib.Path(folder)
    run("scripts/c-library", "--out", folder, *(["--target", target] if target else []), folder=TOP)
    compiler, runner = MACHINES[target] if target else (["cc"], VALGRIND if by_valgrind else [])
    sanitizers = [] if by_valgrind or target else SANITIZERS
    run(*compiler, *FLAGS, *sanitizers, f"-I{out}/include", str(TOP / f"scripts/lib/c/{name}.c"), str(TOP / "examples/c/heap.c"),
        "-o", f"{folder}/{name}", f"-L{out}/lib", "-lframehop")
    return [*runner, f"{folder}/{name}"]


def example_of_crate(folder):
    """Builds the example of the cargo crate that makes the calls, over the library. Returns its command."""
    run("scripts/c-library", "--out", folder, folder=TOP)
    words = ["cargo", "build", "--quiet", "--offline", "--release", "--example", "documents", "--target-dir", f"{folder}/target"]
    output(*words, folder=TOP / "rust/framehop", env={**os.environ, "FRAMEHOP_LIB_DIR": f"{folder}/lib"})
    return [f"{folder}/target/release/examples/documents"]


def done(command, *words, text="", seconds=None):
    """The end of a program that was linked, with what it printed."""
    CALLED.add(command[0] if len(command) > 1 else "cc")
    try:
        return subprocess.run([*command, *words], input=text, capture_output=True, text=True, timeout=seconds)
    except FileNotFoundError:
        give_up(f"{command[0]} is needed, and is not installed")


def documents(most=None):
    """The documents that end well, but those by whole rows, which the library doesn't take, with the rows that they are in."""
    for row in map(json.loads, ROWS.read_text().splitlines()[:most]):
        if row["status"] == 0 and not row["name"].startswith("Whole rows: "):
            yield row, json.loads(row["text"])


def section_line(section, kind):
    """A section or a segment of a load: its name, what is given, its addresses and its bytes."""
    given = kind | (HAS_BYTES if "data" in section else 0) | (HAS_RANGE if "start" in section else 0)
    return f"{section['name'] or '-'} {given} {section.get('start', 0)} {section.get('end', 0)} {section.get('data') or '-'}"


def section_lines(load):
    """All of a load."""
    return [section_line(it, 0) for it in load["sections"]] + [section_line(it, IS_SEGMENT) for it in load.get("segments", [])]


def options_of(load):
    """What a load asks for, as the numbers of the header: its lookup, whether .debug_frame is used beside, and its rules of code."""
    return (LOOKUPS.index(load.get("lookup", "auto")), int(load.get("debug_frame_beside", False)), CODE_RULES.index(load.get("code_rules", "published")))


def is_as_original(command):
    """Whether a command is one that the original's crate has, too."""
    return command.get("slots", 509) == 509 and not (command["do"] == "load" and any(options_of(command)))


def registers_of(command, arch):
    """The four registers of a step or a walk."""
    regs = command["regs"]
    names = ("ip", "sp", "bp") if arch == "x86_64" else ("lr", "sp", "fp")
    return " ".join([*(regs[name] for name in names), regs.get("mask", NO_MASK)])


def stack_of(command):
    """The words of a stack."""
    words = command["stack"]["words"]
    return " ".join([command["stack"]["start"], str(len(words)), *words])


def line_of(command, arch):
    """The line that asks for a command, or None if the C library has no such call."""
    do = command["do"]
    if do == "cache":
        return f"cache {command.get('slots', 509)}"
    if do in ("unwinder", "clone", "unload", "stats"):
        return " ".join([do, *(str(command[name]) for name in ("unwinder", "cache", "start") if name in command)])
    if do == "load":
        sections = section_lines(command)
        places = " ".join(command[name] for name in ("start", "end", "base", "base_svma"))
        options = " ".join(map(str, options_of(command)))
        return "\n".join([f"load {command['unwinder']} {places} {options} {len(sections)}", *sections])
    if do == "step":
        place = 1 if command["kind"] == "ip" else 2
        return f"step {command['unwinder']} {command['cache']} {place} {command['address']} {registers_of(command, arch)} {stack_of(command)}"
    if do == "walk":
        return f"walk {command['unwinder']} {command['cache']} {command['pc']} {command['limit']} {registers_of(command, arch)} {stack_of(command)}"
    return None


def answers(program, cases, asks):
    """The text that the calls of each document print, which are given by its architecture and lines."""
    lines = [line for arch, commands in cases for line in (f"session {arch} {asks}", *commands, "end")]
    ended = done(program, "commands", text="\n".join(lines) + "\n", seconds=3600)
    if ended.returncode:
        give_up(f"the calls ended with status {ended.returncode}: {ended.stdout[-300:]}{ended.stderr[:2000]}")
    return ended.stdout.split("----\n")[:-1]
