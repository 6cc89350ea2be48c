"""Records of evidence: a file evidence/NAME.toml for each claim that the run of a script shows.

A record has these fields: `claim`, a sentence; `against`, what it was compared with; `command`; `exceptions`, sentences on what was not
as claimed, each with its cause; `proved`, whether the programs that ran were the proved ones; `commit`, with a `+` if files that the
record rests on had been changed since; `date`; `minutes` that a run takes; `machine`; `inputs`, the crates that it rests on, or `*`; `hash`, of
the sources and definitions of these crates and of all below them, and of the script; `stale_because`, why it wasn't run again over
other files; the tables `counts`, numbers by their names, of which `shown` are those that documents have if not all, and `tools`,
versions. Figures by crate are in `[crates]`, those by which a machine is held against another in `[reference]`, and tables of a bench or of
causes in `[[tables]]`.

A record is stale if its hash isn't that of the files; one with a hash for each crate if one of these isn't, or if a crate lacks its row: the
gate's has one for each crate, that of wrong edits for each that has some. A command that ends with `[NAME..]` is that of runs with any names.
"""

import builtins
import dataclasses
import datetime
import functools
import hashlib
import json
import os
import pathlib
import re
import shlex
import shutil
import subprocess
import sys
import time
import tomllib

from lib import tools
from lib.tools import TOP, crates, give_up

FOLDER = TOP / "evidence"
BEGUN = time.monotonic()
# Options that change nothing of what is compared.
PASSED_OVER = ("--record", "--program", "--lister", "--jobs", "--workers", "--save", "--keep", "--wine", "--show", "--original", "--peer", "--of")
OPTIONS_ALONE = ("--markdown", "--no-build", "--unlimited")


@dataclasses.dataclass
class Record:
    """What a run showed."""

    name: str
    claim: str
    against: str
    command: str
    exceptions: list = dataclasses.field(default_factory=list)
    proved: bool = False
    commit: str = ""
    date: str = ""
    minutes: float = 0
    machine: str = ""
    inputs: list = dataclasses.field(default_factory=list)
    hash: str = ""
    stale_because: str = ""
    shown: list = dataclasses.field(default_factory=list)
    counts: dict = dataclasses.field(default_factory=dict)
    tools: dict = dataclasses.field(default_factory=dict)
    crates: dict = dataclasses.field(default_factory=dict)
    reference: dict = dataclasses.field(default_factory=dict)
    tables: list = dataclasses.field(default_factory=list)

    @property
    def path(self):
        return FOLDER / f"{self.name}.toml"

    @property
    def script(self):
        """The script of this repository that the command runs, or None if it runs another program."""
        word = self.command.partition(" ")[0]
        return TOP / word if word.startswith(("scripts/", "bench/")) else None

    def is_stale(self):
        """Whether what the record rests on has changed since the run."""
        if any("hash" in row for row in self.crates.values()):
            wanted, hash_of_crate = self.rows_by()
            return wanted != set(self.crates) or any(row.get("hash") != hash_of_crate(name) for name, row in self.crates.items())
        try:
            return not self.hash or self.hash != hash_of(self.inputs, self.script)
        except (KeyError, OSError):
            return True

    def rows_by(self):
        """The crates of which a record by crate has a row, and what gives the hash of each."""
        if self.name == "gate":
            return set(below()), gate_hash
        return {path.parent.name for path in TOP.glob("crates/*/wrong")}, edits_hash

    def text(self):
        """The text of the record's file."""
        fields = dataclasses.asdict(self)
        del fields["name"]
        return toml_of({key: value for key, value in fields.items() if value not in ("", [], {})})


# ---- files of records

def value_text(value):
    """A value in TOML: a text, a number, a list of these or a table in one line."""
    if isinstance(value, bool):
        return "true" if value else "false"
    if isinstance(value, (int, float)):
        return str(value)
    if isinstance(value, str):
        return json.dumps(value, ensure_ascii=False)
    if isinstance(value, dict):
        return "{ " + ", ".join(f"{key_text(key)} = {value_text(it)}" for key, it in value.items()) + " }"
    texts = [value_text(it) for it in value]
    return "[" + ", ".join(texts) + "]" if sum(map(len, texts)) < 120 else "[\n" + "".join(f"    {text},\n" for text in texts) + "]"


def key_text(key):
    return key if re.fullmatch(r"[\w-]+", key, re.ASCII) else json.dumps(key, ensure_ascii=False)


def toml_of(fields):
    """Fields as TOML: first those that are no tables, then tables, and last lists of tables."""
    lines = [f"{key_text(key)} = {value_text(value)}" for key, value in fields.items() if not is_table(value)]
    for key, value in fields.items():
        if isinstance(value, dict):
            lines += ["", f"[{key_text(key)}]", *(f"{key_text(name)} = {value_text(it)}" for name, it in value.items())]
        elif is_table(value):
            for table in value:
                lines += ["", f"[[{key_text(key)}]]", *(f"{key_text(name)} = {value_text(it)}" for name, it in table.items())]
    return "\n".join(lines) + "\n"


def is_table(value):
    return isinstance(value, dict) or isinstance(value, list) and bool(value) and isinstance(value[0], dict)


def read(path):
    """The record in a file."""
    try:
        return Record(path.stem, **tomllib.loads(path.read_text()))
    except (tomllib.TOMLDecodeError, TypeError) as error:
        give_up(f"{path.relative_to(TOP)}: {error}")


def all():
    """All records, by their names."""
    return [read(path) for path in sorted(FOLDER.glob("*.toml"))]


def named(name):
    """A record. Gives up if there is none of this name."""
    path = FOLDER / f"{name}.toml"
    return read(path) if path.is_file() else give_up(f"no record {name}: there are {', '.join(it.name for it in all())}")


# ---- hashes

@functools.cache
def below():
    return crates()


def with_below(names):
    """Crates and those below them, in the order of crates.txt; `*` is all. A name of no crate is a KeyError."""
    needed = set(below()) if "*" in names else set()

    def add(name):
        if name not in needed:
            needed.add(name)
            for other in below()[name]:
                if other in below():
                    add(other)

    for name in set(names) - {"*"}:
        add(name)
    return [name for name in below() if name in needed]


def sources_of(name):
    """The sources and definitions of a crate."""
    folder = TOP / "crates" / name
    return sorted(path for part in ("src", "specs") for path in (folder / part).rglob("*") if path.suffix in (".rt", ".antt"))


def digest_of(paths, top=TOP):
    digest = hashlib.sha256()
    for path in paths:
        data = path.read_bytes()
        digest.update(f"{path.relative_to(top)} {len(data)}\n".encode() + data)
    return digest.hexdigest()


@functools.cache
def crate_hash(name):
    """The hash of a crate's own sources and definitions."""
    return digest_of(sources_of(name))


@functools.cache
def edits_hash(name):
    """The hash of a crate's own sources and definitions, and of its wrong edits; None if there is no such crate."""
    edits = sorted((TOP / "crates" / name / "wrong").glob("*.edit"))
    return digest_of([*sources_of(name), *edits])[:16] if name in below() else None


@functools.cache
def gate_hash(name):
    """The hash of a crate's own files that the gate reads; None if there is no such crate."""
    folder = TOP / "crates" / name
    files = [path for path in folder.rglob("*") if path.is_file() and path.relative_to(folder).parts[0] not in ("out", "wrong", "README.md")]
    return digest_of(sorted(files))[:16] if name in below() else None


def proof_hash(name, top=TOP):
    """The hash of the files of a crate that its proof reads."""
    folder = top / "crates" / name
    files = sorted(path for part in ("src", "specs", "proofs") for path in (folder / part).rglob("*") if path.is_file())
    return digest_of(files, top)[:16]


def hash_of(names, script=None):
    """The hash of the sources and definitions of crates and of all below them, and of a script."""
    parts = [crate_hash(name) for name in with_below(names)] + ([digest_of([pathlib.Path(script)])] if script else [])
    return hashlib.sha256("\n".join(parts).encode()).hexdigest()[:16]


# ---- the place of a run

def machine():
    """The processors, the memory and the system of this machine."""
    models = re.findall(r"^model name\s*: (.*)$", pathlib.Path("/proc/cpuinfo").read_text(), re.M)
    memory = os.sysconf("SC_PAGE_SIZE") * os.sysconf("SC_PHYS_PAGES") / (1 << 30)
    system = re.search(r'^PRETTY_NAME="(.*)"$', pathlib.Path("/etc/os-release").read_text(), re.M)
    return f"{models[0] if models else 'unnamed processors'}, {os.cpu_count()} processors, {memory:.0f} GiB, {system[1] if system else 'Linux'}"


def commit(paths=()):
    """The last commit, with a `+` if one of the files differs from it."""
    head = tools.output("git", "rev-parse", "--short=8", "HEAD", folder=TOP).strip()
    changed = paths and tools.output("git", "status", "--porcelain", "--", *map(str, paths), folder=TOP).strip()
    return head + "+" if changed else head


def versions():
    """The versions of the tools that this run called."""
    found = {}
    for tool in sorted(tools.CALLED):
        path = pathlib.Path(tool)
        if path.is_relative_to(TOP) or path.name in ("git", "rt") or not shutil.which(tool):
            continue
        done = subprocess.run([tool, "--version"], stdin=subprocess.DEVNULL, capture_output=True, text=True)
        if match := re.search(r"\d+\.\d+(?:\.\d+)?", re.sub(r"\(.*?\)", "", done.stdout)):
            found[path.name] = match[0]
    return found


def newer_source(name, tests=False):
    """A source of a built program, or of a crate's tests, that is newer than it, or None. What isn't built has none."""
    program = TOP / "crates" / name / "out" / (f"{name}_tests" if tests else name)
    if not program.is_file():
        return None
    built = program.stat().st_mtime
    return next((path for crate in with_below([name]) for path in sources_of(crate) if path.stat().st_mtime > built), None)


def is_program(name):
    return (TOP / "crates" / name / "src/main.rt").is_file()


def is_proved(given, inputs):
    """Whether a run is of the proved programs: of those that `rt run` built over the files as they are, and of no others."""
    others = [getattr(given, option, None) for option in ("program", "lister", "unwind")]
    built = [TOP / "crates" / name / "out" / name for name in inputs if is_program(name)]
    chosen = {pathlib.Path(other).resolve() for other in others if other} - {TOP / "unwind", *built}
    return not chosen and builtins.all(path.is_file() for path in built) and not any(map(newer_source, inputs))


def today():
    return str(datetime.date.today())


# ---- writing

def command_line():
    """The words of this run, without options that change nothing of what is compared."""
    path, found, words = pathlib.Path(sys.argv[0]).resolve(), [], iter(sys.argv[1:])
    for word in words:
        option = word.partition("=")[0]
        if option in PASSED_OVER:
            if "=" not in word:
                next(words, None)
        elif option not in OPTIONS_ALONE:
            found.append(word)
    return shlex.join([str(path.relative_to(TOP)) if path.is_relative_to(TOP) else path.name, *found])


def begin(given):
    """Gives up if this run can't be recorded as the options say: by another name, of another command, or of an old program."""
    record = named(given.record)
    line = command_line()
    if record.command not in (line, line.partition(" ")[0] + " [NAME..]"):
        give_up(f"the record {record.name} is of `{record.command}`, not of `{line}`")
    if not getattr(given, "program", None):
        for name in record.inputs:
            tests = name == getattr(given, "tests", None)
            if path := newer_source(name, tests):
                give_up(f"{path.relative_to(TOP)} is newer than the program: rt {'test' if tests else 'run'} {name}")


def write(name, counts, proved, **more):
    """Writes what a run counted into its record, over the files as they are. Other fields may be given."""
    record = named(name)
    paths = [TOP / "crates" / crate / part for crate in with_below(record.inputs) for part in ("src", "specs")]
    script = [record.script] if record.script else []
    found = {"commit": commit([*paths, *script]), "date": today(), "hash": hash_of(record.inputs, record.script),
             "machine": machine(), "minutes": round((time.monotonic() - BEGUN) / 60, 1), "tools": versions(), "stale_because": "", "tables": [], "crates": {}}
    reason = record.stale_because
    record = dataclasses.replace(record, counts=counts, proved=proved, **(found | more))
    if record.is_stale():
        record.stale_because = reason
    record.path.write_text(record.text())
    print(f"written: {record.path.relative_to(TOP)}")


# ---- what is wrong

def problems():
    """What is wrong with the records, and with the documents that show them: a line for each."""
    from lib import views

    found = []
    for record in all():
        where = record.path.relative_to(TOP)
        if record.script and not record.script.is_file():
            found.append(f"{where}: there is no {record.script.relative_to(TOP)}")
        found += [f"{where}: there is no crate {name}" for name in record.inputs if name not in [*below(), "*"]]
        if record.is_stale() and not record.stale_because:
            found.append(f"{where} is stale: run scripts/evidence run {record.name}, or say why by scripts/evidence because")
        if not record.is_stale() and record.stale_because:
            found.append(f"{where} is fresh, and says why it would be stale")
        if record.counts.get("differences") and not record.exceptions:
            found.append(f"{where}: {record.counts['differences']} differences, and no exception says why")
        if record.path.read_text() != record.text():
            found.append(f"{where} isn't laid out as records are: scripts/evidence write")
    return found + views.problems()
