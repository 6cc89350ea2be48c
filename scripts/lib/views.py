"""The generated parts of documents: tables and figures that come from the records of evidence, and counts of the files.

A part is between lines `<!-- NAME: begin -->` and `<!-- NAME: end -->`, and a figure in a line is between `<!-- count: KEY -->` and
`<!-- end -->`. A key is the name of a count of the files, as `wrong-edits`, or has the name of a record before it: `fuzz: commands` for a
count, and `bench: HEADING: ROW: COLUMN` for a cell of a table, of which heading and row may be the beginnings.
"""

import functools
import re
import textwrap

from lib import contracts, figures, records
from lib.tools import TOP, crates

EVIDENCE, GATE, BENCHMARKS = (TOP / "docs" / f"{name}.md" for name in ("EVIDENCE", "GATE", "BENCHMARKS"))
CHART = TOP / "docs/speed.svg"
# Documents in which no figure with a comma is written by hand.
COUNTED = ("README.md", "CONTRIBUTING.md", "docs/STATUS.md", "docs/GATE.md")
INLINE = re.compile(r"<!-- count: (.+?) -->(.*?)<!-- end -->", re.S)
FIGURE = re.compile(r"(?<![\w.,])\d{1,3}(?:,\d{3})+(?![\w,])")
CODE_AND_MARKERS = re.compile(
    r"^```.*?^```|<!-- ([\w -]+): begin -->.*?<!-- \1: end -->|<!-- count: .+? -->.*?<!-- end -->|`[^`\n]+`|^(?: {4}|\t)[^\n]*", re.M | re.S)
WIDTH = 130
# The processor minutes that the gate may take for what stood when this was set, and for each thousand lines since.
BUDGET, BUDGET_OF_A_THOUSAND = 180, 2.5
# Crates that take fewer minutes of the gate are in one row.
FEW_MINUTES = 4
# A table with more rows than this has in one those with smaller numbers, which are also those below this part of its greatest number.
LONG_TABLE, SMALL, SMALL_PART = 12, 100, 0.05
OTHER_CRATES = ("test_", "cases_", "bench_", "example_")


class Missing(Exception):
    """Nothing has the figure or the part that a document asks for."""


def missing(text):
    raise Missing(text)


def number_text(value):
    """A number as documents have it."""
    return f"{value:,}" if isinstance(value, int) else f"{value:,.1f}" if value >= 10 else f"{value:g}"


# ---- counts of the files

@functools.cache
def wrong_edits():
    """How many wrong edits each crate has in must-fail, which each gate tries, and in wrong."""
    folders = {name: TOP / "crates" / name for name in crates()}
    found = {name: [len(list(folder.glob(f"{kind}/*.edit"))) for kind in ("must-fail", "wrong")] for name, folder in folders.items()}
    return {name: counts for name, counts in found.items() if any(counts)}


def lines_of(crate):
    """How many lines of code a crate has."""
    return sum(len(path.read_text().splitlines()) for path in (TOP / "crates" / crate / "src").rglob("*.rt"))


def largest_crates():
    """The largest library by lines of code, and how many others have more than 1,500."""
    sizes = sorted(((lines_of(name), name) for name in crates() if not name.startswith(OTHER_CRATES)), reverse=True)
    (most, largest), *others = [it for it in sizes if it[0] > 1500]
    return f"`{largest}` with {most:,}" + (f", and {len(others)} others with up to {others[0][0]:,}" if others else "")


def most_operations():
    """How many operations an expression may execute."""
    found = [match[1] for path in records.sources_of("dwarf_expressions")
             for match in re.finditer(r"const OPERATION_LIMIT: \w+ = (\d+);", path.read_text())]
    return int(found[0]) if len(found) == 1 else missing("dwarf_expressions has no constant OPERATION_LIMIT")


def headline_lines(code):
    """The lines of definitions that the headline of a code needs, as the reading plan has them, to the next fifty."""
    for path in sorted((TOP / "docs").rglob("*.md")):
        if "<!-- plan of headlines: begin -->" in (text := path.read_text()):
            for row in text.partition("<!-- plan of headlines: begin -->")[2].splitlines():
                cells = [cell.strip() for cell in row.strip("|").split("|")]
                if cells[0].startswith(f"**{code}**"):
                    return round(int(re.sub(r"\D", "", cells[2])) / 50) * 50
    missing(f"the reading plan has no headline **{code}**")


def proof_minutes(crate):
    """The minutes of processor that the proofs of a crate and of those below it take."""
    rows = records.named("gate").crates
    return round(sum(rows[name]["proof"] for name in records.with_below([crate]) if name in rows))


COUNTS = {
    "wrong-edits": lambda: sum(map(sum, wrong_edits().values())),
    "wrong-edits of the gate": lambda: sum(gate for gate, _ in wrong_edits().values()),
    "wrong-edits of wrong": lambda: sum(other for _, other in wrong_edits().values()),
    "crates with edits in the gate": lambda: sum(gate > 0 for gate, _ in wrong_edits().values()),
    "crates": lambda: len(crates()),
    "lines": lambda: sum(map(lines_of, crates())),
    "largest crates": largest_crates,
    "most operations": most_operations,
    "proof minutes of backtrace": lambda: proof_minutes("backtrace"),
    "long clauses": lambda: len(contracts.counts()[1].lines),
    "clauses": lambda: contracts.clause_count(),
}


# What README tells of costs: in other words, the heading of the table, and the beginning of the row.
COSTS = {
    "a step through one cache, in long walks": ("x86_64, by an index", "32 walks of 128 frames, through one"),
    "a step without a cached rule, by an index": ("x86_64, by an index", "32 walks of 128 frames, each through a new"),
    "a step without a cached rule, by a table of rules": ("Tables of rules", "libc, a fresh step by a table"),
    "the execution of a cached rule": ("Cached rules", "a step by an offset, one"),
    "a step by compact unwind info, aarch64": ("Compact", "a step among 10,000 functions from a later frame, aarch64"),
    "making an index, an FDE": ("x86_64, by an index", "making a module"),
}
# Ratios to the original's time: the record, the heading of its table, and the beginning of the row.
RATIOS = {
    "ratio of a row": "bench: Entries and rows: a row, of: Ratio",
    "ratio of an index": "bench: x86_64, by an index: making a module: Ratio",
    "ratio of a long walk": "bench: x86_64, by an index: 32 walks of 128 frames, through one: Ratio",
    "ratio of a long walk, second": "bench-second: x86_64, by an index: 32 walks of 128 frames, through one: Ratio",
    "ratio of a long walk, third": "bench-third: x86_64, by an index: 32 walks of 128 frames, through one: Ratio",
    "ratio of a new cache": "bench: x86_64, by an index: 32 walks of 128 frames, each through: Ratio",
    "ratio by a table": "bench: Tables of rules: libc, a fresh step by a table: Ratio",
    "ratio by a cached rule": "bench: Cached rules: a step by an offset, one: Ratio",
    "ratio by compact info": "bench: Compact: a step among 10,000 functions from a later frame, x86_64: Ratio",
    "ratio by compact info of aarch64": "bench: Compact: a step among 10,000 functions from a later frame, aarch64: Ratio",
}


def value_of(key):
    """The text of a figure in a line."""
    key = RATIOS.get(key, key)
    head, _, rest = key.partition(": ")
    if not rest:
        value = COUNTS[key]() if key in COUNTS else missing(f"nothing is counted as '{key}'")
    elif head == "plan":
        value = headline_lines(rest)
    else:
        record = records.named(head)
        value = record.counts[rest] if rest in record.counts else cell_of(record, rest)
    return value if isinstance(value, str) else number_text(value)


def cell_of(record, key):
    """A cell of a record's tables, by its heading, its row and its column."""
    heading, row, column = (key.split(": ") + ["", ""])[:3]
    for table in record.tables:
        columns, *rows = table["rows"]
        if table.get("heading", table.get("of", "")).startswith(heading) and column in columns:
            for cells in rows:
                if cells[0].startswith(row):
                    return cells[columns.index(column)]
    missing(f"{record.name} has no figure '{key}'")


# ---- evidence

def cell(text):
    return text.replace("|", "\\|").replace("\n", " ")


def is_measured(record):
    """Whether a record is of times alone, which other documents show."""
    return record.name == "gate" or record.name.startswith("bench")


def size_of(record):
    """What was counted, without differences if there was none."""
    shown = {what: record.counts[what] for what in record.shown or record.counts if what in record.counts}
    groups = {}
    for what, count in shown.items():
        if what != "differences" or count:
            head, _, rest = what.rpartition(": ")
            groups.setdefault(head, []).append(f"{number_text(count)} {rest.removesuffix('s') if count == 1 else rest}")
    return "; ".join((f"{head}: " if head else "") + ", ".join(texts) for head, texts in groups.items())


def state_of(record, reasons):
    """Whether a record is fresh, by the proved programs."""
    number = list(reasons).index(record.stale_because) + 1 if record.stale_because in reasons else None
    state = f"stale {number}" if number else "stale" if record.is_stale() else "fresh"
    return state if record.proved else f"{state}, unproved"


def evidence():
    """The table of all records, and why those that are stale weren't run again."""
    shown = [record for record in records.all() if not is_measured(record)]
    reasons = dict.fromkeys(record.stale_because for record in shown if record.is_stale() and record.stale_because)
    rows = [["Claim", "Against", "Size", "Exceptions", "Command", "Run", "State"]]
    for record in shown:
        command = record.command.removeprefix("scripts/")
        rows.append([record.claim, record.against, size_of(record), "; ".join(record.exceptions), f"`{command}`", f"{record.date} {record.commit}",
                     state_of(record, reasons)])
    return "\n" + figures.markdown_table([list(map(cell, row)) for row in rows]) + "\n\nStale are:\n\n" + "".join(
        f"{number}. {reason}\n" for number, reason in enumerate(reasons, 1))


def causes():
    """The tables of records that say what the exceptions are."""
    parts = []
    for record in records.all():
        if not is_measured(record) and record.tables:
            parts.append(f"\n## {record.claim}\n")
            parts += ["\n" + figures.markdown_table(without_small(table["rows"])) + "\n" for table in record.tables]
    return "".join(parts)


def without_small(rows):
    """The rows of a long table, with those of small numbers summed in one."""
    head, *rest = rows
    numbers = {row[0]: [int(cell.replace(",", "")) for cell in row[1:] if cell.replace(",", "").isdigit()] for row in rest}
    counted = [row for row in rest if len(numbers[row[0]]) == len(head) - 1]
    greatest = max((max(numbers[row[0]]) for row in counted), default=0)
    small = [row for row in counted if max(numbers[row[0]]) < max(SMALL, SMALL_PART * greatest)]
    if len(rest) <= LONG_TABLE or len(small) < 2:
        return rows
    sums = [f"{sum(column):,}" for column in zip(*(numbers[row[0]] for row in small))]
    return [head, *(row for row in rest if row not in small), [f"{len(small)} other causes", *sums]]


# ---- the gate

def wrapped(text):
    return "\n".join(textwrap.wrap(text, WIDTH, break_on_hyphens=False, break_long_words=False)) + "\n"


def run_of(record):
    """When and where a record was made, and whether it is fresh."""
    state = f"Stale: {record.stale_because}" if record.is_stale() else "The files are the same."
    return wrapped(f"Run on {record.date} at {record.commit}, on {record.machine}. {state}")


def thousand(minutes, lines):
    return "–" if not lines else f"{minutes * 1000 / lines:.1f}"


def budget(record):
    """The minutes that the gate may take: those of what stood when they were set, and those of each line that is new."""
    return BUDGET + BUDGET_OF_A_THOUSAND * (record.counts["lines"] - record.counts["lines of the budget"]) / 1000


def gate_sums():
    """What the gate took in all, and what it may."""
    record = records.named("gate")
    names = {"proof": "proofs", "tests": "proofs of tests", "edits": "wrong edits, with the proofs that they begin with", "all": "all"}
    rows = [["Sum", "Processor minutes", "A thousand lines"]]
    lines = record.counts["lines"]
    rows += [[text, number_text(record.counts[name]), thousand(record.counts[name], lines)] for name, text in names.items()]
    rows.append(["the budget", f"{budget(record):.0f}", thousand(budget(record), lines)])
    clock, processors = number_text(record.counts["minutes by the clock"]), record.counts["processors"]
    commits = len({row.get("commit", record.commit) for row in record.crates.values()})
    text = f"{lines:,} lines, of which {record.counts['lines of the budget']:,} stood when the budget was set."
    text += f" The last run of all crates took {clock} minutes by the clock on {processors} processors."
    if "on two processors" in record.counts:
        text += f" By the rows below it takes {record.counts['on two processors']} on two."
    text += f" Rows were measured at {commits} commits." if commits > 1 else ""
    if "pace" in record.counts:
        text += f" A minute is one of the machine of the budget: that of the last run took {record.counts['pace']} times as long over the same crates."
    return "\n" + figures.markdown_table(rows) + "\n\n" + wrapped(text) + run_of(record)


def gate_crates():
    """The gate's minutes by crate; those that take little are in one row."""
    record = records.named("gate")
    known = {name: row for name, row in record.crates.items() if name in crates()}
    spent = {name: [row.get(kind, 0) for kind in ("proof", "tests", "edits")] for name, row in known.items()}
    small = [name for name in known if sum(spent[name]) < FEW_MINUTES]
    shown = [(f"`{name}`", known[name]["lines"], spent[name]) for name in known if name not in small]
    shown.append((f"{len(small)} others", sum(known[name]["lines"] for name in small), [sum(it) for it in zip(*(spent[name] for name in small))]))
    rows = [["Crate", "Lines", "Proof", "Tests", "Edits", "A thousand lines"]]
    for name, lines, (proof, tests, edits) in shown:
        rows.append([name, f"{lines:,}", *(f"{it:.1f}" if it else "–" for it in (proof, tests, edits)), thousand(proof + tests, lines)])
    return "\n" + figures.markdown_table(rows) + "\n"


def edit_table():
    """The wrong edits of each crate, and how many of those in `wrong` were seen refused over the files as they are. Crates without edits in
    the gate, of which none was, are in one row."""
    record = records.named("edits-refused")
    rows = [["Crate", "In each gate", "In `wrong`", "Seen refused"]]
    others = []
    for name, (gate, other) in wrong_edits().items():
        seen = record.crates.get(name)
        is_fresh = bool(other and seen and seen["hash"] == records.edits_hash(name))
        if gate or is_fresh:
            rows.append([f"`{name}`", str(gate or "–"), str(other or "–"), str(seen["refused"]) if is_fresh else "–"])
        else:
            others.append(other)
    rows.append([f"{len(others)} others", "–", number_text(sum(others)), "–"])
    return "\n" + figures.markdown_table(rows) + "\n"


# ---- benchmarks

def benchmarks():
    """The tables of the last whole run, with the ratios of other runs beside them."""
    record = records.named("bench")
    others = [it for it in records.all() if it.name.startswith("bench-")]
    parts = [f"\n{run_of(record)}"]
    if others:
        rows = [[it.name.removeprefix("bench-"), f"{it.date} {it.commit}", it.machine, it.claim] for it in others]
        parts.append("\n" + figures.markdown_table([["Column", "Run", "Machine", "Measured"], *rows]) + "\n")
    under = None
    for table in record.tables:
        under = table.get("heading", under)
        heading = f"\n## {table['heading']}\n\n{wrapped(table['note'])}" if "heading" in table else ""
        parts.append(heading + "\n" + figures.markdown_table(beside(table["rows"], under, others)) + "\n")
    return "".join(parts) + "\n"


def beside(table, heading, others):
    """The rows of a table under a heading, with a column for each other run that has a ratio of one of them."""
    columns, *rows = table
    found = {it.name.removeprefix("bench-"): ratios(it, heading, {row[0] for row in rows}) for it in others if "Ratio" in columns or "Wanted" in columns}
    found = {name: those for name, those in found.items() if those}
    return [[*columns, *found], *([*row, *(those.get(row[0], "–") for those in found.values())] for row in rows)]


def ratios(record, heading, labels):
    """The ratios of a run under a heading, by these labels of rows."""
    return {row[0]: row[-1] for table in record.tables if table.get("of") == heading for row in table["rows"][1:] if row[0] in labels}


def costs():
    """What README tells of costs."""
    others = [it for it in records.all() if it.name.startswith("bench-")]
    rows = [["Time on x86_64", "Here", "framehop", "Ratio", "On other machines"]]
    for text, (heading, label) in COSTS.items():
        table, row = next((it["rows"], row) for it in records.named("bench").tables if it.get("heading", "").startswith(heading)
                          for row in it["rows"] if row[0].startswith(label))
        cells = dict(zip(table[0], row))
        elsewhere = [those[row[0]] for it in others if it.name != "bench-instructions" and (those := ratios(it, heading_of(heading), {row[0]}))]
        rows.append([text, *(re.sub(" an? .*", "", cells[column]) for column in ("Proved", "Original")), cells["Ratio"], ", ".join(elsewhere) or "–"])
    return figures.markdown_table(rows) + "\n"


def heading_of(beginning):
    """The heading of the last whole run that begins so."""
    return next(it["heading"] for it in records.named("bench").tables if it.get("heading", "").startswith(beginning))


def charts():
    """The chart of the ratios of walks on x86_64 to the original, by the tables of the last whole run."""
    record, parts = records.named("bench"), []
    for table in record.tables:
        parts += ([f"## {table['heading']}", ""] if "heading" in table else []) + [figures.markdown_table(table["rows"]), ""]
    groups = figures.groups_of("\n".join(parts))
    walks = [group for group in groups if group.heading.startswith("x86_64, by")]
    return {CHART: figures.chart(walks)}


# ---- writing

PARTS = [
    (TOP / "README.md", "costs", costs),
    (EVIDENCE, "evidence", evidence), (EVIDENCE, "causes", causes), (GATE, "sums", gate_sums), (GATE, "times", gate_crates),
    (GATE, "contracts", lambda: contracts.table()), (GATE, "edits", edit_table), (BENCHMARKS, "figures", benchmarks),
]


def documents():
    """The documents that may have figures in their lines."""
    return [TOP / name for name in ("README.md", "CONTRIBUTING.md", "CHANGELOG.md")] + sorted((TOP / "docs").rglob("*.md"))


def made():
    """The text of each document, of which parts are generated, as it should be."""
    texts = {path: path.read_text() for path in documents()}
    for path, name, part in PARTS:
        texts[path] = with_part(path, texts[path], name, part())
    return {path: with_figures(path, text) for path, text in texts.items()} | charts()


def with_part(path, text, name, part):
    """A document's text with another part."""
    begin, end = f"<!-- {name}: begin -->\n", f"<!-- {name}: end -->"
    before, found, rest = text.partition(begin)
    _, closed, after = rest.partition(end)
    if not found or not closed:
        missing(f"{path.relative_to(TOP)} has no lines `{begin.strip()}` and `{end}`")
    return before + begin + part + end + after


def with_figures(path, text):
    """A document's text with the figures of its lines as they are."""
    def written(match):
        try:
            return f"<!-- count: {match[1]} -->{value_of(match[1])}<!-- end -->"
        except Missing as error:
            missing(f"{path.relative_to(TOP)}: {error}")

    return INLINE.sub(written, text)


def differing():
    """The files that aren't as they should be, with the text that they should have."""
    return {path: text for path, text in made().items() if not path.is_file() or path.read_text() != text}


def by_hand(text):
    """The figures with a comma outside of markers and of code, with the number of their line."""
    text = CODE_AND_MARKERS.sub(lambda match: re.sub(r"[^\n]", " ", match[0]), text)
    return [(text.count("\n", 0, match.start()) + 1, match[0]) for match in FIGURE.finditer(text)]


def first_difference(path, text):
    """The first line in which a file differs."""
    lines = path.read_text().splitlines() if path.is_file() else []
    return next((at for at, (one, other) in enumerate(zip(lines, text.splitlines()), 1) if one != other), min(len(lines), text.count("\n")) + 1)


def problems():
    """What is wrong in the documents: a line for each."""
    try:
        found = [f"{path.relative_to(TOP)}:{first_difference(path, text)} isn't what the records and files give: scripts/evidence write"
                 for path, text in differing().items()]
    except Missing as error:
        found = [str(error)]
    for path in documents():
        text = path.read_text()
        found += [f"{path.relative_to(TOP)}:{text.count(chr(10), 0, match.start()) + 1} begins with a figure's marker, which ends the paragraph"
                  for match in re.finditer(r"^[ \t]*<!-- count: ", text, re.M)]
    for name in COUNTED:
        found += [f"{name}:{line}: {figure} is written by hand: put it between markers" for line, figure in by_hand((TOP / name).read_text())]
    return found
