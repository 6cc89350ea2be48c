"""The sizes of contracts: clauses that are too long to be read at a glance, over all libraries and programs.

The length of a clause is that of the text between its braces, joined to one line. A contract is public if its function is `pub` or in
a `pub` trait. An argument of a word is what stands beside it. Crates of tests, cases, benches and examples are left out.
"""

import collections
import functools
import re

from lib.functions import functions_in
from lib.tools import TOP, crates

# Lengths and numbers of clauses that are counted if they are over these, and how many there may be.
LONG, VERY_LONG, MANY, REPEATED, ARGUMENTS = 120, 200, 6, 60, 10
MOST_VERY_LONG, MOST_LONG, MOST_MANY, MOST_CALLS, MOST_PRIVATE_CALLS = 0, 100, 10, 0, 19

# A word, with its fields; a bracket; or any other sign, which ends the arguments before it.
TOKEN = re.compile(r'"(?:\\.|[^"\\])*"|[\w.\'«»]+|[^\s\w]')
OPEN, CLOSE = "([{⟦", ")]}⟧"
NO_WORDS = ("let", "in", "do", "if", "then", "else")

OTHER_CRATES = ("test_", "cases_", "bench_", "example_")
Function = collections.namedtuple("Function", "file line name is_public clauses")


def functions_of(path):
    """The functions of a file that have a contract."""
    file = str(path.relative_to(TOP))
    return [Function(file, it.line, it.name, it.is_public, it.clauses) for it in functions_in(path.read_text()) if it.clauses]


@functools.cache
def counted_functions():
    names = [name for name in crates() if not name.startswith(OTHER_CRATES)]
    return [function for name in names for path in sorted((TOP / "crates" / name / "src").rglob("*.rt")) for function in functions_of(path)]


def calls(text):
    """The words that a clause calls, with the number of arguments of each: what stands beside a word, up to an operator."""
    found, heads = [], [None]
    tokens = iter(TOKEN.findall(text))

    def end():
        if heads[-1]:
            found.append(tuple(heads[-1]))
        heads[-1] = None

    def argument(word):
        if heads[-1]:
            heads[-1][1] += 1
        else:
            heads[-1] = [word, 0]

    for token in tokens:
        if token in OPEN:
            heads.append(None)
        elif token in CLOSE:
            end()
            if len(heads) > 1:
                heads.pop()
            argument("(..)")
        elif token == "λ":
            end()
            while not next(tokens, ".").endswith("."):
                pass
        elif token in NO_WORDS or not re.match(r"[\w\"'«]", token):
            end()
        else:
            argument(token)
    while heads:
        end()
        heads.pop()
    return found


class Count:
    """Things that are counted: what they are, how many there may be, and a line for each with the worst first."""

    def __init__(self, title, limit, lines):
        self.title, self.limit = title, limit
        self.lines = [line for _, line in sorted(lines, key=lambda pair: (-pair[0], pair[1]))]

    def is_over(self):
        return self.limit is not None and len(self.lines) > self.limit


@functools.cache
def counts():
    functions = counted_functions()
    clauses = [(len(clause.text), function, clause) for function in functions for clause in function.clauses]

    def longer_than(limit, only_public):
        return [(size, f"{size} characters: {function.file}:{clause.line} {function.name}, {clause.kind} {clause.name}".rstrip())
                for size, function, clause in clauses if size > limit and (function.is_public or not only_public)]

    def calling(is_public):
        most = [(max(calls(clause.text), key=lambda call: call[1], default=("", 0)), function, clause) for _, function, clause in clauses
                if function.is_public == is_public]
        return [(number, f"{word} with {number} arguments: {function.file}:{clause.line} {function.name}, {clause.kind} {clause.name}".rstrip())
                for (word, number), function, clause in most if number >= ARGUMENTS]

    many = [(len(function.clauses), f"{len(function.clauses)} clauses: {function.file}:{function.line} {function.name}")
            for function in functions if len(function.clauses) > MANY]
    copies = collections.defaultdict(list)
    for size, function, clause in clauses:
        if size > REPEATED:
            copies[clause.text].append(f"{function.file}:{clause.line}")
    repeated = [(len(text) * (len(places) - 1), f"{len(text)} characters, {len(places)} times: {', '.join(places)}")
                for text, places in copies.items() if len(places) > 1]
    return [
        Count(f"clauses of public contracts over {VERY_LONG} characters", MOST_VERY_LONG, longer_than(VERY_LONG, True)),
        Count(f"clauses over {LONG} characters", MOST_LONG, longer_than(LONG, False)),
        Count(f"functions with more than {MANY} clauses", MOST_MANY, many),
        Count(f"clauses of public contracts that call a word with {ARGUMENTS} arguments or more", MOST_CALLS, calling(True)),
        Count("clauses of private contracts that do", MOST_PRIVATE_CALLS, calling(False)),
        Count(f"clauses over {REPEATED} characters that are in more than one contract", None, repeated),
    ]


def clause_count():
    return sum(len(function.clauses) for function in counted_functions())


def table():
    """The counts as a table of docs/GATE.md."""
    rows = [f"| {count.title} | {len(count.lines):,} | {'–' if count.limit is None else count.limit} |\n" for count in counts()]
    total = f"| clauses in all, of {len(counted_functions()):,} functions | {clause_count():,} | – |\n"
    return "| Contracts of libraries and programs | Number | At most |\n|---|---|---|\n" + total + "".join(rows)
