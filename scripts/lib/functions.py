"""The functions of sources, with their contracts and bodies."""

import collections
import re

# Comments, and characters and strings that may have a brace.
PASSED_OVER = re.compile(r"//[^\n]*|/\*.*?\*/|\"(?:\\.|[^\"\\])*\"|'(?:\\.[^']*|[^'\\])'", re.S)
FUNCTION = re.compile(r"(?<!\w)(pub\s+)?(?:const\s+|unsafe\s+)*fn\s+(\w+)")
PUBLIC_TRAIT = re.compile(r"(?<!\w)pub\s+(?:unsafe\s+)?trait\s+\w+[^{;]*\{")
# The head of a clause, or what may end a signature.
MARK = re.compile(r"(?<!\w)(?P<kind>requires|ensures|ghost)\*?\s*(?P<name>\w*)\s*:?\s*\{|[()\[\]{;]")

Clause = collections.namedtuple("Clause", "text kind name line")
# A function: the line of its name, its clauses, and the offsets of its body, which are the same if it has none.
Function = collections.namedtuple("Function", "line name is_public clauses body")


def block_end(text, at):
    """The offset after the brace that closes the one before an offset."""
    depth = 1
    for brace in re.compile(r"[{}]").finditer(text, at):
        depth += 1 if brace[0] == "{" else -1
        if depth == 0:
            return brace.end()
    return len(text)


def line_of(source, at):
    return source.count("\n", 0, at) + 1


def contract_of(source, text, at):
    """The clauses of the function whose name ends at an offset, and its body. `text` is the source without comments and strings."""
    found, depth = [], 0
    while mark := MARK.search(text, at):
        at = mark.end()
        if mark["kind"] and depth == 0:
            at = block_end(text, mark.end())
            found.append(Clause(" ".join(source[mark.end() : at - 1].split()), mark["kind"], mark["name"], line_of(source, mark.start())))
        elif mark[0] in "([":
            depth += 1
        elif mark[0] in ")]":
            depth -= 1
        elif depth == 0:
            return found, range(at, block_end(text, at) if mark[0] == "{" else at)
    return found, range(at, at)


def functions_in(source):
    """The functions of a source, in its order. A contract is public if its function is `pub` or in a `pub` trait."""
    text = PASSED_OVER.sub(lambda match: re.sub(r"[^\n]", " ", match[0]), source)
    traits = [range(trait.end(), block_end(text, trait.end())) for trait in PUBLIC_TRAIT.finditer(text)]
    for match in FUNCTION.finditer(text):
        is_public = bool(match[1]) or any(match.start() in trait for trait in traits)
        yield Function(line_of(source, match.start(2)), match[2], is_public, *contract_of(source, text, match.end()))
