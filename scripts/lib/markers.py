"""Parts of Markdown files that scripts write, between lines `<!-- NAME: begin -->` and `<!-- NAME: end -->`."""

import pathlib

from lib.tools import TOP, give_up


def _split(path, name):
    """The file's text up to the part, the part, and the text after it."""
    begin, end = f"<!-- {name}: begin -->\n", f"<!-- {name}: end -->"
    try:
        text = pathlib.Path(path).read_text()
    except OSError as error:
        give_up(error)
    if text.count(begin) != 1 or text.count(end) != 1 or text.index(begin) > text.index(end):
        give_up(f"{pathlib.Path(path).relative_to(TOP)} needs the lines `{begin.strip()}` and `{end}`, each once and in this order")
    before, _, rest = text.partition(begin)
    part, _, after = rest.partition(end)
    return before + begin, part, end + after


def read(path, name):
    """The part of a file."""
    return _split(path, name)[1]


def write(path, name, part):
    """Replaces the part of a file."""
    before, _, after = _split(path, name)
    pathlib.Path(path).write_text(before + part + after)
