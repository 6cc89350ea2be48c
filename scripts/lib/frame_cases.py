"""Lines for the program `cases_dwarf`, and what it shows of sections and of bytes that are damaged."""

from lib.frame_entries import ReadError, cie_text, fde_text
from lib.frame_rows import rows_of

# The values to which each byte is set.
VALUES = (0x00, 0x01, 0x7F, 0x80, 0xFF)


def case_line(what, data, numbers=(), name="-", vendor="Default", big=False, size=8, start=None):
    """The line of a case: what is shown, how the bytes are read, the bytes, and numbers."""
    head = [what, name, vendor, "big" if big else "little", size, "-" if start is None else start, data.hex()]
    return " ".join(map(str, [*head, *numbers]))


def section_line(what, section, vendor="Default", numbers=()):
    """The line of a case of a section of call frames."""
    return case_line(what, section.data, numbers, section.name[1:], vendor, section.big, section.size, section.bases.get("section"))


def digest(text):
    """FNV-1a, of 64 bits."""
    total = 0xCBF29CE484222325
    for byte in text.encode():
        total = (total ^ byte) * 0x100000001B3 % (1 << 64)
    return total


def fronts_text(data, show):
    """What is shown of each front of some bytes, without what is the same as that of the front before."""
    shown, last = "", ""
    for size in range(len(data) + 1):
        text = show(data[:size])
        if text != last:
            shown += f"{size} bytes\n{text}"
        last = text
    return shown


def turned_text(data, show):
    """A line for each byte: the digests of what is shown with it set to each value."""
    lines = ""
    for at in range(len(data)):
        turned = (data[:at] + bytes([value]) + data[at + 1 :] for value in VALUES)
        lines += f"{at}:" + "".join(f" {digest(show(other)):x}" for other in turned) + "\n"
    return lines


def offset_text(find, *arguments):
    """The offset of the FDE that a lookup finds, or the error, by `Debug`."""
    try:
        return f"Ok({find(*arguments)['offset']})"
    except ReadError as error:
        return f"Err({error.debug()})"


def fde_lines(section, fde, vendor):
    """Lines for an FDE and its rows, or for its error, once by its offset and once by its place in the list."""
    if "error" in fde:
        return f"{fde_text(fde)}\n  {fde['error'].debug()}\n"
    rows, at_once, error = rows_of(section, fde, vendor, rules=192, rows=4)
    lines = "".join(f"  {line}\n" for _, _, line in rows)
    return f"{fde_text(fde)}\n{lines}" + (f"  {'at once ' if at_once else ''}{error}\n" if error else "")


def entries_text(section, vendor="Default"):
    """Lines for each entry and its rows, for the error that ends them, and for the end."""
    entries, end = section.entries()
    lines = "".join(f"{cie_text(entry)}\n" if entry["kind"] == "cie" else fde_lines(section, entry, vendor) for entry in entries)
    return lines + ("" if end is None else f"{end.debug()}\n") + "end\n"
