"""Where what a table of rules says changes, by the definitions of framehop's rules and of an index alone, over rows that `lib.frame_rows`
makes."""

from lib.frame_entries import Section
from lib.frame_rows import rows_of

# The room that steps have for rules and rows.
RULES, ROWS = 192, 4
NOTHING, UNCOVERED = "nothing", "uncovered"


def stored(rule):
    """The offset from the CFA at which a register is stored, if it is."""
    return int(rule[1:]) if rule and rule[0] == "c" else None


def stays(rule):
    """Whether a register of the caller is still where it was."""
    return rule in (None, "u", "s")


def scaled(offset, unit, least, most):
    """An offset in units, if it is a whole number of them within bounds."""
    return offset // unit if offset % unit == 0 and least <= offset // unit < most else None


def words(offset):
    return scaled(offset, 8, 0, 1 << 16)


def signed_words(offset):
    return scaled(offset, 8, -(1 << 15), 1 << 15)


def all_or_none(name, *fields):
    """A rule with fields, if each of them is there."""
    return None if None in fields else (name, *fields)


def rule_on_x86_64(register, offset, rules):
    """The rule that says a row whose CFA is a register plus an offset; no register if the CFA is an expression."""
    bp, ra = rules.get(6), rules.get(16)
    if ra in (None, "u"):
        return ("end of stack",)
    if ra != "c-8":
        return None
    if register == 7 and stays(bp):
        return all_or_none("sp", words(offset))
    if register == 7 and stored(bp) is not None:
        return all_or_none("sp, bp", words(offset), signed_words(offset + stored(bp)))
    return ("frame pointer",) if (register, offset, bp) == (6, 16, "c-16") else None


def rule_on_aarch64(register, offset, rules):
    fp, lr = rules.get(29), rules.get(30)
    places = [None if stays(rule) else stored(rule) for rule in (fp, lr)]
    if any(place is None and not stays(rule) for place, rule in zip(places, (fp, lr))):
        return None
    at_fp, at_lr = places
    if register == 31:
        pairs = scaled(offset, 16, 0, 1 << 16)
        if at_lr is None:
            return all_or_none("sp, end if later" if lr == "u" else "sp", pairs) if at_fp is None else None
        if at_fp is None:
            return all_or_none("sp, lr", pairs, signed_words(offset + at_lr))
        return all_or_none("sp, fp, lr", pairs, signed_words(offset + at_fp), signed_words(offset + at_lr))
    if register == 29 and None not in places:
        if (offset, at_fp, at_lr) == (16, -16, -8):
            return ("frame pointer",)
        return all_or_none("fp", words(offset), signed_words(offset + at_fp), signed_words(offset + at_lr))
    return None


RULES_ON = {"x86_64": (rule_on_x86_64, "Default"), "aarch64": (rule_on_aarch64, "AArch64")}


def said(machine, fde, line):
    """What a table says of a row: its rule, or else which FDE's row has to be evaluated."""
    _, cfa, *rules = line.split()
    kind, _, offset = cfa[1:].partition(",")
    register = int(kind) if cfa[0] == "r" else None
    pairs = (rule.split("=") for rule in rules if not rule.startswith("args="))
    rule = RULES_ON[machine][0](register, int(offset) if register is not None else 0, {int(name): rule for name, rule in pairs})
    return rule or ("row of", fde["offset"])


def pieces(machine, section, fde, limit):
    """What a table says from the start of an FDE up to a limit: where each piece starts, and what it is."""
    at, vendor = fde["initial"], RULES_ON[machine][1]
    for start, end, line in rows_of(section, fde, vendor, RULES, ROWS)[0]:
        if at < min(end, limit):
            yield at, said(machine, fde, line)
            at = min(end, limit)
    if at < limit:
        yield at, UNCOVERED


def change_count(machine, name, data, bases, base):
    """At how many addresses from a base on a table says something else than at the address before. None if there is no index."""
    section = Section(name, data, bases)
    entries, fault = section.entries()
    if fault:
        return None
    end = min(base + (1 << 32), 1 << 64)
    fdes = [entry for entry in entries if entry["kind"] == "fde" and "error" not in entry and base <= entry["initial"] < base + (1 << 32)]
    # Of equal starts the first is found.
    fdes = sorted(reversed(fdes), key=lambda fde: fde["initial"])
    before, count = NOTHING, 0
    for place, fde in enumerate(fdes):
        limit = fdes[place + 1]["initial"] if place + 1 < len(fdes) else end
        for at, now in pieces(machine, section, fde, min(limit, end)):
            count += now != before and at > base
            before = now
    # The addresses past 2^64 have no rows.
    return count + (before != NOTHING and end < base + (1 << 32))
