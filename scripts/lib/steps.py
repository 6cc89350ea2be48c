"""Steps on x86_64 by rows of call frames, as docs/decisions, docs/DIFFERENCES.md and docs/PROGRAMS.md say: a rule where one holds the
row exactly, else the row computed directly, and the frame pointer where nothing is known. Rows are those of `lib.frame_rows`."""

from lib import expressions
from lib.frame_entries import ReadError
from lib.frame_headers import Header
from lib.frame_rows import rows_of

LIMIT = 1 << 64
HALF = 1 << 63
RBP, RSP, RA = 6, 7, 16


class NoWord(Exception):
    """The stack has no word at an address."""


class NoValue(Exception):
    """Something has no value."""


class Frame:
    """A frame: its address, whether it is the first one, its registers, and the words of the stack from address 0 on."""

    def __init__(self, kind, address, sp, bp, words):
        self.kind, self.address, self.ip, self.sp, self.bp, self.words = kind, address, address, sp, bp, words
        self.is_first = kind == "ip"
        self.lookup = address - (not self.is_first)

    def word(self, at):
        if at % 8 or not 0 <= at < 8 * len(self.words):
            raise NoWord(at)
        return self.words[at // 8]

    def line(self, said, ip=None, sp=None, bp=None):
        ip, sp, bp = (self.ip if ip is None else ip), (self.sp if sp is None else sp), (self.bp if bp is None else bp)
        return f"{said} ip {ip:#x} sp {sp:#x} bp {bp:#x}"

    # ---- rules

    def by_rule(self, sp, bp_at=None, falls_back=False):
        """Returns from a frame whose stack pointer will be `sp`; RBP is at `bp_at`, if it is stored."""
        bp = self.bp
        if not 0 <= sp < LIMIT:
            return self.line("error IntegerOverflow")
        if bp_at is not None:
            if not 0 <= bp_at < LIMIT:
                return self.line("error IntegerOverflow")
            try:
                bp = self.word(bp_at)
            except NoWord:
                if not (falls_back and self.is_first and bp_at < self.sp):
                    return self.line(f"error CouldNotReadStack({bp_at:#x})")
        if sp < 8:
            return self.line("error IntegerOverflow")
        return self.returns(sp, bp)

    def returns(self, sp, bp):
        try:
            to = self.word(sp - 8)
        except NoWord:
            return self.line(f"error CouldNotReadStack({sp - 8:#x})")
        if to == 0:
            return self.line("none")
        if sp == self.sp and to == self.ip:
            return self.line("error DidNotAdvance")
        return self.line(f"some {to:#x}", to, sp, bp)

    def by_frame_pointer(self, may_end=True):
        if may_end and self.bp == 0:
            return self.line("none")
        sp = self.bp + 16
        if sp >= LIMIT:
            return self.line("error IntegerOverflow")
        if sp <= self.sp:
            return self.line("error FramepointerUnwindingMovedBackwards")
        return self.by_rule(sp, self.bp)

    def uncovered(self):
        return self.by_rule(self.sp + 8) if self.is_first else self.by_frame_pointer(may_end=False)

    # ---- rows

    def register(self, number):
        return {RBP: self.bp, RSP: self.sp, RA: self.ip}.get(number)

    def evaluate(self, data, at, length, room):
        def value(number, offset):
            if self.register(number) is None:
                raise NoValue
            return self.register(number) + offset
        try:
            return expressions.value_of(data, value, room, at, at + length)
        except ReadError:
            raise NoValue from None

    def sum(self, base, offset):
        if base is None or not base < HALF or not 0 <= base + offset < HALF:
            raise NoValue
        return base + offset

    def column(self, rule, number, cfa, data, room):
        """What a register's rule gives in a row that is computed directly."""
        if rule is None or rule in ("u", "a") or rule[0] == "k":
            raise NoValue
        if rule == "s":
            return self.register(number)
        if rule[:4] == "vexp" or rule[:3] == "exp":
            at, length = map(int, rule.split("@")[1].split(","))
            value = self.evaluate(data, at, length, room)
            return value if rule[0] == "v" else self.word(value)
        if rule[0] == "r":
            if self.register(int(rule[1:])) is None:
                raise NoValue
            return self.register(int(rule[1:]))
        at = self.sum(cfa, int(rule[1:]))
        return at if rule[0] == "v" else self.word(at)

    def by_row(self, row, data, room):
        """The line of a step by a row, which is a line of `lib.frame_rows`, and whether the cache keeps it."""
        cfa, *columns = row.split(" ")[1:]
        rules = {int(number): rule for number, rule in (column.split("=") for column in columns if not column.startswith("args"))}
        ra, bp = rules.get(RA), rules.get(RBP)
        if ra is None or ra == "u":
            return self.line("none"), True
        if ra == "c-8" and cfa[0] == "r":
            register, offset = map(int, cfa[1:].split(","))
            if register == RSP and offset % 8 == 0 and 0 <= offset // 8 < 1 << 16:
                if bp in (None, "u", "s"):
                    return self.by_rule(self.sp + offset), True
                stored = int(bp[1:]) + offset if bp[0] == "c" else None
                if stored is not None and stored % 8 == 0 and -(1 << 15) <= stored // 8 < 1 << 15:
                    return self.by_rule(self.sp + offset, self.sp + stored, falls_back=True), True
            if register == RBP and offset == 16 and bp == "c-16":
                return self.by_frame_pointer(), True
        return self.directly(cfa, rules, data, room), False

    def directly(self, cfa, rules, data, room):
        try:
            if cfa[0] == "r":
                register, offset = map(int, cfa[1:].split(","))
                cfa = self.sum(self.register(register), offset)
            else:
                cfa = self.evaluate(data, *map(int, cfa.split("@")[1].split(",")), room)
        except NoValue:
            return self.by_frame_pointer()
        found = {RBP: self.bp, RA: None}
        for number in found:
            try:
                found[number] = self.column(rules.get(number), number, cfa, data, room)
            except (NoValue, NoWord):
                pass
        if found[RA] is None:
            try:
                found[RA] = self.word(cfa - 8)
            except NoWord:
                return self.by_frame_pointer()
        if cfa == self.sp and found[RA] == self.ip or not self.is_first and cfa < self.sp:
            return self.by_frame_pointer()
        return self.line(f"some {found[RA]:#x}", found[RA], cfa, found[RBP])

    # ---- lookups

    def by_fde(self, section, fde, address, room):
        """.. by an FDE of a section that could be read."""
        rows, is_of_cie, error = rows_of(section, fde, rules=192, rows=4)
        row = None if is_of_cie else next((line for start, end, line in rows if start <= address < end), None)
        if row is None:
            return self.uncovered(), True
        return self.by_row(row, section.data, room)

    def by_header(self, section, header, bases, address, room):
        try:
            read = Header(header, bases)
            offset = read.offset(read.lookup(address, LIMIT), LIMIT) if read.count else None
        except ReadError:
            offset = None
        if offset is None or offset >= 1 << 32:
            return self.by_frame_pointer(), True
        try:
            fde = self.fde_at(section, offset)
        except ReadError:
            return self.by_frame_pointer(), True
        return self.by_fde(section, fde, address, room)

    @staticmethod
    def fde_at(section, offset):
        entry = section.entry(section.at(offset))
        if entry is None:
            raise ReadError("NoEntryAtGivenOffset")
        if entry["kind"] == "cie":
            raise ReadError("NotCiePointer", entry["offset"])
        return section.fde(entry)

    def by_index(self, section, base, address, room):
        entries, end = section.entries()
        fdes = [entry for entry in entries if entry["kind"] == "fde" and "error" not in entry]
        fdes = [fde for fde in fdes if base <= fde["initial"] < base + (1 << 32) and fde["initial"] <= address]
        if end or not fdes:
            return self.by_frame_pointer(), True
        return self.by_fde(section, max(fdes, key=lambda fde: fde["initial"]), address, room)

    def by_scan(self, section, address, room):
        entries, end = section.entries()
        for entry in entries:
            if entry["kind"] == "fde" and "error" not in entry and entry["initial"] <= address < (entry["initial"] + entry["range"]) % LIMIT:
                return self.by_fde(section, entry, address, room)
        return (self.by_frame_pointer() if end else self.uncovered()), True
