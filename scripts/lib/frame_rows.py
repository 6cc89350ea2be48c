"""Executes call frame instructions, as the standards alone say (DWARF 5, 6.4.2 and 6.4.3; LSB 5.0, 10.5.2; Arm's "DWARF for the Arm
64-bit Architecture"), over entries that `lib.frame_entries` reads."""

from lib.frame_entries import ReadError, pointer

RA_SIGN_STATE = 34
REGISTER_RULES = (0x05, 0x06, 0x07, 0x08, 0x09, 0x10, 0x11, 0x14, 0x15, 0x16)


def with_sign(number):
    """A number modulo 2^64 with a sign."""
    number %= 1 << 64
    return number - (1 << 64) if number >> 63 else number


class Row:
    """The rules for the CFA and the caller's registers, and the size of arguments."""

    def __init__(self):
        self.cfa, self.rules, self.args = ("r", 0, 0), {}, 0

    def parts(self):
        return self.cfa, dict(self.rules), self.args

    def line(self, start, end):
        """The line of a row, with where it begins and ends."""
        kind, first, second = self.cfa
        cfa = f"r{first},{second}" if kind == "r" else f"exp@{first},{second}"
        rules = "".join(f" {register}={rule}" for register, rule in sorted(self.rules.items()))
        return f"{start:x}..{end:x} {cfa}{rules}" + (f" args={self.args}" if self.args else "")


class Machine:
    """Executes an entry's instructions, with room for so many rules and rows, or without limits."""

    def __init__(self, section, cie, vendor, rules=None, rows=None):
        self.section, self.cie, self.vendor = section, cie, vendor
        self.most_rules, self.most_rows = rules, rows
        self.row, self.remembered, self.initial, self.function = Row(), [], None, None

    def expression(self, data):
        length = data.leb128()
        offset = data.at
        data.take(length)
        return offset, length

    def register(self, data):
        return data.leb128(most=3, bits=16)

    def location(self, data):
        encoding = (self.cie["augmentation"] or {}).get("encoding")
        if encoding is None:
            return data.number(self.cie["size"])
        address, indirect = pointer(encoding, self.section.bases, self.cie["size"], self.function, data)
        if indirect:
            raise ReadError("UnsupportedPointerEncoding")
        return address

    def rule(self, register, rule):
        if register not in self.row.rules and self.most_rules is not None and len(self.row.rules) >= self.most_rules:
            raise ReadError("TooManyRegisterRules")
        self.row.rules[register] = rule

    def factored(self, number):
        return with_sign(number * self.cie["data"])

    def need_room(self, more):
        """There must be room for so many rows besides those that are remembered."""
        if self.most_rows is not None and len(self.remembered) + more > self.most_rows:
            raise ReadError("StackFull")

    def advance(self, location, delta):
        address = location + delta * self.cie["code"] % (1 << 64)
        if address >= 1 << 8 * self.cie["size"]:
            raise ReadError("AddressOverflow")
        return address

    def restore(self, register):
        if self.initial is None:
            raise ReadError("CfiInstructionInInvalidContext")
        if register in self.initial:
            self.rule(register, self.initial[register])
        else:
            self.row.rules.pop(register, None)

    def register_cfa(self):
        if self.row.cfa[0] != "r":
            raise ReadError("CfiInstructionInInvalidContext")
        return self.row.cfa

    def execute(self, data, location):
        """Executes the next instruction. Returns the location that it moves to, if it does."""
        code, row = data.number(1), self.row
        high, low = code & 0xC0, code & 0x3F
        if high == 0x40:
            return self.advance(location, low)
        if high == 0x80:
            return self.rule(low, f"c{self.factored(data.leb128())}")
        if high == 0xC0:
            return self.restore(low)
        if code == 0x00:
            return None
        if code == 0x01:
            address = self.location(data)
            if address < location:
                raise ReadError("InvalidCfiSetLoc", address)
            return address
        if code in (0x02, 0x03, 0x04):
            return self.advance(location, data.number(1 << code - 2))
        if code == 0x0A:
            # From two initial rules on, they are kept as a row of their own.
            self.need_room(2 + (self.initial is not None and len(self.initial) >= 2))
            return self.remembered.append(row.parts())
        if code == 0x0B:
            if not self.remembered:
                raise ReadError("PopWithEmptyStack")
            row.cfa, row.rules, row.args = self.remembered.pop()
            return None
        if code == 0x2E:
            row.args = data.leb128()
            return None
        if code == 0x2D and self.vendor == "AArch64":
            state = row.rules.get(RA_SIGN_STATE, "k0")
            if not state.startswith("k"):
                raise ReadError("CfiInstructionInInvalidContext")
            return self.rule(RA_SIGN_STATE, f"k{1 - int(state[1:]) % 2}")
        if code in (0x0C, 0x0D, 0x0E, 0x0F, 0x12, 0x13):
            return self.set_cfa(code, data)
        return self.set_rule(code, data)

    def set_cfa(self, code, data):
        row = self.row
        if code == 0x0F:
            row.cfa = ("exp", *self.expression(data))
        elif code == 0x0C:
            row.cfa = ("r", self.register(data), with_sign(data.leb128()))
        elif code == 0x12:
            row.cfa = ("r", self.register(data), self.factored(data.leb128(signed=True)))
        elif code == 0x0D:
            register = self.register(data)
            row.cfa = ("r", register, self.register_cfa()[2])
        else:
            offset = with_sign(data.leb128()) if code == 0x0E else self.factored(data.leb128(signed=True))
            row.cfa = ("r", self.register_cfa()[1], offset)

    def set_rule(self, code, data):
        if code not in REGISTER_RULES:
            raise ReadError("UnknownCallFrameInstruction", code)
        register = self.register(data)
        if code == 0x06:
            return self.restore(register)
        if code == 0x07:
            return self.rule(register, "u")
        if code == 0x08:
            return self.rule(register, "s")
        if code == 0x09:
            return self.rule(register, f"r{self.register(data)}")
        if code in (0x10, 0x16):
            offset, length = self.expression(data)
            return self.rule(register, f"{'' if code == 0x10 else 'v'}exp@{offset},{length}")
        number = data.leb128(signed=code in (0x11, 0x15))
        return self.rule(register, f"{'c' if code in (0x05, 0x11) else 'v'}{self.factored(number)}")

    def rows(self, fde):
        """The bounds and the line of each row of an FDE, whether the instructions of its CIE failed, and the error's text, if any."""
        found = []
        try:
            data, location = self.cie["instructions"].copy(), 0
            while data.at < data.end:
                to = self.execute(data, location)
                location = location if to is None else to
            self.need_room(1 + (len(self.row.rules) >= 2))
        except ReadError as error:
            return found, True, error.debug()
        self.initial = dict(self.row.rules)
        self.function = fde["initial"]
        try:
            data, start = fde["instructions"].copy(), fde["initial"]
            while data.at < data.end:
                to = self.execute(data, start)
                if to is not None:
                    found.append((start, to, self.row.line(start, to)))
                    start = to
        except ReadError as error:
            return found, False, error.debug()
        end = (fde["initial"] + fde["range"]) % (1 << 8 * fde["size"])
        found.append((start, end, self.row.line(start, end)))
        return found, False, None


def rows_of(section, fde, vendor="Default", rules=None, rows=None):
    """The rows of an FDE, as `Machine.rows` returns them."""
    return Machine(section, section.cie_at(fde["cie"]), vendor, rules, rows).rows(fde)


def row_at(rows, address, error):
    """The line of the first row that contains an address, or the error's text."""
    return next((line for start, end, line in rows if start <= address < end), error or "NoUnwindInfoForAddress")


def answer(find, *arguments):
    """What a lookup finds: the line of a row, the offset of an FDE, or the error's text."""
    try:
        found = find(*arguments)
    except ReadError as error:
        return error.debug()
    return found if isinstance(found, str) else f"{found['offset']:x}"
