"""Reads `.eh_frame_hdr`, as the standard alone says (LSB 5.0, 10.6.2), over entries that `lib.frame_entries` reads."""

from lib.frame_entries import Bytes, ReadError, encoding, pointer, value
from lib.frame_rows import row_at, rows_of

LIMIT = 1 << 64


def written(address):
    return f"{'*' if address[1] else ''}{address[0]:x}"


SIZES = {2: 2, 3: 4, 4: 8, 10: 2, 11: 4, 12: 8}


class Header:
    """A header of a version and with encodings that are known."""

    def __init__(self, data, bases, size=8, big=False):
        self.data, self.size, self.bases, self.big = data, size, bases, big
        rest = Bytes(data, 0, len(data), big)
        version = rest.number(1)
        if version != 1:
            raise ReadError("UnknownVersion", version)
        start, count, self.table = encoding(rest), encoding(rest), encoding(rest)
        self.start = self.pointer(start, rest)
        self.count = 0
        if count != 0xFF and self.table != 0xFF:
            if count > 0x0F:
                raise ReadError("UnsupportedPointerEncoding")
            self.count = value(count, size, rest) % (1 << 64)
        self.rows_at = rest.at

    def pointer(self, byte, rest):
        return pointer(byte, self.bases, self.size, None, rest)

    def bytes_from(self, at):
        return Bytes(self.data, at, len(self.data), self.big)

    def read_row(self, rest):
        """The line of the next row, or the error's text."""
        try:
            start = self.pointer(self.table, rest)
            return f"{written(start)} {written(self.pointer(self.table, rest))}"
        except ReadError as error:
            return error.debug()

    def rows(self, most):
        rest = self.bytes_from(self.rows_at)
        return [self.read_row(rest) for _ in range(min(self.count, most))]

    def pointer_size(self):
        form = self.table & 0x0F
        if form in (1, 9):
            raise ReadError("VariableLengthSearchTable")
        if form not in SIZES:
            raise ReadError("UnknownPointerEncoding", self.table)
        return SIZES[form]

    def after_rows(self, count, limit):
        offset = count * 2 * self.pointer_size()
        if offset >= limit:
            raise ReadError("UnsupportedOffset")
        rest = self.bytes_from(self.rows_at)
        rest.take(offset)
        return rest

    def lookup(self, address, limit):
        size = self.pointer_size()
        first, count = 0, self.count
        while count > 1:
            half = count // 2
            start, indirect = self.pointer(self.table, self.after_rows(first + half, limit))
            if indirect:
                raise ReadError("UnsupportedPointerEncoding")
            if start == address:
                first, count = first + half, 1
            elif start < address:
                first, count = first + half, count - half
            else:
                count = half
        rest = self.after_rows(first, limit)
        rest.take(size)
        return self.pointer(self.table, rest)

    def offset(self, target, limit):
        if target[1] or self.start[1]:
            raise ReadError("UnsupportedPointerEncoding")
        if target[0] < self.start[0]:
            raise ReadError("OffsetOutOfBounds")
        if target[0] - self.start[0] >= limit:
            raise ReadError("UnsupportedOffset")
        return target[0] - self.start[0]

    def found(self, address, limit):
        try:
            target = self.lookup(address, limit)
        except ReadError as error:
            return error.debug()
        try:
            return f"{written(target)} at {self.offset(target, limit):x}"
        except ReadError as error:
            return f"{written(target)} {error.debug()}"

    def nth(self, n, limit):
        """The row after n rows or the error's text, and how many rows are left."""
        try:
            rest = self.after_rows(n, limit)
        except ReadError as error:
            return error.debug(), self.count
        left = max(self.count - n, 0)
        return ("end", 0) if left == 0 else (self.read_row(rest), left - 1)


def fde_by(header, frame, address):
    """The FDE that a header leads to for an address."""
    entry = frame.entry(frame.at(header.offset(header.lookup(address, LIMIT), LIMIT)))
    if entry is None:
        raise ReadError("NoEntryAtGivenOffset")
    if entry["kind"] == "cie":
        raise ReadError("NotCiePointer", entry["offset"])
    fde = frame.fde(entry)
    if not fde["initial"] <= address < (fde["initial"] + fde["range"]) % (1 << 64):
        raise ReadError("NoUnwindInfoForAddress")
    return fde


def row_by(header, frame, address):
    """The line of the row for an address."""
    fde = fde_by(header, frame, address)
    rows, _, error = rows_of(frame, fde, rules=192, rows=4)
    return row_at(rows, address, error)
