"""Reads Apple's compact unwind info (`__unwind_info`), as the header mach-o/compact_unwind_encoding.h alone says."""

import struct


class Refused(Exception):
    pass


class Reader:
    """Reads compact unwind info as Apple's header says."""

    def __init__(self, data):
        self.data = data

    def numbers(self, form, at):
        size = struct.calcsize("<" + form)
        if at + size > len(self.data):
            raise Refused("Truncated")
        return struct.unpack_from("<" + form, self.data, at)

    def page(self, at, start, address, end):
        (kind,) = self.numbers("I", at)
        if kind not in (2, 3):
            raise Refused(f"BadPageKind(0x{kind:x})")
        entries, count, *own = self.numbers("HH" if kind == 2 else "4H", at + 4)
        rows = [self.numbers("II" if kind == 2 else "I", at + entries + (8 if kind == 2 else 4) * n) for n in range(count)]
        if at + entries > len(self.data):
            raise Refused("Truncated")
        starts = [row[0] if kind == 2 else min(start + row[0] % (1 << 24), (1 << 32) - 1) for row in rows]
        found = [n for n in range(count) if starts[n] <= address]
        if not found:
            return None
        n = found[-1]
        encoding = rows[n][1] if kind == 2 else self.encoding(rows[n][0] >> 24, at + own[0], own[1])
        return starts[n], starts[n + 1] if n + 1 < count else end, encoding

    def encoding(self, index, own_at, own_count):
        _, common_at, common_count = self.numbers("3I", 0)
        if index < common_count:
            return self.numbers("I", common_at + 4 * index)[0]
        if index - common_count < own_count:
            return self.numbers("I", own_at + 4 * (index - common_count))[0]
        raise Refused("BadEncodingIndex")

    def function(self, address):
        index_at, count = self.numbers("7I", 0)[5:]
        if index_at + 12 * count > len(self.data):
            raise Refused("Truncated")
        rows = [self.numbers("3I", index_at + 12 * n) for n in range(count)]
        found = [n for n in range(count) if rows[n][0] <= address]
        if not found or found[-1] == count - 1:
            return None
        start, page, _ = rows[found[-1]]
        return self.page(page, start, address, rows[found[-1] + 1][0])
