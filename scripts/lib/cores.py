"""Core files of Linux, of 64 bits with the low byte first: segments, notes, threads, mapped files, and the memory of their process.

It is written from the System V gABI and Linux' headers alone (include/uapi/linux/elf.h, fs/binfmt_elf.c).
"""

import collections
import pathlib
import struct

from lib.elf import MACHINES
from lib.tools import give_up

LOAD, NOTE = 1, 4
PRSTATUS, PRPSINFO, AUXV, FILE, SIGINFO, PAC_MASK = 1, 3, 6, 0x46494C45, 0x53494749, 0x406
SYSINFO_EHDR = 33

# The registers in the order of `pr_reg`, by the names of gdb.
REGISTERS = {
    "x86_64": ("r15 r14 r13 r12 rbp rbx r11 r10 r9 r8 rax rcx rdx rsi rdi orig_rax rip cs eflags rsp ss fs_base gs_base "
               "ds es fs gs").split(),
    "aarch64": [f"x{number}" for number in range(31)] + ["sp", "pc", "pstate"],
}
# Where they are in an NT_PRSTATUS, and where the thread's id is.
PR_REG, PR_PID = 112, 32

Segment = collections.namedtuple("Segment", "kind flags offset address size memory_size")
Note = collections.namedtuple("Note", "name kind descriptor whole")
Mapping = collections.namedtuple("Mapping", "start end offset name")
Thread = collections.namedtuple("Thread", "number registers code_mask")


def notes_of(data):
    """The notes of a segment, with all their bytes."""
    at = 0
    while at + 12 <= len(data):
        name_size, size, kind = struct.unpack_from("<III", data, at)
        start = at + 12 + (name_size + 3) // 4 * 4
        end = start + (size + 3) // 4 * 4
        yield Note(data[at + 12:at + 12 + name_size].rstrip(b"\0"), kind, data[start:start + size], data[at:end])
        at = end


def note(name, kind, descriptor):
    """The bytes of a note."""
    name += b"\0"
    return struct.pack("<III", len(name), len(descriptor), kind) + name + b"\0" * (-len(name) % 4) + descriptor + b"\0" * (-len(descriptor) % 4)


def file_note(mappings):
    """An NT_FILE with these mappings, whose offsets are of whole pages."""
    rows = b"".join(struct.pack("<QQQ", start, end, offset // 4096) for start, end, offset, _ in mappings)
    return note(b"CORE", FILE, struct.pack("<QQ", len(mappings), 4096) + rows + b"".join(name + b"\0" for *_, name in mappings))


def command_note(descriptor, name, arguments):
    """An NT_PRPSINFO as this one, but with another name and other arguments."""
    return note(b"CORE", PRPSINFO, descriptor[:40] + name.ljust(16, b"\0") + arguments.ljust(80, b"\0"))


def mask_note(mask):
    """An NT_ARM_PAC_MASK with this mask of data and of code."""
    return note(b"LINUX", PAC_MASK, struct.pack("<QQ", mask, mask))


def with_notes(data, make):
    """A core whose notes are those that `make` gives for its own. They are behind all else."""
    data = bytearray(data)
    table, count = struct.unpack_from("<Q", data, 32)[0], struct.unpack_from("<H", data, 56)[0]
    for at in range(table, table + 56 * count, 56):
        kind, _, offset, _, _, size, _, _ = struct.unpack_from("<IIQQQQQQ", data, at)
        if kind == NOTE:
            notes = make(list(notes_of(bytes(data[offset:offset + size]))))
            data += b"\0" * (-len(data) % 8)
            struct.pack_into("<Q", data, at + 8, len(data))
            struct.pack_into("<Q", data, at + 32, len(notes))
            return bytes(data + notes)
    give_up("the core has no notes")


def rebuilt(core, parts):
    """A core with the header of another and with these segments, each with its kind, flags, address, size in memory, and bytes."""
    header = bytearray(core[:64])
    struct.pack_into("<Q", header, 32, 64)
    struct.pack_into("<Q", header, 40, 0)
    struct.pack_into("<HHHHH", header, 54, 56, len(parts), 0, 0, 0)
    program_headers, body = b"", b""
    for kind, flags, address, size, data in parts:
        offset = 64 + 56 * len(parts) + len(body)
        program_headers += struct.pack("<IIQQQQQQ", kind, flags, offset, address, 0, len(data), size, 4)
        body += data
    return bytes(header) + program_headers + body


class Core:
    """A core. Gives up if it is none of x86_64 or aarch64."""

    def __init__(self, path):
        self.data = pathlib.Path(path).read_bytes()
        if self.data[:6] != b"\x7fELF\x02\x01" or struct.unpack_from("<H", self.data, 16)[0] != 4:
            give_up(f"{path} is no core of 64 bits with the low byte first")
        (machine,) = struct.unpack_from("<H", self.data, 18)
        self.machine = MACHINES.get(machine) or give_up(f"{path} is of neither x86_64 nor aarch64")
        (table,), (count,) = struct.unpack_from("<Q", self.data, 32), struct.unpack_from("<H", self.data, 56)
        headers = [struct.unpack_from("<IIQQQQQQ", self.data, table + 56 * index) for index in range(count)]
        self.segments = [Segment(kind, flags, offset, address, size, memory_size)
                         for kind, flags, offset, address, _, size, memory_size, _ in headers]
        self.notes = [each for segment in self.segments if segment.kind == NOTE
                      for each in notes_of(self.data[segment.offset:segment.offset + segment.size])]

    def threads(self):
        """The threads in the order of the core, each with its registers by name and its mask of signed code addresses."""
        names, threads = REGISTERS[self.machine], []
        for each in self.notes:
            if each.name == b"CORE" and each.kind == PRSTATUS:
                (number,) = struct.unpack_from("<I", each.descriptor, PR_PID)
                values = struct.unpack_from(f"<{len(names)}Q", each.descriptor, PR_REG)
                threads.append(Thread(number, dict(zip(names, values)), 0))
            elif each.name == b"LINUX" and each.kind == PAC_MASK and threads:
                threads[-1] = threads[-1]._replace(code_mask=struct.unpack("<QQ", each.descriptor)[1])
        return threads

    def mappings(self):
        """The mapped files, each with the offset in bytes."""
        for each in self.notes:
            if each.name == b"CORE" and each.kind == FILE:
                count, page = struct.unpack_from("<QQ", each.descriptor)
                rows = [struct.unpack_from("<QQQ", each.descriptor, 16 + 24 * row) for row in range(count)]
                names = each.descriptor[16 + 24 * count:].split(b"\0")
                return [Mapping(start, end, offset * page, name) for (start, end, offset), name in zip(rows, names)]
        return []

    def auxiliary(self, wanted):
        """The value of the first entry of the auxiliary vector of a type, or None."""
        for each in self.notes:
            if each.name == b"CORE" and each.kind == AUXV:
                for kind, value in struct.iter_unpack("<QQ", each.descriptor):
                    if kind in (0, wanted):
                        return value if kind else None
        return None

    def loaded(self):
        """The segments of memory."""
        return [segment for segment in self.segments if segment.kind == LOAD]

    def memory_from(self, address):
        """The bytes that the first segment with some at an address has from there on."""
        for segment in self.loaded():
            if segment.address <= address < segment.address + segment.size:
                return self.data[segment.offset + address - segment.address:segment.offset + segment.size]
        return b""
