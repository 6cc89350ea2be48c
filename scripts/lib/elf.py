"""Reads ELF files of 64 bits with the low byte first: the machine, sections and segments."""

import collections
import pathlib
import struct
import zlib

from lib.tools import give_up

# The numbers of machines, and the names that documents have for them.
MACHINES = {62: "x86_64", 183: "aarch64"}
NOBITS, LOAD, EXECUTABLE, COMPRESSED = 8, 1, 1, 0x800

Section = collections.namedtuple("Section", "name kind flags address offset size")
Segment = collections.namedtuple("Segment", "kind flags offset address size")


class Elf:
    """An ELF file, of the bytes at its path or of those that are given. Gives up if the file is no such file."""

    def __init__(self, path, data=None):
        self.path = path
        try:
            self.data = pathlib.Path(path).read_bytes() if data is None else data
        except OSError as error:
            give_up(error)
        if self.data[:6] != b"\x7fELF\x02\x01":
            give_up(f"{path} is no ELF file of 64 bits with the low byte first")
        (self.machine,) = struct.unpack_from("<H", self.data, 0x12)
        segments_at, sections_at = struct.unpack_from("<QQ", self.data, 0x20)
        segment_size, segments, section_size, sections, names = struct.unpack_from("<HHHHH", self.data, 0x36)
        headers = [struct.unpack_from("<IIQQQQ", self.data, sections_at + i * section_size) for i in range(sections)]
        self.sections = [Section(self._name(headers[names][4] + name), *rest) for name, *rest in headers]
        # A segment's header has its addresses in memory and in the machine, and its sizes in the file and in memory.
        headers = [struct.unpack_from("<IIQQQQQ", self.data, segments_at + i * segment_size) for i in range(segments)]
        self.segments = [Segment(kind, flags, offset, address, size) for kind, flags, offset, address, _, _, size in headers]

    def _name(self, at):
        return self.data[at : self.data.index(0, at)].decode()

    def machine_name(self):
        """The name of the machine. Gives up if it is neither x86_64 nor aarch64."""
        return MACHINES.get(self.machine) or give_up(f"{self.path} is of neither x86_64 nor aarch64")

    def find(self, name):
        """The section of a name whose bytes the file has, or None."""
        return next((section for section in self.sections if section.name == name and section.kind != NOBITS), None)

    def bytes_of(self, section):
        """The bytes of a section, decompressed if the file has them compressed."""
        data = self.data[section.offset : section.offset + section.size]
        if not section.flags & COMPRESSED:
            return data
        if data[:4] != b"\1\0\0\0":
            give_up(f"{self.path}: {section.name} is not compressed by zlib")
        return zlib.decompress(data[24:])

    def section(self, name):
        """The address and the bytes of a section. Gives up if the file has no such section."""
        found = self.find(name) or give_up(f"{self.path} has no section {name}")
        return found.address, self.bytes_of(found)

    def loaded(self):
        """The segments that are loaded, in their order."""
        return [segment for segment in self.segments if segment.kind == LOAD]

    def base(self):
        """The page that the first loaded segment is linked for."""
        return self.loaded()[0].address & ~0xFFF
