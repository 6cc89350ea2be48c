"""Mach-O files of 64 bits: segments, sections, symbols, and the pointers that a dynamic linker fills."""

import dataclasses
import struct

SEGMENT, SYMBOLS, DYNAMIC_SYMBOLS = 0x19, 0x2, 0xB
LAZY_POINTERS, POINTERS = 7, 6
IS_LOCAL = 0x80000000


@dataclasses.dataclass
class Part:
    """A segment or a section: its address, its size in memory, and its bytes in the file."""

    name: str
    address: int
    size: int
    bytes: bytes
    kind: int = 0
    first_pointer: int = 0


class MachO:
    """A file's segments and sections by their names, and its symbols with their addresses."""

    def __init__(self, data):
        self.segments, self.sections, names = {}, {}, []
        self.symbols, self.pointers = {}, []
        indirect = ()
        for command, at in self.commands(data):
            if command == SEGMENT:
                self.read_segment(data, at)
            elif command == SYMBOLS:
                start, count, strings = struct.unpack_from("<3I", data, at + 8)
                for n in range(count):
                    name_at, kind, _, _, value = struct.unpack_from("<IBBHQ", data, start + 16 * n)
                    name = data[strings + name_at : data.index(b"\0", strings + name_at)].decode()
                    names.append(name)
                    if kind & 0x0E:
                        self.symbols[name] = value
            elif command == DYNAMIC_SYMBOLS:
                start, count = struct.unpack_from("<2I", data, at + 56)
                indirect = struct.unpack_from(f"<{count}I", data, start)
        for section in self.sections.values():
            if section.kind in (LAZY_POINTERS, POINTERS):
                for n in range(section.size // 8):
                    index = indirect[section.first_pointer + n]
                    name = names[index] if index < IS_LOCAL else None
                    self.pointers.append((section.address + 8 * n, name, section.kind == LAZY_POINTERS))

    @staticmethod
    def commands(data):
        count, at = struct.unpack_from("<I", data, 16)[0], 32
        for _ in range(count):
            command, size = struct.unpack_from("<II", data, at)
            yield command, at
            at += size

    def read_segment(self, data, at):
        name = data[at + 8 : at + 24].rstrip(b"\0").decode()
        address, size, offset, length = struct.unpack_from("<4Q", data, at + 24)
        self.segments[name] = Part(name, address, size, data[offset : offset + length])
        for n in range(struct.unpack_from("<I", data, at + 64)[0]):
            section = at + 72 + 80 * n
            name = data[section : section + 16].rstrip(b"\0").decode()
            address, size = struct.unpack_from("<QQ", data, section + 32)
            offset = struct.unpack_from("<I", data, section + 48)[0]
            flags, first = struct.unpack_from("<2I", data, section + 64)
            self.sections[name] = Part(name, address, size, data[offset : offset + size], flags & 0xFF, first)

    def image(self):
        """The bytes of all segments but the linker's own, as they are in memory from the first one on."""
        loaded = [segment for segment in self.segments.values() if segment.name != "__LINKEDIT"]
        first = min(segment.address for segment in loaded)
        image = bytearray(max(segment.address + segment.size for segment in loaded) - first)
        for segment in loaded:
            image[segment.address - first : segment.address - first + len(segment.bytes)] = segment.bytes
        return bytes(image)
