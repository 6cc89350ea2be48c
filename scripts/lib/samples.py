"""Small sections of unwind data that are cut out of real files: entries of call frames, functions of PE and of Mach-O files."""

import collections
import pathlib
import struct

from lib.compact import Reader
from lib.elf import Elf
from lib.programs import STACKS
from lib.tools import output, run

# An entry of call frames in its bytes from its length on, without padding of its own: its CIE, and where its start's pointer is.
Fde = collections.namedtuple("Fde", "data encoding size")
# Entries that are after each other in a file and have one CIE.
Entries = collections.namedtuple("Entries", "arch name cie fdes")
# A function of a PE file: its bytes, and its unwind info.
Function = collections.namedtuple("Function", "code info")
# The sections of a Mach-O file, by name: the address and the bytes.
Image = collections.namedtuple("Image", "arch sections")
# A function of a Mach-O file: its bytes, and its encoding.
Encoded = collections.namedtuple("Encoded", "code encoding")

PLATFORM = ("-platform_version", "macos", "11.0", "11.0")

C = """
long calls(long (*f)(long), long n) { long s = 0; for (long i = 0; i < n; i++) { if (f(i)) return s; s += f(n) * f(s); } return s; }
long leaf(long n) { return n * 3; }
long sized(long n, void (*f)(char *)) { char room[n]; f(room); return room[n / 2]; }
long large(long n, void (*f)(char *)) { char room[70000]; f(room); return room[n]; }
"""


def number(data, at, size):
    return int.from_bytes(data[at : at + size], "little")


def encoding_of(cie):
    """The encoding of pointers to code by an `.eh_frame`'s CIE with the augmentation zR, zPLR or the like, or None."""
    end = cie.index(0, 9)
    letters = cie[9:end].decode("latin-1")
    if not letters.startswith("z"):
        return 0 if letters == "" else None
    at = end + 1
    for _ in range(2):
        while cie[at] & 0x80:
            at += 1
        at += 1
    at += 2  # the column of the return address and the size of the augmentation, each in one byte
    sizes = {"P": {0x9B: 5, 0x1B: 5, 0x00: 9}.get(cie[at], 5), "L": 1, "S": 0, "B": 0}
    for letter in letters[1:]:
        if letter == "R":
            return cie[at]
        at += sizes.get(letter, 0)
    return 0


def entries_of(arch, name, data, most=8):
    """The entries of a section, up to so many of each CIE in one list."""
    found, cies, at = [], {}, 0
    while at + 8 <= len(data):
        length = number(data, at, 4)
        if length == 0 and name == ".eh_frame":
            break
        entry, ident = data[at : at + 4 + length], number(data, at + 4, 4)
        if ident == (0 if name == ".eh_frame" else 0xFFFFFFFF):
            cies[at] = entry
        else:
            cie = cies[at + 4 - ident if name == ".eh_frame" else ident]
            encoding = encoding_of(cie) if name == ".eh_frame" else 0
            if encoding in (0x1B, 0x00) and len(entry) < 200:
                size = 4 if encoding == 0x1B else 8
                fde = Fde(entry, encoding, number(entry, 8 + size, size))
                if found and found[-1].cie == cie and len(found[-1].fdes) < most:
                    found[-1].fdes.append(fde)
                else:
                    found.append(Entries(arch, name, cie, [fde]))
        at += 4 + length
    return found


def eh_frames(path):
    """The entries of the `.eh_frame` of a file."""
    elf = Elf(path)
    return entries_of(elf.machine_name(), ".eh_frame", elf.section(".eh_frame")[1])


def debug_frames(folder, compiler, linker):
    """The entries of the `.debug_frame` of a program that a compiler builds."""
    folder = pathlib.Path(folder)
    (folder / "a.c").write_text(C)
    found = []
    for level in ("-O0", "-O2"):
        run(compiler, level, "-g", "-fno-asynchronous-unwind-tables", "-fno-unwind-tables", "-c", "a.c", "-o", "a.o", folder=folder)
        run(linker, "-Ttext=0x401000", "-e", "0", "a.o", "-o", "a.program", folder=folder)
        elf = Elf(folder / "a.program")
        found += entries_of(elf.machine_name(), ".debug_frame", elf.section(".debug_frame")[1])
    return found


def pe_functions(path, most=160):
    """The functions of a PE file that have at most so many bytes, with their unwind infos without the function's handler."""
    data = pathlib.Path(path).read_bytes()
    head = number(data, 0x3C, 4)
    count, optional = number(data, head + 6, 2), number(data, head + 20, 2)
    sections = {}
    for i in range(count):
        name, _, rva, size, at = struct.unpack_from("<8sIIII", data, head + 24 + optional + 40 * i)
        sections[name.rstrip(b"\0")] = rva, data[at : at + size]
    found = []
    for begin, end, info in struct.iter_unpack("<III", sections[b".pdata"][1][: len(sections[b".pdata"][1]) // 12 * 12]):
        for name, into in ((b".text", begin), (b".xdata", info)):
            if not sections[name][0] <= into < sections[name][0] + len(sections[name][1]):
                break
        else:
            code = sections[b".text"][1][begin - sections[b".text"][0] : end - sections[b".text"][0]]
            xdata = sections[b".xdata"][1][info - sections[b".xdata"][0] :]
            if 0 < len(code) <= most:
                found.append(Function(code, xdata[: 4 + 2 * (xdata[2] + 1 & ~1) + (12 if xdata[0] >> 3 & 4 else 0)]))
    return found


def compact_images(folder):
    """Small programs with `__unwind_info` that clang and lld build for macOS."""
    folder, found = pathlib.Path(folder), []
    for source in (C, STACKS):
        (folder / "a.c").write_text(source)
        for arch, target in (("x86_64", "x86_64"), ("aarch64", "arm64")):
            for flags in ((), ("-fomit-frame-pointer",)):
                run("clang", f"--target={target}-apple-macos11", "-O2", *flags, "-c", "a.c", "-o", "a.o", folder=folder)
                run("ld64.lld-14", "-arch", target, *PLATFORM, "-dylib", "-undefined", "dynamic_lookup", "a.o", "-o", "a.dylib", folder=folder)
                found.append(Image(arch, macho_sections((folder / "a.dylib").read_bytes())))
    return found


def encoded_functions(image):
    """The functions of a Mach-O file that its `__unwind_info` names."""
    start, code = image.sections["__text"]
    reader, found, at = Reader(image.sections["__unwind_info"][1]), [], start
    while function := reader.function(at):
        begin, end, encoding = function
        found.append(Encoded(code[begin - start : end - start], encoding))
        at = end
    return found


def macho_sections(data):
    """The sections of a Mach-O file of 64 bits, by name."""
    found, at = {}, 32
    for _ in range(number(data, 16, 4)):
        command, size = struct.unpack_from("<II", data, at)
        if command == 0x19:  # LC_SEGMENT_64
            for i in range(number(data, at + 64, 4)):
                section = at + 72 + 80 * i
                address, length, offset = struct.unpack_from("<QQI", data, section + 32)
                found[data[section : section + 16].rstrip(b"\0").decode()] = address, data[offset : offset + length]
        at += size
    return found
