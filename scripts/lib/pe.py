"""PE files of x86_64: their sections, their rows and unwind infos by llvm-readobj, the compilers that build them here, and documents."""

import itertools
import json
import pathlib
import re
import struct

from lib.tools import output

BASE = 0x7FF700000000
GCC, GXX = "x86_64-w64-mingw32-gcc", "x86_64-w64-mingw32-g++"
CLANG = ("clang", "--target=x86_64-w64-windows-gnu")


def cxx_headers():
    """clang's options for the headers of mingw-w64's C++ library."""
    folder = pathlib.Path(output(GXX, "-print-libgcc-file-name").strip()).parent / "include/c++"
    return "-isystem", folder, "-isystem", folder / "x86_64-w64-mingw32"


class Pe:
    """A PE file: its base, its size in memory, and its sections by name, as the first address, relative to the base, and the data."""

    def __init__(self, path):
        data = path.read_bytes()
        head = struct.unpack_from("<I", data, 0x3C)[0]
        count, optional = struct.unpack_from("<H12xH", data, head + 6)
        self.base = struct.unpack_from("<Q", data, head + 24 + 24)[0]
        self.size = struct.unpack_from("<I", data, head + 24 + 56)[0]
        self.sections = {}
        for i in range(count):
            name, size, rva, held, at = struct.unpack_from("<8sIIII", data, head + 24 + optional + 40 * i)
            self.sections[name.rstrip(b"\0").decode()] = rva, data[at : at + min(size, held)]


def rows_of(path):
    """The rows of a file as llvm-readobj prints them: begin, end, and the codes of each info of the chain. It prints the codes of a
    chained info where the row of this is."""
    rows = []
    for line in output("llvm-readobj", "--unwind", path).splitlines():
        line = line.strip()
        if line.startswith("RuntimeFunction {"):
            rows.append({"infos": [], "chained": None})
        elif line.startswith("Chained {"):
            rows[-1]["chained"] = "next"
        elif rows and rows[-1]["chained"] == "next" and (m := re.fullmatch(r"StartAddress: .*\((0x[0-9A-F]+)\)", line)):
            rows[-1]["chained"] = int(m[1], 16)
        elif m := re.fullmatch(r"(Start|End)Address: .*\((0x[0-9A-F]+)\)", line):
            rows[-1].setdefault(m[1], int(m[2], 16))
        elif line.startswith("Version:"):
            rows[-1]["infos"].append([])
            rows[-1]["version"] = int(line.split()[1])
        elif m := re.fullmatch(r"0x([0-9A-F]+): (\w+)(.*)", line):
            fields = dict(part.strip().split("=") for part in m[3].split(",") if "=" in part)
            rows[-1]["infos"][-1].append((int(m[1], 16), m[2], fields))
    by_start = {row["Start"]: row for row in rows if "Start" in row}
    for row in rows:
        above = row
        while above["chained"] is not None:
            above = by_start[above["chained"]]
            row["infos"] = row["infos"] + above["infos"][:1]
    return rows


class Machine:
    """Undoes codes over registers and a stack whose words tell their addresses."""

    def __init__(self, sp, bp):
        self.registers = {"RSP": sp, "RBP": bp}
        self.reads = []

    def word(self, at):
        self.reads.append(at)
        return word_at(at)

    def pop(self, register):
        value = self.word(self.registers["RSP"])
        self.registers["RSP"] += 8
        if register != "RSP":
            self.registers[register] = value
        return value

    def undo(self, codes):
        """Undoes codes, and returns: the return address."""
        frame = next((f for _, kind, f in codes if kind == "SET_FPREG"), None)
        for _, kind, fields in codes:
            if kind == "PUSH_NONVOL":
                self.pop(fields["reg"])
            elif kind in ("ALLOC_SMALL", "ALLOC_LARGE"):
                self.registers["RSP"] += int(fields["size"])
            elif kind == "SET_FPREG":
                self.registers["RSP"] = self.registers.get(fields["reg"], 0) - int(fields["offset"], 16)
            elif kind.startswith("SAVE_NONVOL"):
                base = self.registers.get(frame["reg"], 0) - int(frame["offset"], 16) if frame else self.registers["RSP"]
                self.registers[fields["reg"]] = self.word(base + int(fields["offset"], 16))
            elif kind == "PUSH_MACHFRAME":
                at = self.registers["RSP"] + (8 if fields["errcode"] == "yes" else 0)
                to, self.registers["RSP"] = self.word(at), self.word(at + 24)
                return to
            elif not kind.startswith("SAVE_XMM128"):
                return None
        return self.pop("RSP")


def word_at(at):
    """The word at an address of the stack."""
    return at ^ 0x5000_0000_0000


def codes_to_undo(row, offset):
    """The codes of a row that are undone at an offset in its function."""
    first, *others = row["infos"]
    return [*itertools.dropwhile(lambda code: code[0] > offset, first), *itertools.chain(*others)]


def hexadecimal(number):
    return f"{number:#x}"


def load_of(pe, start, names=(".pdata", ".rdata", ".xdata", ".text", ".eh_frame"), code_rules="published"):
    """The command that loads a file's module at an address, with the sections of these names, and code by these rules. Files keep eight
    letters of a name."""
    sections = []
    for name in names:
        if name[:8] in pe.sections:
            rva, data = pe.sections[name[:8]]
            first, end = hexadecimal(pe.base + rva), hexadecimal(pe.base + rva + len(data))
            sections.append({"name": name, "start": first, "end": end, "data": data.hex()})
    load = {"do": "load", "unwinder": 0, "name": "m", "start": hexadecimal(start), "end": hexadecimal(start + pe.size)}
    return load | {"base": hexadecimal(start), "base_svma": hexadecimal(pe.base), "sections": sections} | code_rules_of(code_rules)


def code_rules_of(rules):
    """The field of a load for rules of code, if they aren't those that it has without one."""
    return {} if rules == "published" else {"code_rules": rules}


def document_of(commands):
    """The document of one unwinder and one cache that performs commands."""
    commands = [{"do": "unwinder"}, {"do": "cache"}, *commands]
    return json.dumps({"arch": "x86_64", "policy": "may", "commands": commands}, separators=(",", ":"))
