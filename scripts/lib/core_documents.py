"""Documents for ./unwind of the walks over a core's threads."""

import json
import pathlib
import struct
import sys

from lib.cores import NOTE, SYSINFO_EHDR, Core, Mapping, notes_of
from lib.elf import COMPRESSED, EXECUTABLE, NOBITS, Elf
from lib.tools import give_up

FRAMES, PLACES, MOST_FRAMES, MOST_BYTES = (".eh_frame", ".eh_frame_hdr", ".debug_frame"), (".text", ".got"), 65_536, 16 << 20
LAST = (1 << 64) - 1


def build_id(data, segments):
    """The build id in the notes of segments, or None."""
    for kind, offset, size in segments:
        if kind == NOTE:
            for each in notes_of(data[offset:offset + size]):
                if each.name == b"GNU" and each.kind == 3:
                    return each.descriptor
    return None


def id_in_memory(core, name):
    """The build id of a mapped file as the core has its first bytes, or None."""
    start = next((mapping.start for mapping in core.mappings() if mapping.name == name and mapping.offset == 0), None)
    data = b"" if start is None else core.memory_from(start)
    if len(data) < 64 or data[:4] != b"\x7fELF":
        return None
    table, count = struct.unpack_from("<Q", data, 32)[0], struct.unpack_from("<H", data, 56)[0]
    headers = [struct.unpack_from("<IIQQQQ", data, table + 56 * index) for index in range(count) if table + 56 * index + 56 <= len(data)]
    return build_id(data, [(kind, offset, size) for kind, _, offset, _, _, size in headers])


def file_of(core, name, root):
    """A mapped file, or None if it is no ELF file or another than the core's."""
    path = pathlib.Path(root + name.decode("utf-8", "surrogateescape"))
    if not path.is_file() or (data := path.read_bytes())[:4] != b"\x7fELF":
        return None
    elf, known = Elf(path, data), id_in_memory(core, name)
    if known and known != build_id(data, [(segment.kind, segment.offset, segment.size) for segment in elf.segments]):
        print(f"core-document: {path} has another build id than the core", file=sys.stderr)
        return None
    return elf


def loads_of(core, root):
    """The loads of all mappings with code, and of the virtual shared object."""
    files, loads = {}, []
    for mapping in core.mappings():
        if mapping.name not in files:
            files[mapping.name] = file_of(core, mapping.name, root)
        if files[mapping.name]:
            loads += load(mapping, files[mapping.name])
    start = core.auxiliary(SYSINFO_EHDR)
    if start is not None and (data := core.memory_from(start)):
        loads += load(Mapping(start, start + len(data), 0, b"[vdso]"), Elf("[vdso]", data))
    return loads


def code_segment(mapping, elf):
    """The segment with code in whose first page a mapping begins, or else the first of which it has bytes, or None."""
    size = mapping.end - mapping.start
    found = [segment for segment in elf.loaded()
             if segment.flags & EXECUTABLE and max(segment.offset - mapping.offset, 0) < size and max(mapping.offset - segment.offset, 0) < segment.size]
    begun = [segment for segment in found if segment.offset - segment.offset % 4096 == mapping.offset]
    return next(iter(begun + found), None)


def sections_of(elf):
    """The sections that a load takes."""
    listed = []
    for name in FRAMES + PLACES:
        section = next((section for section in elf.sections if section.name == name), None)
        if section:
            entry = {"name": name, "start": hex(section.address), "end": hex(min(section.address + section.size, LAST))}
            if name in FRAMES and section.kind != NOBITS and not section.flags & COMPRESSED:
                entry["data"] = elf.bytes_of(section).hex()
            listed.append(entry)
    return listed


def load(mapping, elf):
    """The load of a mapping, if it has code."""
    segment = code_segment(mapping, elf)
    if segment is None or not 0 <= mapping.start + segment.offset - mapping.offset <= LAST:
        return []
    return [
        {"do": "load", "unwinder": 0, "name": mapping.name.decode("ascii", "replace"), "start": hex(mapping.start), "end": hex(mapping.end),
         "base": hex(mapping.start + segment.offset - mapping.offset), "base_svma": hex(segment.address), "sections": sections_of(elf)}]


def walk(core, thread, limit):
    """The walk from a thread's registers over the words of its stack."""
    values = thread.registers
    if core.machine == "x86_64":
        pc, regs = values["rip"], {"ip": values["rip"], "sp": values["rsp"], "bp": values["rbp"]}
    else:
        pc, regs = values["pc"], {"lr": values["x30"], "sp": values["sp"], "fp": values["x29"], "mask": LAST - thread.code_mask}
    data = core.memory_from(regs["sp"])
    words = struct.unpack_from(f"<{len(data) // 8}Q", data)
    regs = {name: hex(value) for name, value in regs.items()}
    return {"do": "walk", "unwinder": 0, "cache": 0, "pc": hex(pc), "limit": limit, "regs": regs,
            "stack": {"start": regs["sp"], "words": [hex(word) for word in words]}}


def document(path, root="", number=None, limit=MOST_FRAMES):
    """The document of a core, as text, with the threads that it walks."""
    core = Core(path)
    threads = [thread for thread in core.threads() if number in (None, thread.number)]
    if not threads:
        give_up(f"{path} has no such thread")
    commands = [{"do": "unwinder"}, {"do": "cache"}, *loads_of(core, root), *(walk(core, thread, limit) for thread in threads)]
    return json.dumps({"arch": core.machine, "policy": "must", "commands": commands}, separators=(",", ":")), threads
