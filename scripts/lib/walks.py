"""The walks that `bench/walks` and `bench/tables` time: documents with a real library's entries, and programs that run them in turn."""

import collections
import itertools
import json
import os
import pathlib
import random
import re
import struct
import subprocess

from lib import leb128, readelf
from lib.elf import NOBITS, Elf
from lib.timed import timed_program
from lib.timing import printed, words_of
from lib.tools import CALLED, give_up

BASE = 0x7F12_3400_0000
STACK = 0x7FFD_8000_0000
WORDS = [BASE + 0x1000 + 16 * i for i in range(128)]
MOST_STEPS = 2048
WALKS, DEPTH, FRAMES, MOST_FRAME = 32, 128, 400, 512
# As many as a cache has.
SLOTS = 509
# The most bytes of a document, as ./unwind takes it.
LONGEST = 1 << 24

# A machine: its name, the names of the first frame's registers and of readelf's, how many bytes an instruction has at least, and a call, and
# a CIE without an augmentation.
Machine = collections.namedtuple("Machine", "name registers sp fp width call cie")
MACHINES = {machine.name: machine for machine in (
    Machine("x86_64", ("ip", "sp", "bp"), "rsp", "rbp", 1, 5, bytes.fromhex("100000000000000001000178100c070890010000")),
    Machine("aarch64", ("lr", "sp", "fp"), "sp", "x29", 4, 4, bytes.fromhex("1000000000000000010004781e0c1f0000000000")),
)}

# The opcodes of moves with an operand of its own, of one, two and four bytes.
MOVES = (0x02, 0x03, 0x04)

# A frame at an address of the code: whether the CFA is relative to the frame pointer, its distance from there, and the distances below
# it at which the return address and the caller's frame pointer are stored, 0 if this is not.
Frame = collections.namedtuple("Frame", "address by_fp size ra fp")


def after(data, at):
    """The offset after a number of variable length."""
    return leb128.read_unsigned(data, at)[1]


def instructions_of(data):
    """The opcode of each call frame instruction, with where it begins and ends."""
    at = 0
    while at < len(data):
        opcode, start, at = data[at], at, at + 1
        if opcode & 0xC0 == 0x80:
            at = after(data, at)
        elif opcode in MOVES:
            at += 1 << (opcode - 2)
        elif opcode in (0x0C, 0x05, 0x11, 0x12, 0x14, 0x15, 0x09):
            at = after(data, after(data, at))
        elif opcode in (0x06, 0x07, 0x08, 0x0D, 0x0E, 0x13, 0x2E):
            at = after(data, at)
        elif opcode in (0x0F, 0x10, 0x16):
            at = at if opcode == 0x0F else after(data, at)
            length, at = leb128.read_unsigned(data, at)
            at += length
        yield opcode, start, at


def cfa_instructions(data):
    """The moves, the instructions on the CFA, and the offsets of registers; longer moves become moves of at most 63."""
    found = bytearray()
    for opcode, start, end in instructions_of(data):
        if opcode in MOVES:
            found.append(0x40 | min(int.from_bytes(data[start + 1 : end], "little"), 63))
        elif opcode & 0xC0 in (0x40, 0x80) or opcode in (0x0C, 0x0D, 0x0E):
            found += data[start:end]
    return bytes(found)


def rows_of(data):
    """How many rows an FDE with these instructions has: one, and one for each move."""
    return 1 + sum(opcode & 0xC0 == 0x40 or opcode in MOVES for opcode, _, _ in instructions_of(data))


def fdes_of(address, frame):
    """Initial address, length and instructions of each FDE. Addresses are taken to be 4 bytes with a sign, relative to their offsets."""
    found, at = [], 0
    while at < len(frame):
        (length,) = struct.unpack_from("<I", frame, at)
        if length == 0:
            break
        body, end = at + 4, at + 4 + length
        (back,) = struct.unpack_from("<I", frame, body)
        if back != 0:
            initial, size = struct.unpack_from("<iI", frame, body + 4)
            skipped = frame[body + 12]
            found.append((address + body + 4 + initial, size, frame[body + 13 + skipped : end]))
        at = end
    return found


def section_made(cie, fdes):
    """A section of one CIE and these FDEs."""
    parts, at = [cie], len(cie)
    for initial, size, instructions in fdes:
        instructions = cfa_instructions(instructions)
        instructions += bytes(-(20 + len(instructions)) % 8)
        parts.append(struct.pack("<IIQQ", 20 + len(instructions), at + 4, initial, size) + instructions)
        at += 24 + len(instructions)
    return b"".join(parts)


def repeated(fdes, count):
    """The FDEs again and again, at higher addresses, until there are so many."""
    span = max(initial + size for initial, size, _ in fdes)
    return [(initial + i // len(fdes) * span, size, code) for i in range(count) for initial, size, code in [fdes[i % len(fdes)]]]


def header_made(header_at, at, cie, section):
    """A header of a section that `section_made` made, sorted by the starts."""
    rows, offset = [], len(cie)
    while offset < len(section):
        length, _, initial = struct.unpack_from("<IIQ", section, offset)
        rows.append((initial - header_at, at + offset - header_at))
        offset += 4 + length
    parts = [struct.pack("<BBBBII", 1, 3, 3, 0x3B, at, len(rows))]
    return b"".join(parts + [struct.pack("<ii", *row) for row in sorted(rows)])


def frames_of(library, machine, start, end, chance, length):
    """Frames at addresses between two, drawn from FDEs that are drawn, if the row says where the return address is stored, and is that of the
    last byte of a call of so many bytes too."""
    fdes = [fde for fde in readelf.fdes(library, rows_of_cies=True) if start <= fde.start and fde.start + 16 <= fde.end <= end]
    found = []
    for _ in range(50 * FRAMES):
        if len(found) == FRAMES:
            break
        fde = chance.choice(fdes)
        address = chance.randrange(fde.start, fde.end, machine.width)
        row = fde.row(address)
        if address + length > fde.end or fde.row(address + length - 1) != row:
            continue
        base, _, size = row.cfa.partition("+")
        below = [re.fullmatch(r"(?:c-(\d+)|u)", row.rules.get(name, "u")) for name in ("ra", machine.fp)]
        if base not in (machine.sp, machine.fp) or not size or None in below:
            continue
        frame = Frame(address, base == machine.fp, int(size), *(int(match[1] or 0) for match in below))
        if frame.size <= MOST_FRAME and 0 < frame.ra <= frame.size and frame.fp <= frame.size and (frame.fp or not frame.by_fp):
            found.append(frame)
    return found


def stack_of(chain, machine, chance, length):
    """A walk's instruction pointer, registers and words, if each frame of the chain called the next by a call of so many bytes. The outermost
    returns to 0."""
    pc, sp, fp, return_address, stored = 0, STACK, 0, 0, {}
    for frame in chain:
        cfa = sp
        stored[cfa - frame.ra] = return_address
        if frame.fp:
            stored[cfa - frame.fp] = fp
            fp = cfa - frame.size
        sp = cfa - frame.size - (16 * chance.randrange(1, 9) if frame.by_fp else 0)
        pc = BASE + frame.address
        return_address = pc + length
    code = pc if machine.name == "x86_64" else return_address
    return pc, (code, sp, fp), sp, [stored.get(at, 0x1000 + at % 0x1000) for at in range(sp, STACK, 8)]


def apart(frames, machine):
    """Those of some frames that no other of them shares a slot of a cache with, as first and as later frames."""
    found, taken = [], set()
    for frame in frames:
        slots = {(BASE + frame.address) % SLOTS, (BASE + frame.address + machine.call - 1) % SLOTS}
        if taken.isdisjoint(slots):
            found.append(frame)
            taken |= slots
    return found


def walks_of(library, machine, start, end, is_apart):
    """Walks over stacks of which the outer halves are the same. If a cache is to have room for all their rules, a call is longer than one
    byte: else an address is that of first frames and of later ones, whose rules differ."""
    chance = random.Random(1)
    length = machine.call if is_apart else machine.width
    frames = frames_of(library, machine, start, end, chance, length)
    frames = apart(frames, machine) if is_apart else frames
    shared = chance.choices(frames, k=DEPTH // 2)
    chains = (shared + chance.choices(frames, k=DEPTH - len(shared)) for _ in range(WALKS))
    return [(*stack_of(chain, machine, chance, length), 2 * DEPTH) for chain in chains]


def steps_of(fdes, machine):
    """Steps from the middle of code, as walks of two frames."""
    addresses = [BASE + (initial + size // 2) // machine.width * machine.width for initial, size, _ in fdes[:: -(-len(fdes) // MOST_STEPS)]]
    first = lambda address: address if machine.name == "x86_64" else WORDS[0]
    return [(address, (first(address), STACK, STACK + 64), STACK, WORDS, 2) for address in addresses]


def document_of(library, count, headed, is_walks, is_apart=False):
    """A document of walks or steps through the code of a library: if they are apart, a cache has room for all rules of the walks."""
    elf = Elf(library)
    machine = MACHINES[elf.machine_name()]
    at, section = elf.section(".eh_frame")
    text, code = elf.section(".text")
    fdes = fdes_of(at, section)
    header = elf.section(".eh_frame_hdr") if headed else None
    if count is not None:
        fdes = repeated(fdes, count)
        section = section_made(machine.cie, fdes)
        if headed:
            header_at = at + len(section)
            header = header_at, header_made(header_at, at, machine.cie, section)
    end = BASE + max(initial + size for initial, size, _ in fdes)
    sections = [{"name": ".eh_frame", "start": hex(at), "end": hex(at + len(section)), "data": section.hex()},
                {"name": ".text", "start": hex(text), "end": hex(text)}]
    if header:
        at, table = header
        sections.append({"name": ".eh_frame_hdr", "start": hex(at), "end": hex(at + len(table)), "data": table.hex()})
    load = {"do": "load", "unwinder": 0, "name": "lib", "start": hex(BASE), "end": hex(end),
            "base": hex(BASE), "base_svma": "0x0", "sections": sections}
    made = walks_of(library, machine, text, text + len(code), is_apart) if is_walks else steps_of(fdes, machine)
    walks = [{"do": "walk", "unwinder": 0, "cache": 0, "pc": hex(pc), "limit": limit,
              "stack": {"start": hex(start), "words": list(map(hex, words))},
              "regs": dict(zip(machine.registers, map(hex, registers)))} for pc, registers, start, words, limit in made]
    commands = [{"do": "unwinder"}, {"do": "cache"}, load] + walks
    return {"arch": machine.name, "policy": "may", "commands": commands}


def work(document, rounds):
    """What the programs read, as crates/bench_steps/src/work.rt says."""
    number = lambda text: int(text, 16)
    machine = MACHINES[document["arch"]]
    commands = document["commands"]
    load = next(command for command in commands if command["do"] == "load")
    walks = [command for command in commands if command["do"] == "walk"]
    sections = {section["name"]: section for section in load["sections"]}
    starts = [number(sections[name]["start"]) for name in (".text", ".eh_frame")]
    parts = [struct.pack("<IQQQQI", rounds, number(load["start"]), number(load["end"]), *starts, len(walks))]
    for walk in walks:
        words = list(map(number, walk["stack"]["words"]))
        registers = [number(walk["regs"][name]) for name in machine.registers]
        mask = number(walk["regs"].get("mask", "0xffffffffffffffff"))
        parts.append(struct.pack("<Q4QI", number(walk["pc"]), *registers, mask, walk["limit"]))
        parts.append(struct.pack("<QI%dQ" % len(words), number(walk["stack"]["start"]), len(words), *words))
    header = sections.get(".eh_frame_hdr", {"start": "0x0", "data": ""})
    table = bytes.fromhex(header["data"])
    parts += [struct.pack("<QI", number(header["start"]), len(table)), table, bytes.fromhex(sections[".eh_frame"]["data"])]
    return b"".join(parts)


def times_of(program, words, path):
    """How many frames there are, and the least nanoseconds of a module and of a frame in three ways."""
    written = printed(program, *words, given=path.read_bytes())
    found = re.fullmatch(r"(\d+) frames\nmodule (\d+) ns, warm (\d+) ns, fresh (\d+) ns, with making (\d+) ns\n", written)
    if not found:
        give_up(f"{program} printed something else")
    frames, module, *times = map(int, found.groups())
    return frames, [module] + [time / frames for time in times]


def times_of_peer(program, path, rounds):
    """The same of a program that reads the document."""
    written = printed(program, str(path), str(rounds))
    frames = re.search(r"^jobs \d+ frames (\d+)", written, re.M)
    names = (r"module \S+ ns", "warm ns/frame", "fresh-less-making ns/frame", "fresh ns/frame")
    least = [re.search(rf"^{name} median \S+ least (\S+)", written, re.M) for name in names]
    if not frames or None in least:
        give_up(f"{program} printed something else")
    return int(frames[1]), [float(found[1]) for found in least]


def indexed(document):
    """How many FDEs the index of a document's module is made of: None if the module has a header."""
    load = next(command for command in document["commands"] if command["do"] == "load")
    data = {section["name"]: section.get("data") for section in load["sections"]}
    return None if ".eh_frame_hdr" in data else len(fdes_of(0, bytes.fromhex(data[".eh_frame"])))


class Turns:
    """Programs that make the same walks in turn, so many rounds each time, with what they read in a folder. The original is a program
    of bench/walks_original.rs, a peer one that reads documents."""

    unit = "ns"

    def __init__(self, folder, turns, rounds, original=None, peer=None):
        self.folder, self.turns, self.rounds, self.original, self.peer = pathlib.Path(folder), turns, rounds, original, peer
        self.numbers = itertools.count()

    def _file(self, data):
        path = self.folder / f"given-{next(self.numbers)}"
        path.write_bytes(data)
        return path

    def ours(self, document, is_tabulated=False):
        """A run of a document by our program: that with tables of rules, or that without."""
        program = timed_program(f"bench_{'tables' if is_tabulated else 'walks'}_{document['arch']}")
        path = self._file(work(document, self.rounds))
        return lambda: times_of(program, ["time"], path)

    def rival(self, document):
        """A run of it by the original or its peer, or None if there is neither, or if the document is too long for the peer."""
        if self.original:
            path = self._file(work(document, self.rounds))
            return lambda: times_of(self.original, [document["arch"]], path)
        text = json.dumps(document, separators=(",", ":")).encode() if self.peer else b""
        if not 0 < len(text) <= LONGEST:
            return None
        path = self._file(text)
        return lambda: times_of_peer(self.peer, path, self.rounds)

    def least(self, runs, is_same=True):
        """The least times of each run, which has to give as many frames as the others if they make the same walks; those of None are
        None."""
        runs = list(runs)
        found = [[run and run() for run in runs] for _ in range(self.turns)]
        frames = {result[0] for results in found for result in results if result}
        if is_same and len(frames) > 1:
            give_up(f"not the same number of frames: {', '.join(map(str, sorted(frames)))}")
        return [run and [min(times) for times in zip(*(results[at][1] for results in found))] for at, run in enumerate(runs)]


def with_walks(document, walks_of):
    """The document with other walks, which a function makes of its own."""
    made = walks_of([command for command in document["commands"] if command["do"] == "walk"])
    return {**document, "commands": [command for command in document["commands"] if command["do"] != "walk"] + made}


def without_frames(walks):
    """The same walks, which end before their first frame."""
    return [{**walk, "limit": 0} for walk in walks]


class Counts(Turns):
    """The same programs, whose instructions are counted in place of time: each is run under valgrind, and what runs of nearly the same
    work take more is that of the rest. So reading and printing don't count."""

    unit = "instructions"

    def __init__(self, folder, original=None):
        super().__init__(folder, 1, 1, original)

    def _counted(self, program, words, document, rounds):
        """How many frames a run prints, and its instructions."""
        return instructions_of(program, *words, given=work(document, rounds))

    def _run(self, program, document, once, again, passes):
        """Frames, and the instructions of making a module, of all walks through one cache that has seen them, and of all with a new
        cache each, without and with the making of the caches. With the words `once` the program walks once, with `again` also as often
        as there are rounds: once through the cache that has seen the walks, and so many passes with new caches."""
        rounds = 0 if once == again else 1

        def whole(walks_of):
            (frames, first), (_, second) = (self._counted(program, again, with_walks(document, walks_of), count) for count in (1, 2))
            return frames, second - first

        def single(walks_of):
            return self._counted(program, once, with_walks(document, walks_of), rounds)[1]

        (frames, all_walks), (_, no_frames), (_, module) = whole(lambda walks: walks), whole(without_frames), whole(lambda walks: [])
        seen = single(lambda walks: walks + walks) - single(lambda walks: walks + without_frames(walks))
        fresh, caches = (all_walks - no_frames - seen) / passes, (no_frames - module) / passes
        return frames, [module, *(value / frames for value in (seen, fresh, fresh + caches))]

    def ours(self, document, is_tabulated=False):
        program = timed_program(f"bench_{'tables' if is_tabulated else 'walks'}_{document['arch']}")
        return lambda: self._run(program, document, [], ["time"], 2)

    def rival(self, document):
        if not self.original:
            return None
        words = [document["arch"]]
        return lambda: self._run(self.original, document, words, words, 1)


def instructions_of(program, *words, given=b""):
    """The number at the start of what a program prints on some input, and how many instructions it takes, by valgrind."""
    CALLED.add("valgrind")
    command = ["valgrind", "--tool=callgrind", "--callgrind-out-file=/dev/null", *words_of(program), *words]
    try:
        done = subprocess.run(command, input=given, capture_output=True)
    except FileNotFoundError:
        give_up("valgrind is needed, and is not installed")
    counted, printed_number = re.search(rb"Collected : (\d+)", done.stderr), re.match(rb"(\d+) ", done.stdout)
    if done.returncode != 0 or not counted or not printed_number:
        give_up(f"{program} ended with status {done.returncode} under valgrind")
    return int(printed_number[1]), int(counted[1])


def for_each_fde(times, document):
    """Times with that of making a module for each FDE, if its index is made of FDEs."""
    fdes = times and indexed(document)
    return [times[0] / fdes, *times[1:]] if fdes else times


# ---- libraries

PLACES = ("/usr", "/opt", str(pathlib.Path.home()))
DYNAMIC, X86_64 = 3, 62


def size_of_eh_frame(path):
    """How large the `.eh_frame` of a shared library of x86_64 is, or 0."""
    with open(path, "rb") as file:
        head = file.read(64)
        if head[:6] != b"\x7fELF\x02\x01" or struct.unpack_from("<HH", head, 16) != (DYNAMIC, X86_64):
            return 0
        (at,) = struct.unpack_from("<Q", head, 0x28)
        size, count, names = struct.unpack_from("<HHH", head, 0x3A)
        file.seek(at)
        table = file.read(size * count)
        sections = [struct.unpack_from("<IIQQQQ", table, i * size) for i in range(count)]
        file.seek(sections[names][4])
        text = file.read(sections[names][5])
    return max((found[5] for found in sections if text[found[0] :].startswith(b".eh_frame\0") and found[1] != NOBITS), default=0)


def largest_library():
    """The shared library of x86_64 on this machine with the largest `.eh_frame`."""
    found = []
    for place in PLACES:
        for folder, _, names in os.walk(place):
            for path in (os.path.join(folder, name) for name in names if ".so" in name):
                try:
                    found.append((0 if os.path.islink(path) else size_of_eh_frame(path), path))
                except (OSError, struct.error, IndexError):
                    continue
    size, path = max(found, default=(0, None))
    return path if size else give_up(f"there is no shared library in {', '.join(PLACES)}")
