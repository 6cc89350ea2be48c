"""Recordings of aarch64, which perf can't make of what qemu runs: each sample is made of a core that qemu dumped of a small program without
a library, and the stack that it has to have is that of the program's calls."""

import pathlib
import shutil
import struct

from lib import perf, perf_written
from lib.core_cases import dump_by_qemu
from lib.cores import Core
from lib.tools import give_up, run

SOURCE = """
__attribute__((noinline)) void leaf(long n) { if (n) __builtin_trap(); __asm__ volatile ("" ::: "memory"); }
__attribute__((noinline)) long middle(long depth, long n) {
  volatile long room[6] = {n};
  if (depth) { long left = middle(depth - 1, n + 1); __asm__ volatile ("" ::: "memory"); return left + room[0]; }
  leaf(n + 1);
  return room[0];
}
__attribute__((noinline)) long outer(volatile long *depth) { long left = middle(*depth, 1); return left + *depth; }
void _start(void) { __asm__ volatile (".cfi_undefined x30"); volatile long depth = DEPTH; outer(&depth); for (;;) ; }
"""
DEPTHS = (0, 1, 5, 17, 40)
# How much of a stack is copied, in bytes: of the deepest not all.
COPIED = 2048
KINDS = perf.IP | perf.TID | perf.TIME | perf.REGS | perf.STACK
PID = 4000

NO_TABLES = ("-fno-asynchronous-unwind-tables", "-fno-unwind-tables")
CASES = {
    "aarch64": ["-O2", "-fomit-frame-pointer"],
    "aarch64-frames": ["-O1", "-fno-omit-frame-pointer"],
    "aarch64-signed": ["-O2", "-mbranch-protection=pac-ret+leaf", "-march=armv8.3-a"],
}


def segments_with_code(program):
    """The address, the size and the offset of each segment of a program that has code."""
    data = pathlib.Path(program).read_bytes()
    table, count = struct.unpack_from("<Q", data, 32)[0], struct.unpack_from("<H", data, 56)[0]
    for at in range(table, table + 56 * count, 56):
        kind, flags, offset, address, _, size, _, _ = struct.unpack_from("<IIQQQQQQ", data, at)
        if kind == 1 and flags & 1:
            yield address, size, offset


def pages(address, size, offset):
    """A segment as it is mapped, in pages of 4 KiB."""
    before = address % 4096
    return address - before, (size + before + 4095) // 4096 * 4096, offset - before


def sample_of(core, pid, time):
    """The payload of a sample of the thread of a core."""
    made = Core(core)
    registers = made.threads()[0].registers
    words = [registers[name] for name in [*(f"x{number}" for number in range(31)), "sp", "pc"]]
    stack = made.memory_from(registers["sp"])[:COPIED]
    head = perf_written.word(registers["pc"]) + perf_written.half(pid, pid) + perf_written.word(time)
    copied = perf_written.word(COPIED) + stack.ljust(COPIED, b"\0") + perf_written.word(len(stack))
    return head + perf_written.word(2, *words) + copied


def record(folder, name):
    """The recording of a case, with the names of the frames that each sample has, the outermost first."""
    for tool in ("qemu-aarch64", "clang", "ld.lld"):
        if not shutil.which(tool):
            give_up(f"{tool} is needed, and is not installed")
    source, records, stacks = folder / "program.c", b"", []
    source.write_text(SOURCE)
    for time, depth in enumerate(DEPTHS, 2):
        program = folder / f"program-{depth}"
        options = ["--target=aarch64-linux-gnu", "-nostdlib", "-static", "-fuse-ld=lld", "-w", f"-DDEPTH={depth}", *CASES[name]]
        run("clang", *options, "-o", program, source)
        pid = PID + depth
        ended = perf_written.trailer(KINDS, pid, pid, time, 0)
        records += perf_written.record(3, perf_written.half(pid, pid) + perf_written.padded(b"arm") + ended, 0x2000)
        for place in map(lambda it: pages(*it), segments_with_code(program)):
            mapping = perf_written.mapping(pid, pid, *place, str(program).encode())
            records += perf_written.record(10, mapping + ended)
        records += perf_written.record(9, sample_of(dump_by_qemu(folder, program), pid, time), 2)
        for core in folder.glob("qemu_*.core"):
            core.unlink()
        stacks.append(["_start", "outer", *["middle"] * (depth + 1), "leaf"])
    attributes = perf_written.attributes(KINDS, mask=perf_written.AARCH64_MASK, stack=COPIED)
    file = folder / "perf.data"
    file.write_bytes(perf_written.file_of([(attributes, [])], records, b"aarch64"))
    return file, stacks
