"""Functions of a file: their FDEs, by readelf, their instructions, by objdump, and which of these are in prologues and epilogues."""

import bisect
import collections
import functools
import re

from lib import readelf
from lib.elf import Elf
from lib.tools import output

OBJDUMP = {"x86_64": "objdump", "aarch64": "aarch64-linux-gnu-objdump"}
LINE = re.compile(r"^ *([0-9a-f]+):\t(.*)$", re.M)
# What objdump adds to an instruction: the name of an address, and a comment.
ADDED = {"x86_64": re.compile(r"<.*|#.*"), "aarch64": re.compile(r"<.*|//.*")}
PREFIXES = ("repz", "rep", "bnd", "notrack", "data16", "cs", "ds", "lock")

# What makes up a prologue, what makes up an epilogue, what leaves a stretch of code, and what returns. The first two match an instruction
# with its operands, of registers that a function has to save.
SAVED = r"(?:[xw](?:19|2\d|30)|d(?:8|9|1[0-5]))"
PROLOGUE = {
    "x86_64": re.compile(r"endbr64|push|sub \$\S+,%rsp$|mov %rsp,%rbp$|and \$\S+,%rsp$"),
    "aarch64": re.compile(rf"bti|paci[ab]sp|st[pr] .*\[sp, #-\d+\]!$|stp {SAVED}, {SAVED}, \[sp|str {SAVED}, \[sp|sub sp, sp, #|(?:mov|add) x29, sp"),
}
EPILOGUE = {
    "x86_64": re.compile(r"pop|leave|(?:add|sub) \$\S+,%rsp$|lea \S*\(%r[sb]p\),%rsp$|mov %rbp,%rsp$"),
    "aarch64": re.compile(rf"auti[ab]sp|ldp {SAVED}, {SAVED}, \[sp|ldr {SAVED}, \[sp|add sp, sp, #|(?:mov|sub|add) sp, x29"),
}
LEAVES = {"x86_64": re.compile(r"j|call|ret|loop|hlt|ud2|syscall"), "aarch64": re.compile(r"b |b\.|bl |blr|br |bra|ret|cbz|cbnz|tbz|tbnz|svc|brk|udf")}
RETURNS = {"x86_64": re.compile(r"ret"), "aarch64": re.compile(r"ret")}
JUMPS = {"x86_64": re.compile(r"jmp (\*?)([0-9a-f]*)"), "aarch64": re.compile(r"b()(?:raa|r)? ([0-9a-f]*)")}
ENTRY = {"x86_64": "rsp+8", "aarch64": "sp+0"}

# An instruction with its prefixes, and `text` without them.
Instruction = collections.namedtuple("Instruction", "address text prefixes")


def instructions_of(file, machine):
    """The instructions of all code, in their order."""
    found = []
    for address, text in LINE.findall(output(OBJDUMP[machine], "-d", "-w", "--no-show-raw-insn", str(file))):
        words = ADDED[machine].sub("", text).split()
        count = next((i for i, word in enumerate(words) if word not in PREFIXES), 0)
        found.append(Instruction(int(address, 16), " ".join(words[count:]), words[:count]))
    return found


class Function:
    """An FDE with its code and its instructions."""

    def __init__(self, machine, fde, code, instructions):
        self.machine, self.fde, self.code, self.instructions = machine, fde, code, instructions

    def row(self, i):
        """The row at an instruction."""
        return self.fde.row(self.instructions[i].address)

    def offset(self, i):
        """How far an instruction is from the start of the function."""
        return self.instructions[i].address - self.fde.start

    def stretches(self):
        """The stretches of code without a branch in front of their last instruction."""
        start = 0
        for i, instruction in enumerate(self.instructions):
            if LEAVES[self.machine].match(instruction.text) or i + 1 == len(self.instructions):
                yield range(start, i + 1)
                start = i + 1

    def is_left_by(self, i):
        """Whether an instruction returns, or jumps out of the function; through a register only if the row is that of the entry."""
        text = self.instructions[i].text
        if RETURNS[self.machine].match(text):
            return True
        jump = JUMPS[self.machine].match(text)
        if jump is None:
            return False
        if not jump[2] or jump[1]:
            return self.row(i).cfa == ENTRY[self.machine]
        return not self.fde.start <= int(jump[2], 16) < self.fde.end

    @functools.cached_property
    def prologues(self):
        """For each prologue its instructions: from the first to the last of a stretch that begins as the function does."""
        found = []
        for stretch in self.stretches():
            parts = [i for i in stretch if PROLOGUE[self.machine].match(self.instructions[i].text)]
            if parts and self.row(parts[0]).cfa == ENTRY[self.machine]:
                found.append(range(parts[0], parts[-1] + 1))
        return found

    @functools.cached_property
    def epilogues(self):
        """For each epilogue its instructions: from the first that restores something to the last of a stretch, which leaves the function."""
        found = []
        for stretch in self.stretches():
            if self.is_left_by(stretch[-1]):
                first = next((i for i in stretch if EPILOGUE[self.machine].match(self.instructions[i].text)), stretch[-1])
                found.append(range(first, stretch[-1] + 1))
        return found


def functions(file):
    """The functions of the code in `.text`. Those whose CFA is an expression are left out."""
    elf = Elf(file)
    machine = elf.machine_name()
    start, data = elf.section(".text")
    instructions = instructions_of(file, machine)
    addresses = [instruction.address for instruction in instructions]
    for fde in readelf.fdes(file, rows_of_cies=True):
        if not (start <= fde.start < fde.end <= start + len(data)) or any(row.cfa == "exp" for row in fde.rows):
            continue
        first, last = (bisect.bisect_left(addresses, at) for at in (fde.start, fde.end))
        yield Function(machine, fde, data[fde.start - start : fde.end - start], instructions[first:last])
