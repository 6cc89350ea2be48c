"""The prologues and epilogues that are recognised in machine code, and the unwind rules for them: slow and plain, by the manuals of Intel
and Arm alone. A rule is a name with its fields, or None."""

import functools
import itertools
import re


class Rule(tuple):
    """A rule's name and its fields by name."""

    def __new__(cls, name, **fields):
        return tuple.__new__(cls, (name, tuple(fields.items())))

    def __str__(self):
        name, fields = self
        return name + (" { " + ", ".join(f"{field}: {value}" for field, value in fields) + " }" if fields else "")

    @property
    def name(self):
        return self[0]

    def __getattr__(self, field):
        return dict(self[1])[field]


def fits(number, least, most):
    return least <= number <= most


# ---- x86_64: bytes by Intel's manual, volume 2, PUSH, POP, MOV, SUB, RET, JMP

PUSH, POP = rb"[\x40\x41]?[\x50-\x57]", rb"[\x40\x41]?[\x58-\x5f]"
PUSHES, POPS = re.compile(rb"(?:%s)*" % PUSH, re.S), re.compile(rb"(?:%s)*" % POP, re.S)
EXPECTED = re.compile(rb"%s|\x48?[\x83\x81]\xec|\x48\x89\xe5" % PUSH, re.S)
FRAME_SETUP = b"\x55\x48\x89\xe5"


def prologue_x86_64(code, offset):
    before, after = code[:offset], code[offset:]
    if len(after) < 4 or not EXPECTED.match(after):
        return None
    start = next(start for start in range(offset + 1) if PUSHES.fullmatch(before, start))
    if before[:start].endswith(FRAME_SETUP):
        return Rule("UseFramePointer")
    words = len(re.findall(PUSH, before[start:], re.S)) + 1
    return Rule("OffsetSp", sp_offset_by_8=words) if words < 1 << 16 else None


def epilogue_x86_64(code, offset):
    end = POPS.match(code, offset).end()
    pops = re.findall(POP, code[offset:end], re.S)
    is_after_pop = pops or re.search(rb"[\x58-\x5f]\Z", code[:offset], re.S)
    if code[end : end + 1] != b"\xc3" and not (is_after_pop and code[end : end + 1] in (b"\xeb", b"\xe9", b"\xff")):
        return None
    if not pops:
        return Rule("JustReturn")
    words = len(pops) + 1
    if words >= 1 << 16:
        return None
    if b"\x5d" not in pops:
        return Rule("OffsetSp", sp_offset_by_8=words)
    stored = max(i for i, pop in enumerate(pops) if pop == b"\x5d")
    if stored >= 1 << 15:
        return None
    return Rule("OffsetSpAndRestoreBp", sp_offset_by_8=words, bp_storage_offset_from_sp_by_8=stored)


# ---- aarch64: words by Arm's manual, C4.1 and C6.2. A letter is a bit of a field, `-` one that isn't looked at.

PATTERNS = {
    "pacibsp": "11010101000000110010001101111111",
    "autibsp": "11010101000000110010001111111111",
    "eor": "11001010000111100000011111010000",
    "tbz": "10110110111100000000000001010000",
    "brk": "11010100001110001000111000100000",
    "ret": "11010110010111110000001111000000",
    "retab": "11010110010111110000111111111111",
    "stp": "1-10100mm0iiiiiiisssss11111fffff",
    "ldp": "1-10100mm1iiiiiiisssss11111fffff",
    "add": "100100010hiiiiiiiiiiii1111111111",
    "sub": "110100010hiiiiiiiiiiii1111111111",
    "add x29": "100100010hiiiiiiiiiiii1111111101",
    "b": "000101--------------------------",
    "br": "1101011000011111000000-----00000",
    "mov x16": "110---101------------------10000",
    "braa": "1101011100011111000010-----10000",
}
POST, PLAIN, PRE = 1, 2, 3


def bits_of(pattern, letters):
    """A number with a 1 for each of these letters."""
    return int("".join("1" if letter in letters else "0" for letter in pattern), 2)


FIXED = {name: (bits_of(pattern, "1"), bits_of(pattern, "01")) for name, pattern in PATTERNS.items()}


def field(name, letter, word):
    """The bits of a field."""
    pattern = PATTERNS[name]
    first = pattern.index(letter)
    count = pattern.count(letter)
    return word >> (32 - first - count) & ((1 << count) - 1)


def name_of(word):
    """The name of a word's instruction, or None. A pair has one of three modes."""
    for name, (bits, mask) in FIXED.items():
        if word & mask == bits and not (name in ("stp", "ldp") and field(name, "m", word) == 0):
            return name
    return None


class Instruction:
    """A word, read."""

    def __init__(self, word):
        self.name = name_of(word)
        self.mode, self.loads, self.moves = None, {}, 0
        if self.name in ("stp", "ldp"):
            self.mode = field(self.name, "m", word)
            bits = field(self.name, "i", word)
            offset = 8 * (bits - (bits >= 64) * 128)
            at = 0 if self.mode == POST else offset
            self.moves = 0 if self.mode == PLAIN else offset
            if self.name == "ldp":
                self.loads = {field("ldp", "f", word): at}
                self.loads[field("ldp", "s", word)] = at + 8
        elif self.name in ("add", "sub", "add x29"):
            bytes_ = field(self.name, "i", word) << 12 * field(self.name, "h", word)
            self.moves = {"add": bytes_, "sub": -bytes_, "add x29": 0}[self.name]


@functools.lru_cache(maxsize=None)
def instruction(word):
    return Instruction(word)


def at(code, offset):
    """The instruction at an offset, or None if no whole word is there."""
    if offset < 0 or offset + 4 > len(code):
        return None
    return instruction(int.from_bytes(code[offset : offset + 4], "little"))


def name_at(code, offset):
    return (found := at(code, offset)) and found.name


def rule_aarch64(raised, fp, lr):
    """The rule for what is restored: how far SP is moved, and from where x29 and x30 are loaded."""
    if raised % 16 or not fits(raised // 16, 0, 0xFFFF) or (fp is not None and lr is None):
        return None
    units = raised // 16
    if lr is None:
        return Rule("OffsetSp", sp_offset_by_16=units) if units else Rule("NoOp")
    if any(at % 8 or not fits(at // 8, -(1 << 15), (1 << 15) - 1) for at in (lr, fp) if at is not None):
        return None
    if fp is None:
        return Rule("OffsetSpAndRestoreLr", sp_offset_by_16=units, lr_storage_offset_from_sp_by_8=lr // 8)
    stored = {"fp_storage_offset_from_sp_by_8": fp // 8, "lr_storage_offset_from_sp_by_8": lr // 8}
    return Rule("OffsetSpAndRestoreFpAndLr", sp_offset_by_16=units, **stored)


def prologue_aarch64(code, offset):
    before = (at(code, earlier) for earlier in range(offset - 4, -1, -4))
    run = itertools.takewhile(lambda it: it.name in ("pacibsp", "stp", "sub"), before)
    lowered = -sum(it.moves for it in run)
    after = at(code, offset)
    if after is None or after.name not in ("pacibsp", "stp", "sub", "add x29"):
        return None
    if after.name == "stp" and after.mode == PLAIN and lowered == 0:
        return None
    return rule_aarch64(lowered, None, None)


def auth_tail_call_words(code, offset):
    """The number of words of the authenticated tail call that is at an offset: 0 if there is none."""
    names = [name_at(code, offset + 4 * i) for i in range(6)]
    if names[:4] != ["autibsp", "eor", "tbz", "brk"]:
        return 0
    return 5 if names[4] == "b" else 6 if names[4:] == ["mov x16", "braa"] else 0


def is_in_end(code, offset):
    if any(before < auth_tail_call_words(code, offset - 4 * before) for before in range(6)):
        return True
    last = at(code, offset - 4)
    is_raise = last and (last.name == "add" or (last.name == "ldp" and last.mode == POST))
    return bool(is_raise and name_at(code, offset) in ("b", "br"))


def epilogue_aarch64(code, offset):
    if is_in_end(code, offset):
        return Rule("NoOp")
    raised, loaded = 0, {}
    while here := at(code, offset):
        if here.name in ("ret", "retab") or (here.name == "b" and raised) or auth_tail_call_words(code, offset):
            return rule_aarch64(raised, loaded.get(29), loaded.get(30))
        if here.name not in ("ldp", "add"):
            return None
        loaded.update({number: raised + place for number, place in here.loads.items()})
        raised += here.moves
        offset += 4
    return None


DETECTORS = {"x86_64": (prologue_x86_64, epilogue_x86_64), "aarch64": (prologue_aarch64, epilogue_aarch64)}


def optional(rule):
    return "None" if rule is None else f"Some({rule})"


def shown(machine, code, offset):
    """The line of an offset that the program prints."""
    prologue, epilogue = (detect(code, offset) for detect in DETECTORS[machine])
    return f"{offset}: {optional(prologue)}, {optional(epilogue)}, {optional(prologue or epilogue)}\n"
