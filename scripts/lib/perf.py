"""Recordings of perf: a second reader, from the kernel's perf_event.h and perf.data-file-format.txt, and a writer of small ones."""

import struct

MAGIC = b"PERFILE2"
# The fields of a sample in their order, each with its bit of sample_type.
IP, TID, TIME, ADDR, READ, CALLCHAIN, ID, CPU, PERIOD, STREAM_ID, RAW, BRANCH, REGS, STACK, WEIGHT, SOURCE = (1 << bit for bit in range(16))
IDENTIFIER, TRANSACTION, REGS_INTR, PHYS, AUX, CGROUP, DATA_PAGE, CODE_PAGE, WEIGHT_STRUCT = (1 << bit for bit in range(16, 25))
SAMPLE_ID_ALL = 1 << 18
NO_TIME = 2**64 - 1
KINDS = {1: "mapping", 2: "lost", 3: "command", 4: "exit", 7: "fork", 9: "sample", 10: "mapping", 13: "lost"}
KINDS |= {64: "attributes", 66: "tracing", 67: "build-id", 71: "auxtrace", 80: "feature", 81: "compressed", 83: "compressed"}
MEMBERS = "kind config period sample_type read_format flags branch user_registers user_stack interrupt_registers".split()
PLACES = ["0I", "8Q", "16Q", "24Q", "32Q", "40Q", "72Q", "80Q", "88I", "96Q"]
NAMES = {IDENTIFIER: "the identifier", IP: "the instruction pointer", TID: "process and thread", TIME: "the time", ADDR: "the address"}
NAMES |= {ID: "the id", STREAM_ID: "the stream's id", CPU: "the processor", PERIOD: "the period", READ: "the counter's values"}
NAMES |= {CALLCHAIN: "the call chain", RAW: "the raw data", BRANCH: "the branch stack", REGS: "the user's registers"}
NAMES |= {STACK: "the user's stack", WEIGHT: "the weight", SOURCE: "the data's source", TRANSACTION: "the transaction"}
NAMES |= {REGS_INTR: "the interrupted registers", PHYS: "the physical address", CGROUP: "the control group"}
NAMES |= {DATA_PAGE: "the size of the data's page", CODE_PAGE: "the size of the code's page", AUX: "the data of a trace"}


class Refused(Exception):
    """Why something can't be read."""


class Fields:
    """Bytes that fields are taken from."""

    def __init__(self, data):
        self.data, self.at = data, 0

    def bytes(self, size, name):
        if self.at + size > len(self.data):
            raise Refused(f"{name} goes past the end")
        self.at += size
        return self.data[self.at - size : self.at]

    def word(self, name):
        return int.from_bytes(self.bytes(8, name), "little")

    def half(self, name):
        return int.from_bytes(self.bytes(4, name), "little")

    def words(self, count, name):
        return struct.unpack(f"<{count}Q", self.bytes(8 * count, name)) if 8 * count <= len(self.data) else self.bytes(8 * count, name)

    def name(self):
        return self.data[self.at :].split(b"\0")[0]


def attributes_of(data):
    """The attributes that some bytes begin with."""
    if len(data) < 64:
        raise Refused("the attributes goes past the end")
    size = struct.unpack_from("<I", data, 4)[0] or 64
    if not 64 <= size <= len(data):
        raise Refused("attributes of an unexpected size")
    found = {}
    for name, place in zip(MEMBERS, PLACES):
        at, form = int(place[:-1]), place[-1]
        whole = at + struct.calcsize(form) <= size
        found[name] = struct.unpack_from("<" + form, data, at)[0] if whole else 0
    if found["sample_type"] >= 1 << 25:
        raise Refused("samples of unknown fields")
    return found, size


def trailer_size(attributes):
    kind = attributes["sample_type"]
    return 8 * sum(kind & bit > 0 for bit in (TID, TIME, ID, STREAM_ID, CPU, IDENTIFIER)) if attributes["flags"] & SAMPLE_ID_ALL else 0


def body_and_trailer(attributes, payload):
    size = trailer_size(attributes)
    if size > len(payload):
        raise Refused("what the record ends in goes past the end")
    return payload[: len(payload) - size], payload[len(payload) - size :]


def head_of(fields, kind, order):
    """The fields of one word of a sample or a trailer."""
    found = {}
    for bit in order:
        if not kind & bit:
            continue
        if bit == TID:
            found[bit] = (fields.half(NAMES[bit]), fields.half(NAMES[bit]))
        elif bit == CPU:
            found[bit], _ = fields.half(NAMES[bit]), fields.half(NAMES[bit])
        else:
            found[bit] = fields.word(NAMES[bit])
    return found


HEAD = (IDENTIFIER, IP, TID, TIME, ADDR, ID, STREAM_ID, CPU, PERIOD)
TRAILER = (TID, TIME, ID, STREAM_ID, CPU, IDENTIFIER)


def registers_of(fields, mask, name):
    abi = fields.word(name)
    return abi, fields.words(mask.bit_count(), name) if abi else ()


def skip_read(fields, form, name):
    times, values = form % 2 + form // 2 % 2, 1 + form // 4 % 2 + form // 16 % 2
    if form & 8:
        count = fields.word(name)
        fields.bytes(8 * times, name)
        fields.bytes(8 * values * count, name)
    else:
        fields.bytes(8 * (times + values), name)


def skip_branches(fields, kind, name):
    count = fields.word(name)
    fields.bytes(8 * (kind >> 17 & 1), name)
    fields.bytes(24 * count, name)
    fields.bytes(8 * (kind >> 19 & 1) * count, name)


def sample_of(attributes, payload):
    """A sample: its first fields, call chain, registers and stack."""
    kind, fields = attributes["sample_type"], Fields(payload)
    head = head_of(fields, kind, HEAD)
    if kind & READ:
        skip_read(fields, attributes["read_format"], NAMES[READ])
    chain = fields.words(fields.word(NAMES[CALLCHAIN]), NAMES[CALLCHAIN]) if kind & CALLCHAIN else ()
    if kind & RAW:
        fields.bytes(fields.half(NAMES[RAW]), NAMES[RAW])
    if kind & BRANCH:
        skip_branches(fields, attributes["branch"], NAMES[BRANCH])
    registers = registers_of(fields, attributes["user_registers"], NAMES[REGS]) if kind & REGS else (0, ())
    stack = b""
    if kind & STACK:
        size = fields.word(NAMES[STACK])
        stack = fields.bytes(size, NAMES[STACK])
        if size:
            copied = fields.word(NAMES[STACK])
            if copied > size:
                raise Refused("more bytes of the stack than there is room for")
            stack = stack[:copied]
    if kind & (WEIGHT | WEIGHT_STRUCT):
        fields.word(NAMES[WEIGHT])
    head_of(fields, kind, (SOURCE, TRANSACTION))
    if kind & REGS_INTR:
        registers_of(fields, attributes["interrupt_registers"], NAMES[REGS_INTR])
    head_of(fields, kind, (PHYS, CGROUP, DATA_PAGE, CODE_PAGE))
    if kind & AUX:
        fields.bytes(fields.word(NAMES[AUX]), NAMES[AUX])
    return head, chain, registers, stack


def register_of(mask, words, number):
    """The register with a number, if it was recorded."""
    if not mask >> number & 1:
        return None
    return words[(mask & ((1 << number) - 1)).bit_count()]


def record_at(data, at):
    """The record at a place: its number, misc and payload, and where the next one begins; none if it isn't whole."""
    if len(data) < at + 8:
        return None
    number, misc, size = struct.unpack_from("<IHH", data, at)
    if size < 8:
        raise Refused(f"record of less than 8 bytes (at offset {at:#x})")
    if len(data) < at + size:
        return None
    payload = data[at + 8 : at + size]
    behind = 0
    try:
        if number == 66:
            behind = (Fields(payload).half("the size of the data") + 7) // 8 * 8
        if number == 71:
            behind = Fields(payload).word("the size of the data")
    except Refused as error:
        raise Refused(f"{error} (at offset {at:#x})") from None
    if size + behind >= 1 << 64:
        raise Refused(f"record with too many data (at offset {at:#x})")
    return number, misc, payload, at + size + behind


def mapping_of(attributes, number, misc, payload):
    """A mapping: its thread, range, whether there is code, build id and name."""
    fields = Fields(body_and_trailer(attributes, payload)[0])
    thread = fields.half("process and thread"), fields.half("process and thread")
    place = [fields.word("the mapped range") for _ in range(3)]
    if number == 1:
        return thread, place, not misc & 0x2000, b"", fields.name()
    identity = fields.bytes(24, "the mapped file")
    protection, _ = fields.half("the mapped file"), fields.half("the mapped file")
    build_id = identity[4 : 4 + min(identity[0], 20)] if misc & 0x4000 else b""
    return thread, place, bool(protection & 4), build_id, fields.name()


def event_of(events, number, payload):
    """The index of the event that a record is of."""
    if len(events) == 1:
        return 0
    first = events[0][0]
    if not all(attributes["sample_type"] & IDENTIFIER for attributes, _ in events):
        layout = [(*(it[name] for name in MEMBERS[3:5] + MEMBERS[6:8] + MEMBERS[9:]), it["flags"] & SAMPLE_ID_ALL) for it, _ in events]
        if len(set(layout)) == 1:
            return 0
        raise Refused("records of several layouts without an identifier")
    if number == 9:
        found = Fields(payload).word(NAMES[IDENTIFIER])
    elif not first["flags"] & SAMPLE_ID_ALL:
        return 0
    elif len(payload) < 8:
        raise Refused("what the record ends in goes past the end")
    else:
        found = int.from_bytes(payload[-8:], "little")
    if not found:
        return 0
    for index, (_, ids) in enumerate(events):
        if found in ids:
            return index
    raise Refused(f"no event with the id {found}")
