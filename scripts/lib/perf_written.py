"""Small recordings of perf that are written byte by byte, by the kernel's perf_event.h and perf.data-file-format.txt."""

import random
import struct

from lib import perf

GROUP, LOST, FORMAT_ID, ENABLED, RUNNING = 8, 16, 4, 1, 2
X86_64_MASK, AARCH64_MASK = 0xFF0FFF, 0x1FFFFFFFF


def word(*numbers):
    return struct.pack(f"<{len(numbers)}Q", *numbers)


def half(*numbers):
    return struct.pack(f"<{len(numbers)}I", *numbers)


def padded(name):
    return name + bytes(8 - len(name) % 8)


def record(kind, payload, misc=0):
    return struct.pack("<IHH", kind, misc, 8 + len(payload)) + payload


def attributes(kinds, read=0, flags=perf.SAMPLE_ID_ALL, branch=0, mask=X86_64_MASK, stack=64, interrupt=0, size=128, config=0):
    """The attributes of an event whose samples have these fields."""
    data = half(1, size) + word(config, 4000, kinds, read, flags) + half(0, 0) + word(0, 0, branch, mask) + half(stack, 0) + word(interrupt)
    return (data + bytes(size))[:size]


def trailer(kinds, pid, tid, time, ident):
    data = b""
    for bit in perf.TRAILER:
        if kinds & bit:
            data += {perf.TID: half(pid, tid), perf.TIME: word(time), perf.CPU: half(1, 0)}.get(bit, word(ident))
    return data


def sample(kinds, rand, pid, tid, time, ident, ip, read=0, branch=0, mask=X86_64_MASK, abi=2, copied=48, room=64, interrupt=0):
    """The payload of a sample with these fields."""
    data = b""
    for bit in perf.HEAD:
        if kinds & bit:
            known = {perf.TID: half(pid, tid), perf.TIME: word(time), perf.IP: word(ip), perf.CPU: half(3, 0)}
            known |= {perf.ID: word(ident), perf.IDENTIFIER: word(ident)}
            data += known.get(bit, word(rand.getrandbits(40)))
    if kinds & perf.READ:
        times, values = (read & 3).bit_count(), 1 + (read & FORMAT_ID > 0) + (read & LOST > 0)
        numbers = [rand.getrandbits(30) for _ in range(times + 2 * values)]
        data += word(2, *numbers) if read & GROUP else word(*numbers[: times + values])
    if kinds & perf.CALLCHAIN:
        data += word(6, 2**64 - 128, 0xFFFFFFFF81000010, 0xFFFFFFFF81000020, 2**64 - 512, ip, 2**64 - 2048)
    if kinds & perf.RAW:
        data += half(12) + bytes(rand.randrange(256) for _ in range(12))
    if kinds & perf.BRANCH:
        data += word(2) + (word(7) if branch & 1 << 17 else b"") + word(*range(6)) + (word(8, 9) if branch & 1 << 19 else b"")
    if kinds & perf.REGS:
        words = [ip if number in (8, 32) and mask >> number & 1 else rand.getrandbits(46) for number in range(64) if mask >> number & 1]
        if mask == AARCH64_MASK:
            words[8] = rand.getrandbits(46)
        data += word(abi) + (word(*words) if abi else b"")
    if kinds & perf.STACK:
        data += word(room) + bytes(rand.randrange(256) for _ in range(room)) + (word(copied) if room else b"")
    if kinds & (perf.WEIGHT | perf.WEIGHT_STRUCT):
        data += word(1)
    data += b"".join(word(2) for bit in (perf.SOURCE, perf.TRANSACTION) if kinds & bit)
    if kinds & perf.REGS_INTR:
        data += word(2, *range(interrupt.bit_count()))
    data += b"".join(word(3) for bit in (perf.PHYS, perf.CGROUP, perf.DATA_PAGE, perf.CODE_PAGE) if kinds & bit)
    if kinds & perf.AUX:
        data += word(8, 4)
    return data


def mapping(pid, tid, address, size, offset, name, build_id=b"", protection=5):
    if build_id:
        identity = bytes([len(build_id), 0, 0, 0]) + build_id.ljust(20, b"\0")
    else:
        identity = half(8, 1) + word(1234, 0)
    return half(pid, tid) + word(address, size, offset) + identity + half(protection, 2) + padded(name)


def old_mapping(pid, tid, address, size, offset, name):
    return half(pid, tid) + word(address, size, offset) + padded(name)


def task(pid, parent, tid, parent_tid, time):
    return half(pid, parent, tid, parent_tid) + word(time)


def text(name):
    room = padded(name)
    return half(len(room)) + room


def build_id_entry(build_id, name, sized=True):
    room = build_id.ljust(20, b"\0") + (bytes([len(build_id)]) if sized else b"\0") + bytes(3)
    return record(67, half(1) + room + padded(name), 0x8001 if sized else 1)


def file_of(events, records, machine=b"x86_64", build_ids=b""):
    """A file: header, ids, attributes, records and features. An event is its attributes and its ids."""
    size = len(events[0][0]) if events else 128
    ids, places = b"", []
    for data, known in events:
        places.append((104 + len(ids), 8 * len(known)))
        ids += word(*known)
    entries = b"".join(data.ljust(size, b"\0")[:size] + word(*place) for (data, _), place in zip(events, places))
    attributes_at = 104 + len(ids)
    data_at = attributes_at + len(entries)
    features = {2: build_ids, 6: text(machine)}
    at = data_at + len(records) + 16 * len(features)
    table = b""
    for content in features.values():
        table += word(at, len(content))
        at += len(content)
    bits = sum(1 << bit for bit in features)
    head = perf.MAGIC + word(104, size + 16, attributes_at, len(entries), data_at, len(records), 0, 0, bits, 0, 0, 0)
    return head + ids + entries + records + table + b"".join(features.values())


def killed(data):
    """What stays of a file if its `perf record` is killed: the header says no size of the records, and no features follow them."""
    at, size = struct.unpack_from("<QQ", data, 40)
    return data[:48] + word(0) + data[56 : at + size]


def pipe_of(events, records):
    """What a pipe has: attributes as records, and then the others."""
    return perf.MAGIC + word(16) + b"".join(record(64, data + word(*known)) for data, known in events) + records


KINDS = perf.IDENTIFIER | perf.IP | perf.TID | perf.TIME | perf.ID | perf.CPU | perf.PERIOD | perf.CALLCHAIN | perf.REGS | perf.STACK
EVERY = (1 << 25) - 1


def history(kinds, flags, ident, rand, mask, **more):
    """Records of two processes: a mapping, a fork, an exec, another mapping over the first, and ends; with a sample after each."""

    def of(kind, payload, time, misc=0, pid=10, tid=10):
        end = trailer(kinds, pid, tid, time, ident) if flags & perf.SAMPLE_ID_ALL else b""
        return record(kind, payload + end, misc)

    def at(time, pid, tid, ip):
        return record(9, sample(kinds, rand, pid, tid, time, ident, ip, mask=mask, **more), 2)

    exec_misc, build_misc = 0x2000, 0x4002
    return [
        of(3, half(10, 10) + padded(b"first"), 0),
        of(10, mapping(10, 10, 0x1000, 0x4000, 0, b"/bin/first", bytes(range(20))), 0, build_misc),
        of(1, old_mapping(10, 10, 0x9000, 0x1000, 0x2000, b"/lib/old.so"), 2**64 - 1),
        of(1, old_mapping(10, 10, 0x1000, 0x9000, 0, b"//anon"), 5, 0x2000),
        at(6, 10, 10, 0x1800),
        of(7, task(11, 10, 11, 10, 7), 7),
        at(8, 11, 11, 0x9010),
        of(10, mapping(10, 10, 0x2000, 0x1000, 0x100, b"/tmp/a b (deleted)"), 9),
        at(9, 10, 10, 0x2008),
        at(10, 11, 11, 0x2008),
        of(3, half(11, 11) + padded(b"second\xc3\xa9"), 11, exec_misc),
        at(12, 11, 11, 0x1800),
        of(10, mapping(11, 11, 0x1000, 0x1000, 0, b"/bin/second", b"abcdefgh"), 13, build_misc),
        at(14, 11, 11, 0x1800),
        of(7, task(10, 10, 12, 10, 15), 15),
        at(16, 10, 12, 0x1234),
        of(4, task(10, 10, 10, 10, 17), 17),
        at(18, 10, 12, 0x1234),
        of(4, task(10, 10, 12, 10, 19), 19),
        at(20, 10, 12, 0x1234),
        of(2, word(ident, 5), 21),
        of(13, word(3), 22),
        of(5, word(1, 2, 3), 23),
    ]


def recordings():
    """The names of recordings, and their bytes."""
    rand = random.Random(1)
    for name, mask, machine in (("x86_64", X86_64_MASK, b"x86_64"), ("aarch64", AARCH64_MASK, b"aarch64")):
        flags = perf.SAMPLE_ID_ALL
        one = [(attributes(KINDS, mask=mask), [5, 6])]
        parts = history(KINDS, flags, 5, rand, mask)
        ids = build_id_entry(bytes(range(20)), b"/bin/first") + build_id_entry(b"abcdefgh", b"/bin/second") + build_id_entry(b"", b"/x", False)
        yield name, file_of(one, b"".join(parts), machine, ids)
        yield f"{name} out of order", file_of(one, b"".join(parts[::-1]), machine)
        yield f"{name} by a pipe", pipe_of(one, b"".join(parts))
        yield f"{name} of a killed perf", killed(file_of(one, b"".join(parts), machine, ids))
    short = history(KINDS, perf.SAMPLE_ID_ALL, 5, rand, 0x1C0, copied=8, room=8)
    few = b"".join([short[0], short[1], short[4], short[5], short[10], short[16], short[20]])
    one = [(attributes(KINDS, mask=0x1C0), [5])]
    yield "a few records", file_of(one, few, build_ids=build_id_entry(b"abcdefgh", b"/x"))
    yield "a few records by a pipe", pipe_of(one, few)
    more = {"read": 31, "branch": 0xA0000, "interrupt": 3, "mask": 0x1C0, "copied": 8, "room": 8}
    every = [(attributes(EVERY, 31, perf.SAMPLE_ID_ALL, 0xA0000, mask=0x1C0, interrupt=3), [5])]
    yield "a sample of every field", file_of(every, record(9, sample(EVERY, rand, 10, 10, 6, 5, 0x1800, **more), 2))
    directory = bytearray(file_of([(attributes(KINDS), [5])], b""))
    directory[75] |= 1
    yield "a directory", bytes(directory)
    yield "another machine", file_of(one, b"", b"riscv64")
    for read in range(32):
        event = [(attributes(EVERY, read, perf.SAMPLE_ID_ALL, (read & 1) << 17 | (read & 2) << 18, interrupt=0x303), [5])]
        more = {"read": read, "branch": (read & 1) << 17 | (read & 2) << 18, "interrupt": 0x303}
        yield f"every field, read {read}", file_of(event, b"".join(history(EVERY, perf.SAMPLE_ID_ALL, 5, rand, X86_64_MASK, **more)))
    for bit in range(25):
        kinds = KINDS ^ 1 << bit
        yield f"bit {bit}", file_of([(attributes(kinds), [5])], b"".join(history(kinds, perf.SAMPLE_ID_ALL, 5, rand, X86_64_MASK)))
    for abi, copied, room in ((0, 0, 64), (1, 64, 64), (2, 65, 64), (3, 8, 8), (2, 0, 0), (2, 2**63, 64)):
        parts = history(KINDS, 0, 5, rand, X86_64_MASK, abi=abi, copied=copied, room=room)
        yield f"abi {abi} copied {copied} of {room}", file_of([(attributes(KINDS, flags=0), [5])], b"".join(parts))
    two = [(attributes(KINDS), [5, 6]), (attributes(KINDS | perf.ADDR, config=1), [7, 8])]
    both = history(KINDS, perf.SAMPLE_ID_ALL, 5, rand, X86_64_MASK) + history(KINDS | perf.ADDR, perf.SAMPLE_ID_ALL, 8, rand, X86_64_MASK)
    yield "two events", file_of(two, b"".join(both))
    yield "unknown ids", file_of(two, b"".join(history(KINDS, perf.SAMPLE_ID_ALL, 9, rand, X86_64_MASK)))
    yield "ids of 0", file_of(two, b"".join(history(KINDS, perf.SAMPLE_ID_ALL, 0, rand, X86_64_MASK)))
    bare = KINDS & ~perf.IDENTIFIER
    alike = [(attributes(bare), [5]), (attributes(bare, config=1), [7])]
    yield "alike", file_of(alike, b"".join(history(bare, perf.SAMPLE_ID_ALL, 5, rand, X86_64_MASK)))
    mixed = [(attributes(bare), [5]), (attributes(bare | perf.ADDR), [7])]
    yield "mixed", file_of(mixed, b"".join(history(bare, perf.SAMPLE_ID_ALL, 5, rand, X86_64_MASK)))
    yield "no event", file_of([], b"".join(history(KINDS, perf.SAMPLE_ID_ALL, 5, rand, X86_64_MASK)))
    for size in (64, 72, 80, 96, 104, 112, 136):
        data = attributes(KINDS, size=size)
        yield f"attributes of {size}", file_of([(data, [5])], b"".join(history(KINDS, perf.SAMPLE_ID_ALL, 5, rand, X86_64_MASK)))
    plain = history(KINDS, perf.SAMPLE_ID_ALL, 5, rand, X86_64_MASK)
    data = record(66, half(13, 0)) + bytes(16) + plain[0] + record(71, word(24, 0, 0, 0)) + bytes(24) + plain[1] + record(81, word(1)) + plain[4]
    yield "data behind records", file_of(two[:1], data)
    yield "data behind the end", file_of(two[:1], plain[0] + record(71, word(2**64 - 8, 0)) + plain[1])
    yield "data up to 2^64", file_of(two[:1], plain[0] + record(71, word(2**64 - 25, 0)) + plain[1])
    yield "unknown fields", file_of([(attributes(KINDS | 1 << 25), [5])], b"".join(plain))


def damaged(data):
    """A recording with each number at its extremes, and cut at each byte."""
    for at in range(0, len(data) - 3, 4):
        for value in (0, 1, 0x7FFFFFFF, 0xFFFFFFFF):
            yield f"{value:#x} at {at:#x}", data[:at] + half(value) + data[at + 4 :]
    for at in range(0, len(data) - 1, 2):
        yield f"0xffff at {at:#x}", data[:at] + b"\xff\xff" + data[at + 2 :]
    for size in range(len(data)):
        yield f"{size} bytes", data[:size]
