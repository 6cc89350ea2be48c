"""The walks of a recording of perf through one of its files, as the programs of `crates/bench_steps` read them."""

import collections
import struct

from lib import perf, perf_tasks
from lib.elf import EXECUTABLE, Elf
from lib.tools import give_up

# The numbers of x86_64's registers in recordings.
BP, SP, IP = 6, 7, 8
MOST_FRAMES = 512
ALL_BITS = 2**64 - 1

# A sample of a process: the file that its code is of, how far from there it is loaded, and its registers and stack.
Sample = collections.namedtuple("Sample", "file bias ip sp bp stack")


def samples_of(data):
    """The samples of a recording of one event, in the order of time, whose code is of a file."""
    entry, attributes, records, _ = perf_tasks.header_of(data) or give_up("the recording is a pipe")
    events = perf_tasks.file_events(data, entry, attributes, [])
    processes, elves = perf_tasks.Processes(), {}
    for _, it, kind, misc, payload in perf_tasks.in_order(data, records[0], sum(records), events):
        if kind != 9:
            processes.apply(it, kind, misc, payload)
            continue
        head, _, (_, words), stack = perf.sample_of(it, payload)
        if not words:
            continue
        ip, sp, bp = (perf.register_of(it["user_registers"], words, number) for number in (IP, SP, BP))
        place = processes.place_of(head[perf.TID][0], ip)
        if place is None or not place[0].startswith(b"/"):
            continue
        elf = elves.get(place[0]) or elves.setdefault(place[0], Elf(place[0].decode()))
        segment = next((it for it in elf.loaded() if it.flags & EXECUTABLE and it.offset <= place[1] < it.offset + it.size), None)
        if segment:
            yield Sample(elf, ip - place[1] - segment.address + segment.offset, ip, sp, bp, stack)


def work_of(data, rounds):
    """The samples of a recording whose code is of the file with the most of them, in the bytes that the programs read, and how many there
    are."""
    found = collections.defaultdict(list)
    for sample in samples_of(data):
        found[sample.file.path, sample.bias].append(sample)
    (_, bias), samples = max(found.items(), key=lambda it: len(it[1]), default=((None, 0), []))
    if not samples:
        give_up("the recording has no sample in a file")
    elf = samples[0].file
    end = bias + max(segment.address + segment.size for segment in elf.loaded())
    (text, _), (at, section), (header_at, header) = (elf.section(name) for name in (".text", ".eh_frame", ".eh_frame_hdr"))
    parts = [struct.pack("<IQQQQI", rounds, bias, end, text, at, len(samples))]
    for it in samples:
        count = len(it.stack) // 8
        parts.append(struct.pack("<Q4QIQI", it.ip, it.ip, it.sp, it.bp, ALL_BITS, MOST_FRAMES, it.sp, count))
        parts.append(it.stack[: 8 * count])
    return b"".join(parts + [struct.pack("<QI", header_at, len(header)), header, section]), len(samples)


def with_rounds(work, rounds):
    """The same bytes, with so many rounds."""
    return struct.pack("<I", rounds) + work[4:]
