"""What a recording of perf says of processes over time: a second reader, over the records of `perf`."""

import struct

from lib import perf

# The kinds of records that are read.
SHOWN = (1, 2, 3, 4, 7, 9, 10, 13)


def header_of(data):
    """What a recording begins with: none for a pipe, or attributes, records and features."""
    if data.startswith(perf.MAGIC[::-1]):
        raise perf.Refused("recorded in the other byte order (at offset 0x0)")
    if not data.startswith(perf.MAGIC):
        raise perf.Refused("not a recording of perf (at offset 0x0)")
    if len(data) < 16:
        raise perf.Refused("the file ends within its header (at offset 0x0)")
    size = struct.unpack_from("<Q", data, 8)[0]
    if size == 16:
        return None
    if size < 104:
        raise perf.Refused("header of an unexpected size (at offset 0x8)")
    if len(data) < 104:
        raise perf.Refused("the file ends within its header (at offset 0x0)")
    entry, *sections, features = struct.unpack_from("<Q2Q2Q16xQ", data, 16)
    if entry < 80:
        raise perf.Refused("attributes of an unexpected size (at offset 0x10)")
    if features >> 24 & 1:
        raise perf.Refused("records in a directory (at offset 0x48)")
    return entry, sections[:2], sections[2:], features


def words_of(data):
    return [it[0] for it in struct.iter_unpack("<Q", data[: len(data) // 8 * 8])]


def file_events(data, entry_size, place, lines):
    table, events = data[place[0] : place[0] + place[1]], []
    for index in range(place[1] // entry_size):
        entry = table[index * entry_size : (index + 1) * entry_size]
        if not entry:
            break
        try:
            if len(entry) < 16:
                raise perf.Refused("the ids goes past the end")
            attributes, _ = perf.attributes_of(entry[:-16])
            offset, size = struct.unpack_from("<QQ", entry, len(entry) - 16)
            events.append((attributes, words_of(data[offset : offset + size])))
        except perf.Refused as error:
            lines.append(f"event {index}: {error}")
    return events


def records_of(data, start, end):
    """The records from one place to another, and what ends them."""
    at, window = start, data[:end]
    while True:
        try:
            found = perf.record_at(window, at)
        except perf.Refused as error:
            yield None, str(error)
            return
        if found is None:
            yield None, f"left {max(min(len(window), end) - at, 0)}"
            return
        yield at, found
        at = found[3]


def task_of(attributes, payload):
    fields = perf.Fields(perf.body_and_trailer(attributes, payload)[0])
    return [fields.half("process and thread") for _ in range(4)] + [fields.word("the time of the task")]


def command_of(attributes, payload):
    fields = perf.Fields(perf.body_and_trailer(attributes, payload)[0])
    return (fields.half("process and thread"), fields.half("process and thread")), fields.name()


class Processes:
    """Processes over time, each with its mappings and the names of its threads."""

    def __init__(self):
        self.mappings, self.names = {}, {}

    def apply(self, attributes, kind, misc, payload):
        if kind in (1, 10):
            thread, place, code, _, name = perf.mapping_of(attributes, kind, misc, payload)
            if code:
                self.mappings.setdefault(thread[0], []).append((*place, name))
        elif kind == 3:
            thread, name = command_of(attributes, payload)
            self.names[thread] = name
            if misc & 0x2000:
                self.mappings.pop(thread[0], None)
        elif kind in (4, 7):
            pid, parent, tid, parent_tid, _ = task_of(attributes, payload)
            if kind == 4:
                self.names.pop((pid, tid), None)
                if not any(thread[0] == pid for thread in self.names):
                    self.mappings.pop(pid, None)
                return
            name = self.names.get((parent, parent_tid))
            if pid != parent:
                self.mappings[pid] = list(self.mappings.get(parent, []))
                self.names = {thread: it for thread, it in self.names.items() if thread[0] != pid}
            self.names[pid, tid] = name

    def place_of(self, pid, address):
        for start, size, offset, name in reversed(self.mappings.get(pid, [])):
            if start <= address < start + size:
                return name, (address - start + offset) % 2**64
        return None


def time_of(attributes, kind, payload):
    """When a record was made, for the order; 0 for those that come first."""
    if kind == 9:
        time = perf.head_of(perf.Fields(payload), attributes["sample_type"], perf.HEAD).get(perf.TIME)
    else:
        trailer = perf.body_and_trailer(attributes, payload)[1]
        time = perf.head_of(perf.Fields(trailer), attributes["sample_type"], perf.TRAILER).get(perf.TIME) if trailer else None
    return 0 if time is None or time == perf.NO_TIME else time


def in_order(data, start, end, events):
    """The records from one place to another in the order of time, each with its place and the attributes of its event."""
    placed = []
    for at, found in records_of(data, start, end):
        if at is None or found[0] not in SHOWN:
            continue
        kind, misc, payload, _ = found
        try:
            attributes = events[perf.event_of(events, kind, payload)][0] if events else None
            if attributes:
                placed.append((time_of(attributes, kind, payload), at, attributes, kind, misc, payload))
        except perf.Refused:
            continue
    return (it[1:] for it in sorted(placed, key=lambda it: it[:2]))


def tasks_of(data):
    """The records of a file in the order of time, each with the attributes of its event."""
    entry, attributes, (start, size), _ = header_of(data)
    end = start + size if 0 < size <= len(data) - start else len(data)
    return (it[1:] for it in in_order(data, start, end, file_events(data, entry, attributes, [])))
