"""Reads the entries of `.eh_frame` and `.debug_frame`, as the standards alone say (DWARF 5, 6.4.1; LSB 5.0, 10.5 and 10.6.1)."""

# What an error's number is wrapped in.
WRAPPERS = {"UnexpectedEof": "ReaderOffsetId", "UnknownPointerEncoding": "DwEhPe", "UnknownCallFrameInstruction": "DwCfa"}


class ReadError(Exception):
    """An error: its name, and its number if it has one."""

    def __init__(self, name, number=None):
        super().__init__(name, number)
        self.name, self.number = name, number

    def _written(self, number):
        wrapper = WRAPPERS.get(self.name)
        return self.name if self.number is None else f"{self.name}({f'{wrapper}({number})' if wrapper else number})"

    def literal(self):
        """The error as Rust writes the value."""
        return f"Error::{self._written(f'{self.number or 0:#x}')}"

    def debug(self):
        """The error's text by `Debug`."""
        return self._written(str(self.number))


class Bytes:
    """The bytes of a section from one offset up to another."""

    def __init__(self, data, at, end, big=False):
        self.data, self.at, self.end, self.big = data, at, end, big

    def copy(self):
        return Bytes(self.data, self.at, self.end, self.big)

    def take(self, count):
        if self.end - self.at < count:
            raise ReadError("UnexpectedEof", self.at)
        self.at += count
        return self.data[self.at - count : self.at]

    def number(self, count, signed=False):
        return int.from_bytes(self.take(count), "big" if self.big else "little", signed=signed)

    def split(self, count):
        start = self.at
        self.take(count)
        return Bytes(self.data, start, self.at, self.big)

    def text(self):
        end = self.data.find(b"\0", self.at, self.end)
        if end < 0:
            raise ReadError("UnexpectedEof", self.at)
        return self.take(end + 1 - self.at)[:-1]

    def leb128(self, signed=False, most=10, bits=64):
        """A number of at most so many bytes and bits."""
        bad = ReadError("BadSignedLeb128" if signed else "BadUnsignedLeb128")
        value = 0
        for i in range(most):
            byte = self.number(1)
            value |= (byte & 0x7F) << 7 * i
            if byte < 0x80:
                if signed and byte & 0x40:
                    value -= 1 << 7 * (i + 1)
                low, high = (-(1 << bits - 1), 1 << bits - 1) if signed else (0, 1 << bits)
                if not low <= value < high:
                    raise bad
                return value
        raise bad


# ---- pointers

# The formats of encoded pointers besides an address: their sizes, below 0 if they have a sign.
FORMATS = {1: "uleb", 2: 2, 3: 4, 4: 8, 9: "sleb", 10: -2, 11: -4, 12: -8}
OMITTED = 0xFF
# What a pointer is relative to, with the error if that is not known.
BASES = {
    1: ("section", "PcRelativePointerButSectionBaseIsUndefined"),
    2: ("text", "TextRelativePointerButTextBaseIsUndefined"),
    3: ("got", "DataRelativePointerButDataBaseIsUndefined"),
}


def encoding(data):
    """The next byte, which says how a pointer is encoded."""
    byte = data.number(1)
    if byte != OMITTED and (byte & 15 not in (0, *FORMATS) or byte >> 4 & 7 > 5):
        raise ReadError("UnknownPointerEncoding", byte)
    return byte


def value(byte, size, data):
    """The next number in the format of an encoding, with addresses of so many bytes."""
    form = FORMATS.get(byte & 15, size)
    if form in ("uleb", "sleb"):
        return data.leb128(signed=form == "sleb")
    return data.number(abs(form), signed=form < 0)


def pointer(byte, bases, size, function, data):
    """The address of the next pointer, and whether it is indirect."""
    if byte == OMITTED:
        raise ReadError("CannotParseOmitPointerEncoding")
    kind, base = byte >> 4 & 7, 0
    if kind == 5:
        raise ReadError("UnsupportedPointerEncoding")
    if kind in BASES:
        name, error = BASES[kind]
        base = bases.get(name)
        if base is None:
            raise ReadError(error)
    if kind == 1:
        base += data.at
    if kind == 4:
        if function is None:
            raise ReadError("FuncRelativePointerInBadContext")
        base = function
    return (base + value(byte, size, data)) % (1 << 8 * size), bool(byte & 0x80)


# ---- entries

class Section:
    """A section of call frames: `.eh_frame` or `.debug_frame`. Its bases are the starts of sections that pointers are relative to."""

    def __init__(self, name, data, bases=None, size=8, big=False):
        self.name, self.data, self.bases, self.size, self.big = name, data, bases or {}, size, big
        self.is_eh_frame = name == ".eh_frame"

    def at(self, offset):
        """The bytes from an offset on."""
        rest = Bytes(self.data, 0, len(self.data), self.big)
        rest.take(offset)
        return rest

    def entry(self, rest):
        """The next entry: a CIE or FDE, or None at a length of 0."""
        at = rest.at
        length, word = rest.number(4), 4
        if length == 0xFFFFFFFF:
            length, word = rest.number(8), 8
        elif length >= 0xFFFFFFF0:
            raise ReadError("UnknownReservedLength")
        if length == 0:
            return None
        body = rest.split(length)
        id_at = body.at
        number = body.number(4 if self.is_eh_frame else word)
        head = {"offset": at, "length": length}
        if number == (0 if self.is_eh_frame else (1 << 8 * word) - 1):
            return self._cie(head, body)
        cie = id_at - number if self.is_eh_frame else number
        if cie < 0:
            raise ReadError("OffsetOutOfBounds")
        return {**head, "kind": "fde", "cie": cie, "rest": body}

    def _cie(self, head, rest):
        version = rest.number(1)
        if version not in (1, 3, 4):
            raise ReadError("UnknownVersion", version)
        text = rest.text()
        size = self.size
        if not self.is_eh_frame and version == 4:
            size = rest.number(1)
            if size not in (1, 2, 4, 8):
                raise ReadError("UnsupportedAddressSize", size)
            if rest.number(1) != 0:
                raise ReadError("UnsupportedSegmentSize")
        code = rest.leb128()
        data = rest.leb128(signed=True)
        register = rest.number(1) if version == 1 else rest.leb128(most=3, bits=16)
        augmentation = self._augmentation(text, size, rest) if text else None
        cie = {"kind": "cie", "version": version, "text": text, "size": size, "code": code, "data": data, "register": register}
        return {**head, **cie, "augmentation": augmentation, "instructions": rest}

    def _augmentation(self, text, size, rest):
        found = {"data": text[:1] == b"z", "lsda": None, "personality": None, "encoding": None, "signal": False}
        data = rest.split(rest.leb128()) if found["data"] else None
        for letter in text[1:].decode("latin1") if found["data"] else text.decode("latin1"):
            if letter == "S":
                found["signal"] = True
            elif letter == "B":
                pass
            elif data is None or letter not in "LPR":
                raise ReadError("UnknownAugmentation")
            elif letter == "L":
                byte = encoding(data)
                found["lsda"] = None if byte == OMITTED else byte
            elif letter == "R":
                found["encoding"] = encoding(data)
            else:
                byte = encoding(data)
                found["personality"] = None if byte == OMITTED else (byte, *pointer(byte, self.bases, size, None, data))
        return found

    def cie_at(self, offset):
        """The CIE at an offset."""
        cie = self.entry(self.at(offset))
        if cie is None:
            raise ReadError("NoEntryAtGivenOffset")
        if cie["kind"] == "fde":
            raise ReadError("NotCieId", offset)
        return cie

    def fde(self, partial):
        """The whole of an FDE that was read without its CIE."""
        cie = self.cie_at(partial["cie"])
        rest = partial["rest"]
        augmentation, size = cie["augmentation"] or {}, cie["size"]
        byte = augmentation.get("encoding")
        if byte is None:
            initial, length = rest.number(size), rest.number(size)
        else:
            initial, _ = pointer(byte, self.bases, size, None, rest)
            length = value(byte, size, rest) % (1 << 64)
        lsda = None
        if augmentation.get("data"):
            data = rest.split(rest.leb128())
            if augmentation["lsda"] is not None:
                lsda = pointer(augmentation["lsda"], self.bases, size, initial, data)
        return {**partial, "initial": initial, "range": length, "lsda": lsda, "size": size, "instructions": rest}

    def entries(self):
        """The entries in their order, each FDE with its CIE or an error, and the error that ends them, if one does."""
        rest, found, end = self.at(0), [], None
        try:
            while rest.at < rest.end:
                entry = self.entry(rest)
                if entry is None and self.is_eh_frame:
                    break
                if entry is not None:
                    found.append(entry)
        except ReadError as error:
            end = error
        for i, entry in enumerate(found):
            if entry["kind"] == "fde":
                try:
                    found[i] = self.fde(entry)
                except ReadError as error:
                    found[i] = {**entry, "error": error}
        return found, end


# ---- entries as tests and programs print them

def optional(text):
    return "None" if text is None else f"Some({text})"


def pointer_text(pointer):
    return None if pointer is None else f"{'Indirect' if pointer[1] else 'Direct'}({pointer[0]})"


def encoding_text(byte):
    return None if byte is None else f"DwEhPe({byte})"


def augmentation_text(augmentation):
    """An optional augmentation by `Debug`."""
    if augmentation is None:
        return "None"
    personality = augmentation["personality"]
    pair = None if personality is None else f"({encoding_text(personality[0])}, {pointer_text(personality[1:])})"
    fields = {
        "has_data": str(augmentation["data"]).lower(),
        "lsda": optional(encoding_text(augmentation["lsda"])),
        "personality": optional(pair),
        "fde_address_encoding": optional(encoding_text(augmentation["encoding"])),
        "is_signal_trampoline": str(augmentation["signal"]).lower(),
    }
    return "Some(Augmentation { " + ", ".join(f"{name}: {value}" for name, value in fields.items()) + " })"


def cie_text(cie):
    numbers = f"version {cie['version']} size {cie['size']} factors {cie['code']} {cie['data']} register {cie['register']}"
    return f"cie {cie['offset']:x} length {cie['length']:x} {numbers} {augmentation_text(cie['augmentation'])}"


def fde_text(fde):
    """The head of an FDE, and its code and pointer to language-specific data or the error of reading it."""
    head = f"fde {fde['offset']:x} length {fde['length']:x} cie {fde['cie']:x}"
    if "error" in fde:
        return f"{head} {fde['error'].debug()}"
    return f"{head} code {fde['initial']:x} {fde['range']:x} {optional(pointer_text(fde['lsda']))}"
