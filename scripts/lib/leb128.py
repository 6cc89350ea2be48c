"""Numbers of variable length (DWARF 5, 7.6)."""


def unsigned(number):
    """The shortest bytes of a number without a sign."""
    out = bytearray()
    while True:
        number, low = number >> 7, number & 0x7F
        if number == 0:
            return bytes([*out, low])
        out.append(low | 0x80)


def signed(number):
    """The shortest bytes of a number with a sign."""
    out = bytearray()
    while True:
        number, low = number >> 7, number & 0x7F
        if number == (-1 if low & 0x40 else 0):
            return bytes([*out, low])
        out.append(low | 0x80)


def read_unsigned(data, at):
    """The number without a sign at an offset, and the offset after it."""
    value, shift = 0, 0
    while True:
        byte = data[at]
        value |= (byte & 0x7F) << shift
        at, shift = at + 1, shift + 7
        if byte < 0x80:
            return value, at


def read_signed(data, at):
    """The number with a sign at an offset, and the offset after it."""
    value, end = read_unsigned(data, at)
    return (value - (1 << 7 * (end - at)) if data[end - 1] & 0x40 else value), end
