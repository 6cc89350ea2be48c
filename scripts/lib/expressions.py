"""Evaluates expressions of operations without a type, as DWARF 5, 2.5 alone says, with addresses of 8 bytes and the limits of
docs/DIFFERENCES.md: 4,096 operations, and none that reads memory."""

from lib.frame_entries import Bytes, ReadError

LIMIT = 1 << 64
MOST_OPERATIONS = 4096
# The sizes of the operands of DW_OP_const1u to DW_OP_const8s: those with an odd opcode have a sign.
CONSTANTS = {0x08 + i: 1 << i // 2 for i in range(8)}


def signed(number):
    return number - LIMIT if number >> 63 else number


def quotient(left, right):
    size = abs(left) // abs(right)
    return size if (left < 0) == (right < 0) else -size


# What two operations make of the second and the top value, as unsigned numbers.
BINARY = {
    0x1A: lambda a, b: a & b,
    0x1B: lambda a, b: quotient(signed(a), signed(b)),
    0x1C: lambda a, b: a - b,
    0x1D: lambda a, b: a % b,
    0x1E: lambda a, b: a * b,
    0x21: lambda a, b: a | b,
    0x22: lambda a, b: a + b,
    0x24: lambda a, b: a << b if b < 64 else 0,
    0x25: lambda a, b: a >> b if b < 64 else 0,
    0x26: lambda a, b: signed(a) >> min(b, 64),
    0x27: lambda a, b: a ^ b,
    0x29: lambda a, b: a == b,
    0x2A: lambda a, b: signed(a) >= signed(b),
    0x2B: lambda a, b: signed(a) > signed(b),
    0x2C: lambda a, b: signed(a) <= signed(b),
    0x2D: lambda a, b: signed(a) < signed(b),
    0x2E: lambda a, b: a != b,
}
UNARY = {0x19: lambda a: abs(signed(a)), 0x1F: lambda a: -a, 0x20: lambda a: ~a}


class Machine:
    """Evaluates an expression with a register's value by `register(number)`, and room for so many values, or for any number."""

    def __init__(self, data, register, room=None):
        self.data, self.register, self.room, self.stack = data, register, room, []
        self.start = data.at

    def push(self, value):
        if self.room is not None and len(self.stack) >= self.room:
            raise ReadError("StackFull")
        self.stack.append(int(value) % LIMIT)

    def need(self, count):
        if len(self.stack) < count:
            raise ReadError("NotEnoughStackItems")

    def pop(self):
        self.need(1)
        return self.stack.pop()

    def jump(self, by):
        data = self.data
        to = data.at - self.start + by
        if not 0 <= to <= data.end - self.start:
            raise ReadError("BadBranchTarget", to % LIMIT)
        data.at = self.start + to

    def run(self):
        """The value of the expression."""
        count = 0
        while self.data.at < self.data.end:
            if count == MOST_OPERATIONS:
                raise ReadError("TooManyIterations")
            count += 1
            self.execute(self.data.number(1))
        self.need(1)
        return self.stack[-1]

    def execute(self, code):
        data, stack = self.data, self.stack
        if code in CONSTANTS:
            self.push(data.number(CONSTANTS[code], signed=bool(code & 1)))
        elif code in (0x10, 0x11):
            self.push(data.leb128(signed=code == 0x11))
        elif 0x30 <= code < 0x50:
            self.push(code - 0x30)
        elif 0x70 <= code < 0x90 or code == 0x92:
            number = data.leb128(most=3, bits=16) if code == 0x92 else code - 0x70
            self.push(self.register(number, data.leb128(signed=True)))
        elif code in (0x12, 0x14, 0x15):
            index = data.number(1) if code == 0x15 else code == 0x14
            self.need(index + 1)
            self.push(stack[-1 - index])
        elif code == 0x13:
            self.pop()
        elif code == 0x16:
            self.need(2)
            stack[-2:] = stack[-1], stack[-2]
        elif code == 0x17:
            self.need(3)
            stack[-3:] = stack[-1], stack[-3], stack[-2]
        elif code in UNARY:
            self.push(UNARY[code](self.pop()))
        elif code in BINARY:
            top, second = self.pop(), self.pop()
            if code in (0x1B, 0x1D) and top == 0:
                raise ReadError("DivisionByZero")
            self.push(BINARY[code](second, top))
        elif code == 0x23:
            number = data.leb128()
            self.push(self.pop() + number)
        elif code in (0x28, 0x2F):
            by = data.number(2, signed=True)
            if code == 0x2F or self.pop() != 0:
                self.jump(by)
        elif code == 0x03:
            data.number(8)
            raise ReadError("UnsupportedEvaluation")
        elif code != 0x96:
            raise ReadError("UnsupportedEvaluation")


def value_of(data, register, room=None, at=0, end=None):
    """The value of the expression in these bytes."""
    return Machine(Bytes(data, at, len(data) if end is None else end), register, room).run()
