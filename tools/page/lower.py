"""A WebAssembly module with a memory and a table of 64 bits becomes one of 32 bits, which every browser takes.

Code and data stay as they are: an address is still computed in 64 bits, and only where memory or the table is used its
low 32 bits are taken, which are all of it, since the memory may have no more than MOST_PAGES. It knows the instructions
that clang writes for `lime1`, and stops at any other. No proof covers it: a page says so.
"""

I32, I64, F32, F64 = 0x7F, 0x7E, 0x7D, 0x7C
STORED = {0x36: I32, 0x37: I64, 0x38: F32, 0x39: F64, 0x3A: I32, 0x3B: I32, 0x3C: I64, 0x3D: I64, 0x3E: I64}
GET, SET = b"\x20", b"\x21"  # of a local variable
WRAP, EXTEND, EXTEND_SIGNED = b"\xa7", b"\xad", b"\xac"
MOST_PAGES = 32768  # 2 GiB


class Unknown(Exception):
    """What this file does not know of a module."""


def need(holds, what):
    if not holds:
        raise Unknown(what)


def leb(number):
    """A number from 0 on, as a module writes it."""
    out = bytearray()
    while True:
        number, low = number >> 7, number & 127
        out.append(low | 128 if number else low)
        if not number:
            return bytes(out)


class Reader:
    """Bytes with a place in them."""

    def __init__(self, data, at=0):
        self.data, self.at = data, at

    def byte(self):
        self.at += 1
        return self.data[self.at - 1]

    def number(self):
        found = shift = 0
        while True:
            byte = self.byte()
            found |= (byte & 127) << shift
            shift += 7
            if byte < 128:
                return found

    def skip(self):
        """Leaves out one number."""
        while self.data[self.at] > 127:
            self.at += 1
        self.at += 1

    def take(self, count):
        self.at += count
        return self.data[self.at - count : self.at]


def limits(reader, most):
    """The bounds of a memory or a table, as those of one of 32 bits."""
    flags = reader.byte()
    need(flags & ~5 == 0, f"limits with flags {flags}")
    low = reader.number()
    high = reader.number() if flags & 1 else most
    return b"\x01" + leb(low) + leb(min(high, most))


class Body:
    """The instructions of one function, with new local variables behind its own."""

    def __init__(self, code, params, own):
        self.reader, self.out, self.own = Reader(code), bytearray(), own
        self.count = params + sum(count for count, _ in own)
        self.numbers, self.kinds = {}, []

    def local(self, key, kind):
        if key not in self.numbers:
            self.numbers[key] = self.count + len(self.kinds)
            self.kinds.append(kind)
        return leb(self.numbers[key])

    def by_address(self, op):
        """A load has its address on top, a store below what is stored."""
        align, far = self.reader.number(), self.reader.number()
        need(align < 64 and far < 1 << 31, f"a place in memory of alignment {align} and offset {far}")
        if op in STORED:
            held = self.local(STORED[op], STORED[op])
            self.out += SET + held + WRAP + GET + held
        else:
            self.out += WRAP
        self.out += bytes([op]) + leb(align) + leb(far)

    def bulk(self, start):
        """memory.copy and memory.fill have an address, another one or a byte, and a length; the rest is of floats."""
        code = self.reader.number()
        need(code < 8 or code in (10, 11), f"instruction 0xfc {code}")
        if code >= 10:
            self.reader.skip()
            first, second = self.local("first", I32), self.local("second", I32)
            between = WRAP if code == 10 else b""
            if code == 10:
                self.reader.skip()
            self.out += WRAP + SET + first + between + SET + second + WRAP + GET + second + GET + first
        self.out += self.reader.data[start : self.reader.at]

    def instruction(self):
        reader, start = self.reader, self.reader.at
        op = reader.byte()
        before = after = b""
        if 0x28 <= op <= 0x3E:
            return self.by_address(op)
        if op == 0xFC:
            return self.bulk(start)
        if op in (0x02, 0x03, 0x04, 0x0C, 0x0D, 0x10, 0x20, 0x21, 0x22, 0x23, 0x24, 0x41, 0x42, 0xD2):
            reader.skip()
        elif op == 0x0E:  # br_table
            for _ in range(reader.number() + 1):
                reader.skip()
        elif op == 0x11:  # call_indirect has a table's index on top
            reader.skip()
            reader.skip()
            before = WRAP
        elif op in (0x43, 0x44):
            reader.take(4 if op == 0x43 else 8)
        elif op == 0x3F:  # memory.size
            reader.skip()
            after = EXTEND
        elif op == 0x40:  # memory.grow answers -1 where there is no more
            reader.skip()
            before, after = WRAP, EXTEND_SIGNED
        elif op == 0x1C:  # select, with kinds
            reader.take(reader.number())
        else:
            need(op in (0, 1, 5, 0x0B, 0x0F, 0x1A, 0x1B) or 0x45 <= op <= 0xC4, f"instruction {op:#x}")
        self.out += before + reader.data[start : reader.at] + after

    def whole(self):
        while self.reader.at < len(self.reader.data):
            self.instruction()
        every = [*self.own, *((1, kind) for kind in self.kinds)]
        code = leb(len(every)) + b"".join(leb(count) + bytes([kind]) for count, kind in every) + bytes(self.out)
        return leb(len(code)) + code


def offset(reader):
    """An i64.const expression as an i32.const one, which below 2 GiB is spelled the same."""
    need(reader.byte() == 0x42, "a place that is no constant")
    start = reader.at
    reader.skip()
    number = reader.data[start : reader.at]
    need(reader.byte() == 0x0B and len(number) <= 5, "a place of more than 32 bits")
    return b"\x41" + number + b"\x0b"


class Module:
    """A module's sections, one after the other."""

    def __init__(self):
        self.params, self.kinds = [], []

    def types(self, reader):
        for _ in range(reader.number()):
            need(reader.byte() == 0x60, "a type that is no function's")
            self.params.append(reader.number())
            reader.take(self.params[-1])
            reader.take(reader.number())
        return bytes(reader.data)

    def imports(self, reader):
        for _ in range(reader.number()):
            reader.take(reader.number())
            reader.take(reader.number())
            need(reader.byte() == 0, "an import that is no function")
            reader.skip()
        return bytes(reader.data)

    def functions(self, reader):
        self.kinds = [reader.number() for _ in range(reader.number())]
        return bytes(reader.data)

    def tables(self, reader):
        count = reader.number()
        return leb(count) + b"".join(bytes([reader.byte()]) + limits(reader, (1 << 32) - 1) for _ in range(count))

    def memory(self, reader):
        need(reader.number() == 1, "another number of memories than 1")
        return leb(1) + limits(reader, MOST_PAGES)

    def elements(self, reader):
        count, new = reader.number(), b""
        for _ in range(count):
            need(reader.number() == 0, "elements that are not of table 0")
            new += leb(0) + offset(reader)
            start = reader.at
            for _ in range(reader.number()):
                reader.skip()
            new += reader.data[start : reader.at]
        return leb(count) + new

    def code(self, reader):
        count, parts = reader.number(), []
        need(count == len(self.kinds), "functions without a type")
        for kind in self.kinds:
            length = reader.number()
            end = reader.at + length
            own = [(reader.number(), reader.byte()) for _ in range(reader.number())]
            parts.append(Body(reader.data[reader.at : end], self.params[kind], own).whole())
            reader.at = end
        return leb(count) + b"".join(parts)

    def data(self, reader):
        count, parts = reader.number(), []
        for _ in range(count):
            need(reader.number() == 0, "data that is not of memory 0")
            place = offset(reader)
            length = reader.number()
            parts.append(leb(0) + place + leb(length) + reader.take(length))
        return leb(count) + b"".join(parts)


def lowered(wasm):
    """The module of 32 bits, without names and notes."""
    module, reader, out = Module(), Reader(wasm, 8), bytearray(wasm[:8])
    by_number = {1: module.types, 2: module.imports, 3: module.functions, 4: module.tables, 5: module.memory}
    by_number.update({9: module.elements, 10: module.code, 11: module.data})
    while reader.at < len(wasm):
        number = reader.byte()
        section = reader.take(reader.number())
        if number == 0:
            continue
        new = by_number[number](Reader(section)) if number in by_number else section
        out += bytes([number]) + leb(len(new)) + new
    return bytes(out)
