"""A WebAssembly module whose memory has addresses of 64 bits, for browsers that know those of 32 bits alone.

`narrowed(code)` is the same module but for its memory: each address and each count of bytes or pages is cut to 32 bits just
before it is used, and what the memory says of its size is made 64 bits again. All else, arguments and results of functions
too, stays as it is. The module needs less than 4 GiB, and asks for no address behind them: then both do the same.
What isn't known here (a table, an import, another instruction) is refused.
"""
WRAP, EXTEND_U, EXTEND_S = b'\xa7', b'\xad', b'\xac'       # i32.wrap_i64, i64.extend_i32_u, i64.extend_i32_s
I32, I64, F32, F64 = 0x7f, 0x7e, 0x7d, 0x7c
LOADS, STORES = range(0x28, 0x36), range(0x36, 0x3f)
STORED = dict(zip(STORES, (I32, I64, F32, F64, I32, I32, I64, I64, I64), strict=True))
SIZE, GROW, COPY, FILL = 0x3f, 0x40, 10, 11
PLAIN = {0x00, 0x01, 0x05, 0x0b, 0x0f, 0x1a, 0x1b, *range(0x45, 0xc5)}  # instructions of one byte
WITH_INDEX = {0x0c, 0x0d, 0x10, *range(0x20, 0x25)}        # br, br_if, call, and those of locals and globals
BLOCKS = {0x02, 0x03, 0x04}
VALUES = {0x20, 0x23, 0x41, 0x42, 0x43, 0x44}              # what puts one value on the stack, and takes none
TYPES, FUNCTIONS, MEMORY, CODE, DATA = 1, 3, 5, 10, 11
KEPT = {0, TYPES, FUNCTIONS, 6, 7, 12}                      # custom, types, functions, globals, exports, count of data
OF_64 = 4                                                  # the flag of a memory with addresses of 64 bits


def refuse(what):
    raise ValueError(f'a module that can\'t be made narrow: {what}')


class Bytes:
    """Bytes that are read from the front."""
    def __init__(self, data):
        self.data, self.at = data, 0

    def byte(self):
        self.at += 1
        return self.data[self.at - 1]

    def take(self, count):
        self.at += count
        return self.data[self.at - count:self.at]

    def number(self):
        value = shift = 0
        while True:
            byte = self.byte()
            value |= (byte & 127) << shift
            shift += 7
            if byte < 128:
                return value

    def ends(self):
        return self.at >= len(self.data)


def spelled(number):
    out = bytearray()
    while number > 127:
        out.append(number & 127 | 128)
        number >>= 7
    return bytes(out) + bytes([number])


def offset_of(number):
    if number >= 1 << 32:
        refuse('an offset behind 4 GiB')
    return spelled(number)                                 # (a linker leaves room for more digits than 32 bits may have)


def counted(parts):
    return spelled(len(parts)) + b''.join(parts)


def sized(data):
    return spelled(len(data)) + data


def instruction(code):
    """The next one: its first byte, the second number of those that have two (else none), and its bytes."""
    begin, first, second = code.at, code.byte(), None
    if first in BLOCKS or first in WITH_INDEX or first in (0x41, 0x42, SIZE, GROW):
        code.number()                                      # (a signed number ends where an unsigned one does)
    elif first in LOADS or first in STORES:
        aligned, offset = code.number(), code.number()
        return first, None, bytes([first]) + spelled(aligned) + offset_of(offset)
    elif first == 0x0e:
        for _ in range(code.number() + 1):
            code.number()
    elif first in (0x43, 0x44):
        code.take(4 if first == 0x43 else 8)
    elif first == 0xfc:
        second = code.number()
        if second in (COPY, FILL):
            code.take(2 if second == COPY else 1)
        elif second > 7:
            refuse(f'instruction fc {second:x}')
    elif first not in PLAIN:
        refuse(f'instruction {first:x}')
    return first, second, bytes(code.data[begin:code.at])


class Body:
    """A function's body: its instructions, each as bytes, and the locals it has more than before, one of a type and use."""
    def __init__(self, data, parameters):
        self.code, self.parts, self.firsts, self.more = Bytes(data), [], [], {}
        groups = [(self.code.number(), self.code.byte()) for _ in range(self.code.number())]
        self.groups, self.next = groups, parameters + sum(count for count, _ in groups)

    def kept(self, kind, use=0):
        """The number of a local in which a value is put aside."""
        return self.more.setdefault((kind, use), self.next + len(self.more))

    def put(self, *parts):
        self.parts += parts
        self.firsts += [part[0] for part in parts]

    def aside(self, kind, use=0):
        """Puts the value on top aside; what brings it back is answered."""
        place = spelled(self.kept(kind, use))
        self.put(b'\x21' + place)
        return b'\x20' + place

    def under(self, kind):
        """Cuts the address below one value: before the instruction that put that there, if this did nothing else."""
        if self.firsts and self.firsts[-1] in VALUES:
            value = self.parts.pop()
            self.firsts.pop()
        else:
            value = self.aside(kind)
        self.put(WRAP, value)

    def narrowed(self):
        while not self.code.ends():
            self.one(*instruction(self.code))
        groups = self.groups + [(1, kind) for kind, _ in self.more]
        return sized(counted([spelled(count) + bytes([kind]) for count, kind in groups]) + b''.join(self.parts))

    def one(self, first, second, here):
        if first in LOADS:
            self.put(WRAP, here)
        elif first in STORES:
            self.under(STORED[first])
            self.put(here)
        elif first == SIZE:
            self.put(here, EXTEND_U)
        elif first == GROW:
            self.put(WRAP, here, EXTEND_S)                 # (-1 where there is no room)
        elif second == COPY:
            size = self.aside(I64)
            source = self.aside(I64, 1)
            self.put(WRAP, source, WRAP, size, WRAP, here)
        elif second == FILL:
            size = self.aside(I64)
            value = self.aside(I32)
            self.put(WRAP, value, size, WRAP, here)
        else:
            self.put(here)


def parameters_of(types):
    """How many each type has."""
    out = []
    for _ in range(types.number()):
        if types.byte() != 0x60:
            refuse('a type that is no function\'s')
        out.append(types.number())
        types.take(out[-1])
        types.take(types.number())
    return out


def memories(data):
    if data.number() != 1 or data.byte() != OF_64:
        refuse('no memory, several, one that is narrow, or one with a limit')
    return b'\x01\x00' + spelled(data.number())


def pieces(data):
    """The pieces of data, at addresses that are numbers."""
    out = []
    for _ in range(data.number()):
        if data.number() != 0 or data.byte() != 0x42:
            refuse('data at no address, or in another memory')
        begin = data.at
        data.number()
        at = bytes(data.data[begin:data.at])
        if data.byte() != 0x0b:
            refuse('data at an address that is no number')
        out.append(b'\x00\x41' + at + b'\x0b' + sized(bytes(data.take(data.number()))))
    return counted(out)


def narrowed(code):
    file, out, counts, of = Bytes(code), [code[:8]], [], []
    file.take(8)
    while not file.ends():
        kind = file.byte()
        data = Bytes(file.take(file.number()))
        if kind == TYPES:
            counts = parameters_of(Bytes(data.data))
        elif kind == FUNCTIONS:
            index = Bytes(data.data)
            of = [index.number() for _ in range(index.number())]
        if kind == MEMORY:
            new = memories(data)
        elif kind == CODE:
            bodies = [Body(data.take(data.number()), counts[of[i]]) for i in range(data.number())]
            new = counted([body.narrowed() for body in bodies])
        elif kind == DATA:
            new = pieces(data)
        elif kind in KEPT:
            new = data.data
        else:
            refuse(f'section {kind}')
        out.append(bytes([kind]) + sized(new))
    return b''.join(out)
