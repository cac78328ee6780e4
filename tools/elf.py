"""Object files, put together from the bytes of their sections (System V ABI, chapter 4; the kernel's docs/bpf/btf.rst), for the rows of
crates."""
import struct

PROGBITS, SYMTAB, STRTAB, RELA, NOBITS, REL = 1, 2, 3, 4, 8, 9
WRITE, ALLOC, EXEC = 1, 2, 4
OBJECT, FUNCTION, SECTION = 1, 2, 3
ADDRESS, CALL = 1, 10


def insn(opcode, dst=0, src=0, offset=0, imm=0):
    return struct.pack('<BBhi', opcode, dst | src << 4, offset, imm)


def wide(dst, src=0, imm=0, next_imm=0):
    return insn(0x18, dst, src, 0, imm) + insn(0, 0, 0, 0, next_imm)


def mov(dst, imm):
    return insn(0xb7, dst, 0, 0, imm)


EXIT = insn(0x95)


class Names:
    """A table of strings."""

    def __init__(self):
        self.bytes = bytearray(1)

    def at(self, name):
        begin = len(self.bytes)
        self.bytes += name.encode(errors='surrogateescape') + b'\0'
        return begin


class Elf:
    """An object: sections and symbols by their numbers."""

    def __init__(self):
        self.sections, self.symbols, self.names = [], [], Names()
        self.section('', 0, 0, b'')
        self.symbol('', 0, 0, 0, 0)

    def section(self, name, kind, flags, contents, link=0, info=0, size=None):
        self.sections.append([name, kind, flags, contents, link, info, len(contents) if size is None else size])
        return len(self.sections) - 1

    def symbol(self, name, kind, section, value, size, binding=1):
        self.symbols.append(struct.pack('<IBBHQQ', self.names.at(name) if name else 0, binding << 4 | kind, 0, section, value, size))
        return len(self.symbols) - 1

    def text(self, name, contents):
        return self.section(name, PROGBITS, ALLOC | EXEC, contents)

    def function(self, name, section, value=0, size=0, binding=1):
        return self.symbol(name, FUNCTION, section, value, size, binding)

    def relocations(self, of, records, kind=REL):
        size = 16 if kind == REL else 24
        contents = b''.join(struct.pack('<QII', offset, what, symbol).ljust(size, b'\0') for offset, what, symbol in records)
        return self.section('.rel' + self.sections[of][0], kind, 0, contents, 0, of)

    def made(self, machine=247, kind=1, order=1, bits=2):
        strings = self.section('.strtab', STRTAB, 0, self.names.bytes)
        self.section('.symtab', SYMTAB, 0, b''.join(self.symbols), strings)
        table, headers, body = Names(), b'', b''
        names = self.section('.shstrtab', STRTAB, 0, b'')
        at = [table.at(section[0]) if section[0] else 0 for section in self.sections]
        self.sections[names][3], self.sections[names][6] = table.bytes, len(table.bytes)
        for name, (_, what, flags, contents, link, info, size) in zip(at, self.sections):
            headers += struct.pack('<IIQQQQIIQQ', name, what, flags, 0, 64 + len(body), size, link, info, 8, 0)
            body += contents + bytes(-len(contents) % 8)
        front = b'\x7fELF' + bytes([bits, order, 1]) + bytes(9)
        front += struct.pack('<HHIQQQIHHHHHH', kind, machine, 1, 0, 0, 64 + len(body), 0, 64, 0, 0, 64, len(self.sections), names)
        return front + body + headers


class Btf:
    """Types, by their numbers from 1 on."""

    def __init__(self):
        self.types, self.count, self.names = b'', 0, Names()

    def add(self, name, kind, count, operand, rest=()):
        self.types += struct.pack('<III', self.names.at(name) if name else 0, kind << 24 | count, operand)
        self.types += b''.join(struct.pack('<I', word) for word in rest)
        self.count += 1
        return self.count

    def number(self, number):
        """A pointer to an array of so many ints."""
        return self.add('', 2, 0, self.add('', 3, 0, 0, [1, 1, number]))

    def pointer(self, to):
        return self.add('', 2, 0, to)

    def struct(self, members):
        words = [word for name, kind in members for word in (self.names.at(name), kind, 0)]
        return self.add('', 4, len(members), 8 * len(members), words)

    def made(self):
        return struct.pack('<HBBIIIII', 0xeb9f, 1, 0, 24, 0, len(self.types), len(self.types), len(self.names.bytes)) + self.types + self.names.bytes


def info(btf, sections):
    """A section .BTF.ext of lines: of each section, by its name, the byte, file, text and number of each record. Names go to a Btf."""
    lines = struct.pack('<I', 16)
    for name, records in sections:
        lines += struct.pack('<II', btf.names.at(name), len(records))
        for at, file, text, number in records:
            lines += struct.pack('<IIII', at, btf.names.at(file), btf.names.at(text), number << 10 | 5)
    return struct.pack('<HBBIIIIIII', 0xeb9f, 1, 0, 32, 0, 0, 0, len(lines), 0, 0) + lines
