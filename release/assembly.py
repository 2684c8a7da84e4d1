"""Writes an object file of x86-64 as assembly that any assembler turns into the same bytes: each instruction as its bytes, with what
objdump reads them as beside it, the data as bytes, and the relocations by name.

    python3 release/assembly.py OBJECT > FILE.s
"""
import collections
import os
import re
import struct
import subprocess
import sys

PROGBITS, SYMTAB, RELA, NOBITS, UNWIND = 1, 2, 4, 8, 0x70000001
WRITE, ALLOC, EXEC, MERGE, STRINGS, TLS = 1, 2, 4, 0x10, 0x20, 0x400
LOCAL, GLOBAL, WEAK = range(3)
OBJECT, FUNC, SECTION = 1, 2, 3
UNDEFINED, COMMON = 0, 0xFFF2
RELOCATIONS = {1: "64", 2: "PC32", 4: "PLT32", 9: "GOTPCREL", 10: "32", 11: "32S", 24: "PC64", 41: "GOTPCRELX", 42: "REX_GOTPCRELX"}
Section = collections.namedtuple("Section", "name kind flags data size align entry")
Symbol = collections.namedtuple("Symbol", "name bind kind section value size other")


class Object:
    """The sections, the symbols and the relocations of an object file."""

    def __init__(self, file):
        assert file[:6] == b"\x7fELF\x02\x01" and file[16:20] == b"\x01\0\x3e\0", "no object file of x86-64"
        (at,) = struct.unpack_from("<Q", file, 40)
        count, names = struct.unpack_from("<HH", file, 60)
        heads = [struct.unpack_from("<IIQQQQIIQQ", file, at + 64 * number) for number in range(count)]
        texts = file[heads[names][4] :]
        self.sections = []
        self.relocations = collections.defaultdict(list)
        for name, kind, flags, _, start, size, _, _, align, entry in heads:
            data = b"" if kind == NOBITS else file[start : start + size]
            self.sections.append(Section(text_at(texts, name), kind, flags, data, size, align, entry))
        table = next(head for head in heads if head[1] == SYMTAB)
        strings = file[heads[table[6]][4] :]
        self.symbols = []
        for place in range(table[4], table[4] + table[5], 24):
            name, info, other, section, value, size = struct.unpack_from("<IBBHQQ", file, place)
            self.symbols.append(Symbol(text_at(strings, name), info >> 4, info & 15, section, value, size, other))
        for _, kind, _, _, start, size, _, of, _, _ in heads:
            if kind == RELA:
                self.relocations[of] += struct.iter_unpack("<QQq", file[start : start + size])


def text_at(strings, at):
    return strings[at : strings.index(b"\0", at)].decode()


def instructions(path):
    """What objdump reads the bytes of each section as: by the section's name and the offset, the length and the text."""
    listed = subprocess.run(["objdump", "-d", "--wide", path], capture_output=True, text=True, check=True, env={**os.environ, "LC_ALL": "C"})
    found, section = {}, None
    for line in listed.stdout.splitlines():
        begun = re.match(r"Disassembly of section (.*):$", line)
        if begun:
            section = begun[1]
        read = re.match(r" *([0-9a-f]+):\t((?:[0-9a-f]{2} )+)\s*(.*)$", line)
        if read:
            text = re.sub(r"\s*(<.*>|#.*)$", "", read[3])
            found[section, int(read[1], 16)] = len(read[2].split()), re.sub(r"\s+", " ", text)
    return found


def bytes_line(data, text=""):
    line = "\t.byte " + ",".join(map(str, data))
    return f"{line:<60}# {text}" if text else line


class Writer:
    def __init__(self, path):
        with open(path, "rb") as file:
            self.object = Object(file.read())
        self.read = instructions(path)
        self.lines = []

    def name(self, number):
        """The name that a symbol is referred to by: that of an exported or missing one, or its section's start and an offset. The
        linker moves the constants of a section that it merges, so each of them has a label."""
        symbol = self.object.symbols[number]
        if symbol.bind == LOCAL:
            assert symbol.section not in (UNDEFINED, COMMON)
            if self.object.sections[symbol.section].flags & MERGE:
                assert symbol.kind != SECTION, symbol
                return f".Lsection{symbol.section}_{symbol.value}", 0
            return f".Lsection{symbol.section}", symbol.value
        return f'"{symbol.name}"', 0

    def labels(self, section):
        """The labels of a section by their offset: of functions and objects, and of the constants of a section that is merged."""
        at = collections.defaultdict(list)
        if self.object.sections[section].flags & MERGE:
            for value in {symbol.value for symbol in self.object.symbols if symbol.section == section and symbol.bind == LOCAL}:
                at[value].append(f".Lsection{section}_{value}:")
        taken = collections.Counter(symbol.name for symbol in self.object.symbols)
        for symbol in self.object.symbols:
            if symbol.section == section and symbol.kind != SECTION and symbol.name and taken[symbol.name] == 1:
                assert symbol.other in (0, 2), symbol
                head = {LOCAL: [], GLOBAL: [f'\t.globl "{symbol.name}"'], WEAK: [f'\t.weak "{symbol.name}"']}[symbol.bind]
                if symbol.other == 2:
                    head.append(f'\t.hidden "{symbol.name}"')
                if symbol.kind in (FUNC, OBJECT):
                    head.append(f'\t.type "{symbol.name}", {"@function" if symbol.kind == FUNC else "@object"}')
                    head.append(f'\t.size "{symbol.name}", {symbol.size}')
                at[symbol.value] += [*head, f'"{symbol.name}":']
        return at

    def section(self, number):
        section = self.object.sections[number]
        assert not section.flags & TLS, section.name
        letters = [(ALLOC, "a"), (WRITE, "w"), (EXEC, "x"), (MERGE, "M"), (STRINGS, "S")]
        flags = "".join(letter for flag, letter in letters if section.flags & flag)
        kind = "@nobits" if section.kind == NOBITS else "@progbits"
        kind += f", {section.entry}" if section.flags & MERGE else ""
        self.lines += ["", f'\t.section "{section.name}", "{flags}", {kind}', f"\t.balign {max(section.align, 1)}", f".Lsection{number}:"]
        labels = self.labels(number)
        at = 0
        while at < section.size:
            self.lines += labels.pop(at, [])
            following = min([place for place in labels if place > at], default=section.size)
            length, text = self.read.get((section.name, at), (0, ""))
            if section.kind == NOBITS:
                length = following - at
                self.lines.append(f"\t.zero {length}")
            elif length and at + length <= following:
                self.lines.append(bytes_line(section.data[at : at + length], text))
            else:
                length, text = min(16, following - at), ""
                self.lines.append(bytes_line(section.data[at : at + length]))
            at += length
        self.lines += labels.pop(at, [])
        assert not labels, labels
        for place, info, addend in self.object.relocations[number]:
            name, offset = self.name(info >> 32)
            kind = f"R_X86_64_{RELOCATIONS[info & 0xFFFFFFFF]}"
            self.lines.append(f"\t.reloc .Lsection{number}+{place}, {kind}, {name}{offset + addend:+}")

    def text(self):
        targets = (self.object.symbols[info >> 32] for each in self.object.relocations.values() for _, info, _ in each)
        referred = {symbol.section for symbol in targets if symbol.bind == LOCAL}
        for number, section in enumerate(self.object.sections):
            # An empty constant may be referred to.
            if section.flags & ALLOC and (section.size or number in self.object.relocations or number in referred):
                assert section.kind in (PROGBITS, NOBITS, UNWIND), section.name
                self.section(number)
        for section in self.object.sections:
            if section.name == ".comment":
                self.lines += ["", '\t.section ".comment", "MS", @progbits, 1', bytes_line(section.data.lstrip(b"\0"))]
        # clang's assembler loses a symbol that nothing but `.reloc` names.
        missing = [it for it in self.object.symbols if it.bind != LOCAL and it.section == UNDEFINED]
        self.lines += ["", *(f'\t{".weak" if it.bind == WEAK else ".globl"} "{it.name}"' for it in missing)]
        self.lines += ["", '\t.section ".note.GNU-stack", "", @progbits', ""]
        return "\n".join(self.lines)


def same_bytes(one, other):
    """Whether two object files have the same sections and relocations in memory."""

    def parts(path):
        with open(path, "rb") as file:
            item = Object(file.read())

        def place(number):
            symbol = item.symbols[number]
            if symbol.bind == LOCAL:
                return item.sections[symbol.section].name, symbol.value
            return symbol.name, 0

        found = []
        for number, section in enumerate(item.sections):
            if section.flags & ALLOC and section.size:
                targets = []
                for at, info, addend in item.relocations[number]:
                    name, offset = place(info >> 32)
                    targets.append((at, info & 0xFFFFFFFF, name, offset + addend))
                found.append((section.name, section.flags, section.data, section.size, section.align, sorted(targets)))
        exported = sorted((it.name, item.sections[it.section].name, it.value) for it in item.symbols if it.bind != LOCAL and it.section not in (UNDEFINED, COMMON))
        return sorted(found), exported

    return parts(one) == parts(other)


if __name__ == "__main__":
    sys.stdout.write(Writer(sys.argv[1]).text())
