#!/usr/bin/env python3
"""Writes crates/rvobj/stdout: the object that rvobj has to make of crates/rvobj/stdin with the words in crates/rvobj/args, laid out here
from the System V ABI and the RISC-V psABI, and not by rvobj. readelf reads it back (bench/objects compares what it reads)."""
import struct
from pathlib import Path

HERE = Path(__file__).parent.parent / "crates/rvobj"
NUMBERS = {"Abs8": 2, "RiscvCallPlt": 19, "RiscvGotHi20": 20, "RiscvPCRelHi20": 23, "RiscvPCRelLo12I": 24}
RVC, DOUBLE = 1, 4


def padded(data):
    return data + bytes(-len(data) % 8)


def symbol(names, name, offset, binding):
    """An Elf64_Sym, and the name at the end of the string table."""
    at = len(names)
    names += name.encode() + b"\0"
    return struct.pack("<IBBHQQ", at, binding << 4, 0, 0 if offset is None else 1, offset or 0, 0)


def main():
    words = (HERE / "args").read_text().splitlines()
    rows = [line.split() for line in (HERE / "stdin").read_text().splitlines()]
    code = bytes.fromhex("".join(row[1] for row in rows if len(row[0]) == 8))
    labels = {row[1]: int(row[2]) for row in rows if row[0] == "label"}
    relocs = [(int(row[1]), NUMBERS[row[2]], row[3], int(row[4])) for row in rows if row[0] == "reloc"]
    values = lambda option: [value for word, value in zip(words, words[1:]) if word == option]

    places = [int(target[1:]) for _, _, target, _ in relocs if target[0] == "@"]
    local = [(f".Lpcrel_hi{k}", place, 0) for k, place in enumerate(places)]
    defined = [(name, 0, 1) for name in values("--start")]
    defined += [(name, labels[label], 1) for label, name in (word.split("=") for word in values("--export"))]
    names = list(dict.fromkeys(target for _, _, target, _ in relocs if target[0] != "@"))
    symbols = local + defined + [(name, None, 1) for name in names]

    strings = bytearray(b"\0")
    table = bytes(24) + b"".join(symbol(strings, *entry) for entry in symbols)
    relas, used = b"", 0
    for offset, kind, target, addend in relocs:
        if target[0] == "@":
            used += 1
            number = used
        else:
            number = 1 + len(local) + len(defined) + names.index(target)
        relas += struct.pack("<QQq", offset, number << 32 | kind, addend)

    section_names = b"\0.text\0.rela.text\0.symtab\0.strtab\0.shstrtab\0"
    # name, type, flags, link, info, alignment and entry size, and the contents
    sections = [
        (".text", 1, 2 | 4, 0, 0, 4, 0, padded(code), len(code)),
        (".rela.text", 4, 0x40, 3, 1, 8, 24, relas, len(relas)),
        (".symtab", 2, 0, 4, 1 + len(local), 8, 24, table, len(table)),
        (".strtab", 3, 0, 0, 0, 1, 0, bytes(strings), len(strings)),
        (".shstrtab", 3, 0, 0, 0, 1, 0, section_names, len(section_names)),
    ]
    body, headers = b"", bytes(64)
    for name, kind, flags, link, info, align, entry, data, size in sections:
        at = section_names.index(b"\0" + name.encode() + b"\0") + 1
        headers += struct.pack("<IIQQQQIIQQ", at, kind, flags, 0, 64 + len(body), size, link, info, align, entry)
        body += data
    body = padded(body)
    flags = (RVC if "zca" in ",".join(values("--flags")).split(",") else 0) | (DOUBLE if "lp64d" in values("--abi") else 0)
    head = b"\x7fELF" + bytes([2, 1, 1]) + bytes(9)
    head += struct.pack("<HHIQQQIHHHHHH", 1, 243, 1, 0, 0, 64 + len(body), flags, 64, 0, 0, 64, 6, 5)
    (HERE / "stdout").write_bytes(head + body + headers)


main()
