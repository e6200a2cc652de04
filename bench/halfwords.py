#!/usr/bin/env python3
"""Writes crates/emit_cases/data/emit/compressed/assembled.words: lines with a compressed form, and the halfword that an assembler makes of
it. Of each layout whose immediate's bits are out of order the rows tell every two bits apart. Those of Zcb, which GNU as has from 2.42 on,
are what llvm-mc 19 makes of the text.

  halfwords.py AS OBJCOPY
"""
import subprocess, sys, tempfile
from pathlib import Path

OUT = Path(__file__).parent.parent / 'crates/emit_cases/data/emit/compressed/assembled.words'
FLAGS = r'flags m zba zbb zca zcb\n'
rows = []  # the line, and its text for GNU as or the halfword

def add(line, made): rows.append((line, made))

add('Mov x1 x29 i64', 'c.mv x1, x29')
add('Mov x29 x1 i64', 'c.mv x29, x1')
add('AluRRR add x29 x29 x29', 'c.add x29, x29')
add('AluRRR add x1 x1 x2', 'c.add x1, x2')
add('EBreak', 'c.ebreak')
for rs in (1, 29):
    add(f'Jalr zero x{rs} 0', f'c.jr x{rs}')
    add(f'Jalr ra x{rs} 0', f'c.jalr x{rs}')
for op in ('sub', 'xor', 'or', 'and', 'subw', 'addw'):
    for rd, rs in ((8, 15), (15, 8)): add(f'AluRRR {op} x{rd} x{rd} x{rs}', f'c.{op} x{rd}, x{rs}')
for rd, imm in ((1, -32), (29, 31), (10, 21), (21, -26)):
    add(f'AluRRImm12 addi x{rd} x{rd} {imm}', f'c.addi x{rd}, {imm}')
    add(f'AluRRImm12 addiw x{rd} x{rd} {imm}', f'c.addiw x{rd}, {imm}')
    add(f'AluRRImm12 addi x{rd} zero {imm}', f'c.li x{rd}, {imm}')
    add(f'Lui x{rd} {imm}', f'c.lui x{rd}, {imm % 2**20}')
for rd, amount in ((1, 32), (29, 31), (10, 1), (21, 63)): add(f'AluRRImm12 slli x{rd} x{rd} {amount}', f'c.slli x{rd}, {amount}')
for imm in (-32, 31, 21, -26, -8): add(f'AluRRImm12 addi sp sp {16 * imm}', f'c.addi16sp sp, {16 * imm}')
for rd, imm in ((8, 1), (15, 255), (9, 85), (10, 102), (12, 120), (11, 128)):
    add(f'AluRRImm12 addi x{rd} sp {4 * imm}', f'c.addi4spn x{rd}, sp, {4 * imm}')
for op in ('srli', 'srai'):
    for rd, amount in ((8, 63), (15, 1), (10, 32)): add(f'AluRRImm12 {op} x{rd} x{rd} {amount}', f'c.{op} x{rd}, {amount}')
for rd, imm in ((8, -32), (15, 31), (10, 21)): add(f'AluRRImm12 andi x{rd} x{rd} {imm}', f'c.andi x{rd}, {imm}')
for op, size in (('w', 4), ('d', 8)):
    for rd, imm in ((1, 0), (29, 63), (8, 21), (10, 38), (21, 56)): add(f'Load x{rd} l{op} - sp:{size * imm}', f'c.l{op}sp x{rd}, {size * imm}(sp)')
    for rs, imm in ((0, 0), (29, 63), (8, 21), (10, 38), (21, 56)): add(f'Store sp:{size * imm} s{op} - x{rs}', f'c.s{op}sp x{rs}, {size * imm}(sp)')
    for rd, base, imm in ((8, 15, 0), (15, 8, 31), (9, 10, 21), (10, 12, 6), (12, 9, 24)):
        add(f'Load x{rd} l{op} - r:x{base}:{size * imm}', f'c.l{op} x{rd}, {size * imm}(x{base})')
        add(f'Store r:x{base}:{size * imm} s{op} - x{rd}', f'c.s{op} x{rd}, {size * imm}(x{base})')
for line, low, high in (('AluRRR mul {0} {0} {1}', 0x9c5d, 0x9fc1), ('AluRRImm12 andi {0} {0} 255', 0x9c61, 0x9fe1),
                        ('AluRRImm12 sext.b {0} {0} 0', 0x9c65, 0x9fe5), ('AluRRImm12 zext.h {0} {0} 0', 0x9c69, 0x9fe9),
                        ('AluRRImm12 sext.h {0} {0} 0', 0x9c6d, 0x9fed), ('AluRRR add.uw {0} {0} zero', 0x9c71, 0x9ff1),
                        ('AluRRImm12 xori {0} {0} -1', 0x9c75, 0x9ff5)):
    add(line.format('x8', 'x15'), low)
    add(line.format('x15', 'x8'), high)
for op, places in (('lbu', ((8, 15, 0, 0x8380), (15, 8, 1, 0x805c), (9, 10, 2, 0x8124), (12, 11, 3, 0x81f0))),
                   ('lhu', ((8, 15, 0, 0x8780), (15, 8, 2, 0x843c))), ('lh', ((8, 15, 0, 0x87c0), (15, 8, 2, 0x847c)))):
    for rd, base, offset, half in places: add(f'Load x{rd} {op} - r:x{base}:{offset}', half)
for op, places in (('sb', ((8, 15, 0, 0x8b80), (15, 8, 1, 0x885c), (9, 10, 2, 0x8924), (12, 11, 3, 0x89f0))),
                   ('sh', ((8, 15, 0, 0x8f80), (15, 8, 2, 0x8c3c)))):
    for rs, base, offset, half in places: add(f'Store r:x{base}:{offset} {op} - x{rs}', half)

texts = [made for _, made in rows if isinstance(made, str)]
with tempfile.TemporaryDirectory() as room:
    subprocess.run([sys.argv[1], '-march=rv64imc', '-o', f'{room}/o'], input='\n'.join(texts) + '\n', text=True, check=True)
    subprocess.run([sys.argv[2], '-O', 'binary', '-j', '.text', f'{room}/o', f'{room}/b'], check=True)
    code = Path(f'{room}/b').read_bytes()
assert len(code) == 2 * len(texts)
halves = iter([int.from_bytes(code[2 * i:2 * i + 2], 'little') for i in range(len(texts))])
with open(OUT, 'w') as out:
    out.write('# The halfword of each line, with its highest digit first, as an assembler makes it (bench/halfwords.py).\n')
    for line, made in rows: out.write(f'{FLAGS}{line} => {made if isinstance(made, int) else next(halves):04x}\n')
