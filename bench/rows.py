#!/usr/bin/env python3
"""Writes crates/rv_full_rows/stdin and stdout: lines for the machine with all units, and what each must show. Words are an
assembler's (llvm-mc), results are computed here from the manual, and digests are those of decode.py.

  rows.py LLVM_MC
"""
import re, subprocess, sys
from pathlib import Path

HERE = Path(__file__).parent
OUT = HERE.parent / 'crates/rv_full_rows'
M64, lines = 2 ** 64 - 1, []

def assembled(texts):
    feed = '\n'.join(texts) + '\n'
    out = subprocess.run([sys.argv[1], '-triple=riscv64', '-mattr=+m,+a,+f,+d,+zfh,+zbc,+zbkb,+v', '-show-encoding'], input=feed, capture_output=True, text=True)
    words = [int.from_bytes(bytes(int(x, 16) for x in m.split(',')), 'little') for m in re.findall(r'encoding: \[(.*?)\]', out.stdout)]
    assert len(words) == len(texts), (out.stderr, len(words), len(texts))
    return words

def say(line, shows=''): lines.append((line, shows))
def step(text, shows='Stepped'): lines.append((('step', text), shows))
def sx(n, bits): n %= 1 << bits; return (n - (1 << bits) if n >> bits - 1 else n) & M64
def signed(n): return n - 2 ** 64 if n >> 63 else n

# the rounding mode is a field of its own: rne 0, rtz 1, dynamic 7
say('step 00b50553', 'NeedsAnswer')
say('give success true')
say('step 00b50553', 'NeedsAnswer')
say('new')
say('set f a 3f800000'); say('set f b 40000000')
say('give bits ffffffff40000000')
say('step 00b50553', 'Stepped')
say('show f a', 'ffffffff40000000')
say('show trace', '1: Float(S, Fadd) avl 0 vtype 0 frm 0 inputs 3f800000 40000000 span answer bits ffffffff40000000')
say('show pc', '1004')
say('step 00b50553', 'NeedsAnswer')
say('show trace', '1: Float(S, Fadd) avl 0 vtype 0 frm 0 inputs 3f800000 40000000 span answer bits ffffffff40000000')

# float operations that write an integer register, read one, read three, or none
say('new')
say('set f b 7'); say('set f c 8'); say('set f d 9'); say('set x b 5')
for k, (text, dest, inputs, name) in enumerate([
        ('feq.d a0, fa1, fa2', 'x', '7 8', 'Float(D, Feq)'), ('fcvt.l.d a0, fa1, rtz', 'x', '7', 'Float(D, FcvtToL)'), ('fclass.s a0, fa1', 'x', '7', 'Float(S, Fclass)'),
        ('fcvt.s.w fa0, a1', 'f', '5', 'Float(S, FcvtFromW)'), ('fmadd.d fa0, fa1, fa2, fa3', 'f', '7 8 9', 'Float(D, Fmadd)'), ('fcvt.d.s fa0, fa1', 'f', '7', 'Float(D, FcvtFromS)'),
        ('fsqrt.h fa0, fa1', 'f', '7', 'Float(H, Fsqrt)'), ('fsgnj.s fa0, fa1, fa1', 'f', '7 7', 'Float(S, Fsgnj)'), ('fsgnj.d fa0, fa1, fa2', 'f', '7 8', 'Float(D, Fsgnj)')]):
    say('give bits %x' % (0x1230 + k)); step(text)
    say('show %s a' % dest, '%x' % (0x1230 + k))
    say('show trace', '%d: %s avl 0 vtype 0 frm 0 inputs %s span answer bits %x' % (k + 1, name, inputs, 0x1230 + k))

# exact ones: moves and signs
say('new')
for bits in (0x0123456789abcdef, 0xfedcba9876543210, 0xffffffff80000000, 0x00000000ffff8000):
    say('set f b %x' % bits); say('set x b %x' % bits)
    for text, dest, result in (('fmv.x.h a0, fa1', 'x', sx(bits, 16)), ('fmv.x.w a0, fa1', 'x', sx(bits, 32)), ('fmv.x.d a0, fa1', 'x', bits),
                               ('fmv.h.x fa0, a1', 'f', bits & 0xffff | M64 ^ 0xffff), ('fmv.w.x fa0, a1', 'f', bits & 0xffffffff | M64 ^ 0xffffffff), ('fmv.d.x fa0, a1', 'f', bits),
                               ('fsgnj.d fa0, fa1, fa1', 'f', bits)):
        step(text); say('show %s a' % dest, '%x' % result)
say('show trace', '0')

# loads and stores
say('set bytes 2000 8877665544332211'); say('set x b 2008')
for text, result in (('flh fa0, -8(a1)', 0xffffffffffff2211), ('flw fa0, -7(a1)', 0xffffffff55443322), ('fld fa0, -8(a1)', 0x8877665544332211)):
    step(text); say('show f a', '%x' % result)
say('set f c 0123456789abcdef')
for text, size in (('fsh fa2, 8(a1)', 2), ('fsw fa2, 8(a1)', 4), ('fsd fa2, 8(a1)', 8)):
    say('set bytes 2010 0'); step(text)
    for k in range(8): say('show byte %x' % (0x2010 + k), '%x' % (0x0123456789abcdef >> 8 * k & 255 if k < size else 0))
say('decode 2200 zca zcd', 'Decoded { op: FloatLoad(D), rd: 8, rs1: 12, rs2: 0, rs3: 0, imm: 0, rm: 0, vm: false, len: 2 }')
say('decode 2200 zca', '-')
say('decode 00059507 zfhmin', 'Decoded { op: FloatLoad(H), rd: 10, rs1: 11, rs2: 0, rs3: 0, imm: 0, rm: 0, vm: false, len: 4 }')
say('decode 00059507', '-')

# carry-less products, packs and reversals
def product(x, y):
    p = 0
    for i in range(64):
        if y >> i & 1: p ^= x << i
    return p
say('decode 080545bb', 'Decoded { op: Alu(Bit(ZextH)), rd: 11, rs1: 10, rs2: 0, rs3: 0, imm: 0, rm: 0, vm: false, len: 4 }')
say('decode 080575b3', 'Decoded { op: Carry(Packh), rd: 11, rs1: 10, rs2: 0, rs3: 0, imm: 0, rm: 0, vm: false, len: 4 }')
for x, y in ((3, 3), (M64, M64), (0x0123456789abcdef, 0xfedcba9876543210), (1 << 63, 1 << 63), (0x80008080, 0xffff7fff)):
    say('set x b %x' % x); say('set x c %x' % y)
    p = product(x, y)
    for name, result in (('clmul', p & M64), ('clmulh', p >> 64), ('clmulr', p >> 63 & M64), ('pack', x & 0xffffffff | (y & 0xffffffff) << 32), ('packh', x & 255 | (y & 255) << 8),
                         ('packw', sx(x & 0xffff | (y & 0xffff) << 16, 32))):
        step('%s a0, a1, a2' % name); say('show x a', '%x' % result)
    step('brev8 a0, a1'); say('show x a', '%x' % sum(int(f'{x >> 8 * k & 255:08b}'[::-1], 2) << 8 * k for k in range(8)))

# atomic operations
say('set bytes 3000 11111111ffffffff'); say('set x b 3000'); say('set x c 1')
say('step 06c5a52f', 'Stepped')
say('show x a', '%x' % M64)
for k in range(8): say('show byte %x' % (0x3000 + k), '0' if k < 4 else '11')
def amo(name, x, y):
    return {'swap': y, 'add': x + y & M64, 'xor': x ^ y, 'and': x & y, 'or': x | y, 'min': min((x, y), key=signed), 'max': max((x, y), key=signed), 'minu': min(x, y), 'maxu': max(x, y)}[name]
for x, y in ((0x8000000080000001, 5), (0x7fffffff00000007, 0xfffffffffffffff0)):
    for name in ('swap', 'add', 'xor', 'and', 'or', 'min', 'max', 'minu', 'maxu'):
        for width, bits in (('w', 32), ('d', 64)):
            say('set bytes 3000 %x' % x); say('set x c %x' % y)
            step('amo%s.%s a0, a2, (a1)' % (name, width))
            say('show x a', '%x' % sx(x, bits))
            new = amo(name, x, y) if bits == 64 else (amo(name, sx(x, 32), sx(y, 32)) & 0xffffffff | x >> 32 << 32)
            for k in range(8): say('show byte %x' % (0x3000 + k), '%x' % (new >> 8 * k & 255))

# reservations
say('new'); say('set x b 3000'); say('set x c 77')
def conditional(setup, success, expected, stored, width='w'):
    say('set bytes 3000 0')
    for s in setup: step(s) if not s.startswith('set') else say(s)
    say('give success %s' % ('true' if success else 'false'))
    step('sc.%s a0, a2, (a1)' % width); say('show x a', expected); say('show byte 3000', '77' if stored else '0')
conditional([], True, '1', False)
conditional(['lr.w a0, (a1)'], True, '0', True)
conditional([], True, '1', False)                                                   # an sc ends the reservation
conditional(['lr.w a0, (a1)'], False, '1', False)
conditional([], True, '1', False)                                                   # also one that fails
conditional(['lr.d a0, (a1)'], True, '1', False)                                    # of another size
conditional(['lr.d a0, (a1)'], True, '0', True, 'd')
conditional(['lr.w a0, (a1)', 'set foreign 3003 5'], True, '1', False)              # another hart wrote there
conditional(['lr.w a0, (a1)', 'set foreign 3004 5'], True, '0', True)               # not there
conditional(['lr.w a0, (a1)', 'set foreign 2fff 5'], True, '0', True)
conditional(['lr.w a0, (a1)', 'amoadd.w a3, zero, (a1)'], True, '0', True)          # this one's own store ends none
conditional(['amoadd.w a3, zero, (a1)'], True, '1', False)                          # and makes none
old, new = 0x8877665580443322, 0x0123456789abcdef
say('set x c %x' % new)
for width, size, read in (('w', 4, sx(old, 32)), ('d', 8, old)):
    say('set bytes 3000 %x' % old); step('lr.%s a0, (a1)' % width); say('show x a', '%x' % read)
    say('give success true'); step('sc.%s a0, a2, (a1)' % width); say('show x a', '0')
    for k in range(8): say('show byte %x' % (0x3000 + k), '%x' % ((new if k < size else old) >> 8 * k & 255))
step('lr.w a0, (a1)'); step('sc.w a0, a2, (a1)', 'NeedsAnswer')
say('give bits 1'); step('sc.w a0, a2, (a1)', 'NeedsAnswer')
say('show trace', '0')

# the operations on frm
say('new'); say('set x b 1d')
for text, old, new in (('csrrw a0, frm, a1', 0, 5), ('csrrs a0, frm, a1', 5, 5), ('csrrwi a0, frm, 2', 5, 2), ('csrrs a0, frm, a1', 2, 7), ('csrrc a0, frm, a1', 7, 2), ('csrrsi a0, frm, 5', 2, 7),
                       ('csrrci a0, frm, 3', 7, 4)):
    step(text); say('show x a', '%x' % old); say('show frm', '%x' % new)
say('give bits 9'); step('fadd.d fa0, fa1, fa2')
say('show trace', '1: Float(D, Fadd) avl 0 vtype 0 frm 4 inputs 0 0 span answer bits 9')
say('decode 00202573', 'Decoded { op: Csr(Csrrs), rd: 10, rs1: 0, rs2: 0, rs3: 0, imm: 0, rm: 0, vm: false, len: 4 }')
say('decode 00302573', '-')

# vectors: avl 4, elements of 32 bits
say('new')
for n in range(4): say('set v %x %x' % (n, 0x10 + n))
step('vadd.vv v1, v2, v3', 'NeedsAnswer')
say('set setting 4 4'); step('vadd.vv v1, v2, v3', 'Stopped')                       # a reserved multiplier
say('set setting 4 7f'); step('vadd.vv v1, v2, v3', 'Stopped')                      # elements too wide for a half
say('set setting 4 d0')
say('give length 3'); step('vadd.vv v1, v2, v3', 'NeedsAnswer')
say('new'); say('set setting 4 d0')
for n in range(4): say('set v %x %x' % (n, 0x10 + n))
say('set x b 44'); say('set f b 55')
say('give vectors 20 5'); step('vadd.vv v1, v2, v3', 'NeedsAnswer')                 # there is no register 32
say('new'); say('set setting 4 d0')
for n in range(4): say('set v %x %x' % (n, 0x10 + n))
say('set x b 44'); say('set f b 55')
VECTORS = 'vectors 1 ffffffffffffffffffffffffffffff01 4 abc'
def taken(text, name, inputs, count, span=''):
    say('give ' + VECTORS); step(text)
    say('show v 1', 'ffffffffffffffffffffffffffffff01'); say('show v 4', 'abc'); say('set v 1 11'); say('set v 4 0')
    say('show trace', '%d: %s avl 4 vtype d0 frm 0 inputs %s span%s answer %s' % (count, name, inputs, span, VECTORS))
taken('vadd.vv v1, v2, v3', 'Vec { funct6: 0, funct3: 0 }', '13 12 11', 1)
taken('vadd.vv v1, v2, v3, v0.t', 'Vec { funct6: 0, funct3: 0 }', '13 12 11 10', 2)
taken('vadd.vx v1, v2, a1', 'Vec { funct6: 0, funct3: 4 }', '44 12 11', 3)
taken('vadd.vi v1, v2, -3', 'Vec { funct6: 0, funct3: 3 }', '12 11', 4)
taken('vfadd.vf v1, v2, fa1', 'Vec { funct6: 0, funct3: 5 }', '55 12 11', 5)
taken('vmul.vx v1, v2, a1', 'Vec { funct6: 37, funct3: 6 }', '44 12 11', 6)
say('give bits 99'); step('vmv.x.s a0, v2'); say('show x a', '99')
say('show trace', '7: Vec { funct6: 16, funct3: 2 } avl 4 vtype d0 frm 0 inputs 10 12 0 span answer bits 99')
say('give bits 98'); step('vfmv.f.s fa0, v2'); say('show f a', '98')
say('set bytes 3000 8877665544332211'); say('set bytes 3008 100f0e0d0c0b0a09'); say('set x b 3000')
taken('vle32.v v1, (a1)', 'VecMem(Vle32)', '3000 11', 9, ' 11 22 33 44 55 66 77 88 9 a b c d e f 10')
taken('vle8.v v1, (a1), v0.t', 'VecMem(Vle8)', '3000 11 10', 10, ' 11 22 33 44')
step('vmv2r.v v4, v2'); say('show v 4', '12'); say('show v 5', '13'); step('vmv1r.v v6, v5'); say('show v 6', '13')
say('show trace', '10: VecMem(Vle8) avl 4 vtype d0 frm 0 inputs 3000 11 10 span 11 22 33 44 answer ' + VECTORS)
say('give stored 1 2 3'); step('vse8.v v2, (a1)', 'NeedsAnswer')                    # too few bytes
say('new'); say('set setting 4 c0'); say('set v 2 12'); say('set x b ffffffffffffffff'); say('set bytes ffffffffffffffff 1111111111111111')
say('give stored a1 - a3 -'); step('vse8.v v2, (a1)')
for at, byte in ((M64, 'a1'), (0, '11'), (1, 'a3'), (2, '11')): say('show byte %x' % at, byte)
say('show trace', '1: VecMem(Vse8) avl 4 vtype c0 frm 0 inputs ffffffffffffffff 12 span answer stored a1 - a3 -')
say('give length 5'); step('vsetivli a0, 4, e32, m1, ta, ma', 'NeedsAnswer')
say('new'); say('give length 4'); step('vsetivli a0, 4, e32, m1, ta, ma'); say('show x a', '4'); say('show setting', '4 d0')
say('give length 1'); step('vsetivli zero, 8, e8, mf8, tu, mu'); say('show setting', '8 5')
say('show trace', '0')

# an integer operation touches no unit; a word that is none is none
say('set f a 7'); say('set x a 5'); step('addi a0, a0, 1'); say('show x a', '6'); say('show f a', '7'); say('show setting', '8 5')
say('step 00000073', 'Stopped'); say('step 00100073', 'Stopped')
say('decode 02b57553', 'Decoded { op: Float(D, Fadd), rd: 10, rs1: 10, rs2: 11, rs3: 0, imm: 0, rm: 7, vm: false, len: 4 }')
say('decode 02b55553', '-')                                                         # a reserved rounding mode

# a run: it stops at an answer that is missing or of another kind, after the end of the code, and goes on over what a store put there
FADD = '00b50553'
say('new'); say('set bytes 1000 ' + FADD * 2); say('give bits 1'); say('run 5', '1'); say('show pc', '1004'); say('show f a', '1')
say('run 5', '0'); say('give success true'); say('run 5', '0'); say('show pc', '1004')
say('show trace', '1: Float(S, Fadd) avl 0 vtype 0 frm 0 inputs 0 0 span answer bits 1')
say('new'); say('set bytes 1000 ' + FADD * 2); say('give bits 1'); say('give bits 2'); say('give bits 3'); say('run 64', '2')
say('show pc', '1008'); say('show f a', '2'); say('run 64', '0'); say('show pc', '1008')
say('new'); say('set bytes 1000 ' + FADD + '00c5a023'); say('set x b 1004'); say('set x c 150513'); say('give bits 4')        # sw a2, 0(a1)
say('run 9', '2'); say('show pc', '1008'); say('show x a', '1'); say('show trace', '0')
say('new'); say('set bytes 1000 c5a227'); say('set x b 1000'); say('set f c 150513')                                      # fsw fa2, 4(a1)
say('run 9', '2'); say('show pc', '1008'); say('show x a', '1')

digests = subprocess.run([sys.executable, str(HERE / 'decode.py'), 'digests'], capture_output=True, text=True).stdout
for line in digests.splitlines():
    kind, *rest = line.split(' ')
    if kind == 'words': say('digest words %s %x %s' % (rest[0], int(rest[1]), ' '.join(rest[3:])), rest[2])
    else: say(f'digest {kind} ' + ' '.join(rest[1:]), rest[0])

texts = sorted({line[1] for line, _ in lines if isinstance(line, tuple)})
words = dict(zip(texts, assembled(texts)))
asked = [(line if isinstance(line, str) else 'step %08x %s' % (words[line[1]], line[1]), shows) for line, shows in lines]
(OUT / 'stdin').write_text(''.join(line + '\n' for line, _ in asked))
(OUT / 'stdout').write_text(''.join(f'{line}: {shows}\n' for line, shows in asked))
