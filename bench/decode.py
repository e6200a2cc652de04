#!/usr/bin/env python3
"""A decoder of RISC-V, written from the listings of the unprivileged manual and not from the project's text.

  decode.py digests                 the lines of data for crates/rv_full_rows: digests over the texts of what is decoded, of halfwords, of random
                                    words near every operation, and of a word of each operation with its edges
  decode.py texts                   digests over the assembler's texts of halfwords, for machine_cases
  decode.py compare LLVM_MC [N]     compares with a disassembler (llvm-mc 19) which of the words of each operation, of their edges and of N
                                    random words near every operation are operations at all, and their texts: names, orders, registers,
                                    immediates, rounding modes, constants, masks and settings
"""
import random, re, subprocess, sys

def b(w, hi, lo): return w >> lo & (1 << hi - lo + 1) - 1
def sx(n, width): return n - (1 << width) if n >> width - 1 else n

def d(op, rd=0, rs1=0, rs2=0, rs3=0, imm=0, rm=0, vm=False, len=4):
    return dict(op=op, rd=rd, rs1=rs1, rs2=rs2, rs3=rs3, imm=imm, rm=rm, vm=vm, len=len)

LOADS = {0: 'Lb', 1: 'Lh', 2: 'Lw', 3: 'Ld', 4: 'Lbu', 5: 'Lhu', 6: 'Lwu'}
STORES = {0: 'Sb', 1: 'Sh', 2: 'Sw', 3: 'Sd'}
BRANCHES = {0: 'Beq', 1: 'Bne', 4: 'Blt', 5: 'Bge', 6: 'Bltu', 7: 'Bgeu'}
OP = {
    (0, 0): 'Int(Add)', (0, 1): 'Int(Sll)', (0, 2): 'Int(Slt)', (0, 3): 'Int(Sltu)', (0, 4): 'Int(Xor)', (0, 5): 'Int(Srl)', (0, 6): 'Int(Or)', (0, 7): 'Int(And)',
    (32, 0): 'Int(Sub)', (32, 5): 'Int(Sra)',
    (1, 0): 'Mul(Mul)', (1, 1): 'Mul(Mulh)', (1, 2): 'Mul(Mulhsu)', (1, 3): 'Mul(Mulhu)', (1, 4): 'Mul(Div)', (1, 5): 'Mul(Divu)', (1, 6): 'Mul(Rem)', (1, 7): 'Mul(Remu)',
    (7, 5): 'Int(CzeroEqz)', (7, 7): 'Int(CzeroNez)',
    (16, 2): 'Bit(Sh1add)', (16, 4): 'Bit(Sh2add)', (16, 6): 'Bit(Sh3add)',
    (32, 7): 'Bit(Andn)', (32, 6): 'Bit(Orn)', (32, 4): 'Bit(Xnor)',
    (5, 6): 'Bit(Max)', (5, 7): 'Bit(Maxu)', (5, 4): 'Bit(Min)', (5, 5): 'Bit(Minu)',
    (48, 1): 'Bit(Rol)', (48, 5): 'Bit(Ror)',
    (36, 1): 'Bit(Bclr)', (36, 5): 'Bit(Bext)', (52, 1): 'Bit(Binv)', (20, 1): 'Bit(Bset)',
}
CARRY = {(5, 1): 'Clmul', (5, 3): 'Clmulh', (5, 2): 'Clmulr', (4, 4): 'Pack', (4, 7): 'Packh'}
OP32 = {
    (0, 0): 'Int(Addw)', (0, 1): 'Int(Sllw)', (0, 5): 'Int(Srlw)', (32, 0): 'Int(Subw)', (32, 5): 'Int(Sraw)',
    (1, 0): 'Mul(Mulw)', (1, 4): 'Mul(Divw)', (1, 5): 'Mul(Divuw)', (1, 6): 'Mul(Remw)', (1, 7): 'Mul(Remuw)',
    (4, 0): 'Bit(AddUw)', (16, 2): 'Bit(Sh1addUw)', (16, 4): 'Bit(Sh2addUw)', (16, 6): 'Bit(Sh3addUw)', (48, 1): 'Bit(Rolw)', (48, 5): 'Bit(Rorw)',
}
IMM = {0: 'Int(Addi)', 2: 'Int(Slti)', 3: 'Int(Sltiu)', 4: 'Int(Xori)', 6: 'Int(Ori)', 7: 'Int(Andi)'}
SHIFT = {(0, 1): 'Int(Slli)', (0, 5): 'Int(Srli)', (16, 5): 'Int(Srai)', (24, 5): 'Bit(Rori)', (18, 1): 'Bit(Bclri)', (18, 5): 'Bit(Bexti)', (26, 1): 'Bit(Binvi)', (10, 1): 'Bit(Bseti)'}
UNARY = {(0x600, 1): 'Bit(Clz)', (0x601, 1): 'Bit(Ctz)', (0x602, 1): 'Bit(Cpop)', (0x604, 1): 'Bit(SextB)', (0x605, 1): 'Bit(SextH)', (0x287, 5): 'Bit(OrcB)', (0x6b8, 5): 'Bit(Rev8)'}
SHIFT32 = {(0, 1): 'Int(Slliw)', (0, 5): 'Int(Srliw)', (32, 5): 'Int(Sraiw)', (48, 5): 'Bit(Roriw)'}
UNARY32 = {(0x600, 1): 'Bit(Clzw)', (0x601, 1): 'Bit(Ctzw)', (0x602, 1): 'Bit(Cpopw)'}
AMO = {2: 'Lr', 3: 'Sc', 1: 'Amoswap', 0: 'Amoadd', 4: 'Amoxor', 12: 'Amoand', 8: 'Amoor', 16: 'Amomin', 20: 'Amomax', 24: 'Amominu', 28: 'Amomaxu'}
ATOMIC_WIDTHS = {2: 'W', 3: 'D'}
CSR = {1: 'Csrrw', 2: 'Csrrs', 3: 'Csrrc', 5: 'Csrrwi', 6: 'Csrrsi', 7: 'Csrrci'}

WIDTHS = {1: 'H', 2: 'S', 3: 'D'}
ELEMENTS = {0: 8, 5: 16, 6: 32, 7: 64}
FORMATS = {0: 'S', 1: 'D', 2: 'H'}
FUSED = {0x43: 'Fmadd', 0x47: 'Fmsub', 0x4b: 'Fnmsub', 0x4f: 'Fnmadd'}
# of floats: by funct5, and then by rs2 or funct3; those with a rounding mode, of two sources and of one, and those without
ROUNDED = {0: 'Fadd', 1: 'Fsub', 2: 'Fmul', 3: 'Fdiv'}
ROUNDED_ONE = {(11, 0): 'Fsqrt', (8, 0): 'FcvtFromS', (8, 1): 'FcvtFromD', (8, 2): 'FcvtFromH', (8, 4): 'Fround'}
for rs2, number in enumerate(('W', 'Wu', 'L', 'Lu')): ROUNDED_ONE[24, rs2], ROUNDED_ONE[26, rs2] = 'FcvtTo' + number, 'FcvtFrom' + number
FIXED = {(4, 0): 'Fsgnj', (4, 1): 'Fsgnjn', (4, 2): 'Fsgnjx', (5, 0): 'Fmin', (5, 1): 'Fmax', (5, 2): 'Fminm', (5, 3): 'Fmaxm', (20, 0): 'Fle', (20, 1): 'Flt', (20, 2): 'Feq'}
FIXED_ONE = {(28, 0, 0): 'FmvToX', (28, 0, 1): 'Fclass', (30, 0, 0): 'FmvFromX', (30, 1, 0): 'Fli'}

def floats(w):
    fmt = FORMATS.get(b(w, 26, 25))
    if fmt is None: return None
    f5, rs2, f3, rd, rs1 = b(w, 31, 27), b(w, 24, 20), b(w, 14, 12), b(w, 11, 7), b(w, 19, 15)
    rounds = f3 not in (5, 6)
    name = lambda op: f'Float({fmt}, {op})'
    if f5 in ROUNDED: return d(name(ROUNDED[f5]), rd, rs1, rs2, rm=f3) if rounds else None
    if (f5, f3) in FIXED: return d(name(FIXED[f5, f3]), rd, rs1, rs2)
    if (f5, rs2) in ROUNDED_ONE:
        one = ROUNDED_ONE[f5, rs2]
        return d(name(one), rd, rs1, rm=f3) if rounds and one != 'FcvtFrom' + fmt else None
    return d(name(FIXED_ONE[f5, rs2, f3]), rd, rs1) if (f5, rs2, f3) in FIXED_ONE else None

# the forms of each mnemonic of vector arithmetic: v vector, x integer register, i immediate, f float register
VECTOR = """
vadd vxi 00|vandn vx 01|vsub vx 02|vrsub xi 03|vminu vx 04|vmin vx 05|vmaxu vx 06|vmax vx 07|vand vxi 09|vor vxi 0a|vxor vxi 0b
vrgather vxi 0c|vslideup i 0e|vslidedown xi 0f|vror vxi 14|vrol vx 15|vmseq vxi 18|vmsne vxi 19|vmsltu vx 1a|vmslt vx 1b
vmsleu vxi 1c|vmsle vxi 1d|vmsgtu xi 1e|vmsgt xi 1f|vsaddu vxi 20|vsadd vxi 21|vssubu vx 22|vssub vx 23|vsll vxi 25|vsmul vx 27
vsrl vxi 28|vsra vxi 29|vssrl i 2a|vnclipu i 2e|vnclip i 2f
""".replace('\n', '|')
VECTOR_M = "vredminu v 04|vredmaxu v 06|vslide1up x 0e|vmulhu vx 24|vmul vx 25|vmulh vx 27|vmacc vx 2d|vnmsac vx 2f|vwaddu vx 30|vwadd vx 31|vwsubu vx 32|vwsub vx 33|vwaddu.w vx 34|vwadd.w vx 35|vwsubu.w vx 36|vwsub.w vx 37"
VECTOR_F = "vfadd vf 00|vfsub vf 02|vfmin v 04|vfmax v 06|vfsgnj vf 08|vfsgnjn v 09|vfsgnjx v 0a|vmfeq vf 18|vmfle vf 19|vmflt vf 1b|vmfne vf 1c|vmfgt f 1d|vmfge f 1f|vfdiv vf 20|vfrdiv f 21|vfmul vf 24|vfrsub f 27|vfmacc vf 2c|vfnmacc vf 2d|vfmsac vf 2e|vfnmsac vf 2f"
FORMS = {}
for table, codes in ((VECTOR, dict(v=0, x=4, i=3)), (VECTOR_M, dict(v=2, x=6)), (VECTOR_F, dict(v=1, f=5))):
    for row in filter(None, table.split('|')):
        base, forms, f6 = row.split()
        for form in forms: FORMS[codes[form], int(f6, 16)] = base, form
# by rs1: of VXUNARY0 and of VFUNARY0; by funct6: of OPMVV, without a mask
EXTENSIONS = {2: 'vzext.vf8', 3: 'vsext.vf8', 4: 'vzext.vf4', 5: 'vsext.vf4', 6: 'vzext.vf2', 7: 'vsext.vf2', 8: 'vbrev8.v', 9: 'vrev8.v', 10: 'vbrev.v', 12: 'vclz.v', 13: 'vctz.v', 14: 'vcpop.v'}
CONVERSIONS = {0: 'vfcvt.xu.f.v', 1: 'vfcvt.x.f.v', 2: 'vfcvt.f.xu.v', 3: 'vfcvt.f.x.v', 6: 'vfcvt.rtz.xu.f.v', 7: 'vfcvt.rtz.x.f.v', 12: 'vfwcvt.f.f.v', 20: 'vfncvt.f.f.w'}
MASKS = {0x17: 'vcompress.vm', 0x19: 'vmand.mm', 0x1a: 'vmor.mm', 0x1d: 'vmnand.mm', 0x1e: 'vmnor.mm'}

def vector(w):
    f6, vm, vs2, vs1, f3, vd = b(w, 31, 26), b(w, 25, 25), b(w, 24, 20), b(w, 19, 15), b(w, 14, 12), b(w, 11, 7)
    if f3 == 7:
        vtype = b(w, 29, 20)
        if b(w, 31, 30) != 3 or vtype > 255 or vtype & 7 == 4 or vtype >> 3 & 7 > 3: return None
        return d('VecMem(Vsetivli)', vd, vs1, imm=vtype)
    good = (f3, f6) in FORMS
    if f6 == 0x17 and f3 in (0, 3, 4, 5): good = vm == 0 or vs2 == 0
    if f6 in MASKS and f3 == 2: good = vm == 1
    if f6 == 0x10 and f3 in (1, 2): good = vs1 == 0 and vm == 1
    if f6 == 0x10 and f3 in (5, 6): good = vs2 == 0 and vm == 1
    if f6 == 0x12 and f3 == 2: good = vs1 in EXTENSIONS
    if f6 == 0x12 and f3 == 1: good = vs1 in CONVERSIONS
    if f6 == 0x13 and f3 == 1: good = vs1 == 0
    if f6 == 0x27 and f3 == 3: good = vm == 1 and vs1 in (0, 1, 3, 7) and vd % (vs1 + 1) == 0 and vs2 % (vs1 + 1) == 0
    if not good: return None
    return d(f'Vec {{ funct6: {f6}, funct3: {f3} }}', vd, vs1, vs2, vm=vm == 1)

def word(w, F):
    op, rd, f3, rs1, rs2, f7 = b(w, 6, 0), b(w, 11, 7), b(w, 14, 12), b(w, 19, 15), b(w, 24, 20), b(w, 31, 25)
    i, f12, f6 = sx(b(w, 31, 20), 12), b(w, 31, 20), b(w, 31, 26)
    s = sx(b(w, 31, 25) << 5 | b(w, 11, 7), 12)
    alu = lambda name, *a, **k: d(f'Alu({name})', *a, **k)
    if op == 0x37: return d('Base(Lui)', rd, imm=sx(b(w, 31, 12), 20))
    if op == 0x17: return d('Base(Auipc)', rd, imm=sx(b(w, 31, 12), 20))
    if op == 0x6f: return d('Base(Jal)', rd, imm=sx(b(w, 31, 31) << 20 | b(w, 19, 12) << 12 | b(w, 20, 20) << 11 | b(w, 30, 21) << 1, 21))
    if op == 0x67: return d('Base(Jalr)', rd, rs1, imm=i) if f3 == 0 else None
    if op == 0x63: return d(f'Base({BRANCHES[f3]})', 0, rs1, rs2, imm=sx(b(w, 31, 31) << 12 | b(w, 7, 7) << 11 | b(w, 30, 25) << 5 | b(w, 11, 8) << 1, 13)) if f3 in BRANCHES else None
    if op == 0x03: return d(f'Load({LOADS[f3]})', rd, rs1, imm=i) if f3 in LOADS else None
    if op == 0x23: return d(f'Store({STORES[f3]})', 0, rs1, rs2, imm=s) if f3 in STORES else None
    if op == 0x13:
        if f3 in IMM: return alu(IMM[f3], rd, rs1, imm=i)
        if (f6, f3) in SHIFT: return alu(SHIFT[f6, f3], rd, rs1, imm=b(w, 25, 20))
        if (f12, f3) in UNARY: return alu(UNARY[f12, f3], rd, rs1)
        return d('Carry(Brev8)', rd, rs1) if (f12, f3) == (0x687, 5) else None
    if op == 0x1b:
        if f3 == 0: return alu('Int(Addiw)', rd, rs1, imm=i)
        if (f6, f3) == (2, 1): return alu('Bit(SlliUw)', rd, rs1, imm=b(w, 25, 20))
        if (f7, f3) in SHIFT32: return alu(SHIFT32[f7, f3], rd, rs1, imm=rs2)
        return alu(UNARY32[f12, f3], rd, rs1) if (f12, f3) in UNARY32 else None
    if op == 0x33:
        if (f7, f3) in OP: return alu(OP[f7, f3], rd, rs1, rs2)
        return d(f'Carry({CARRY[f7, f3]})', rd, rs1, rs2) if (f7, f3) in CARRY else None
    if op == 0x3b:
        if (f7, f3) in OP32: return alu(OP32[f7, f3], rd, rs1, rs2)
        if (f7, f3) == (4, 4): return d('Carry(Packw)', rd, rs1, rs2) if rs2 else alu('Bit(ZextH)', rd, rs1)
        return None
    if op == 0x0f: return d('Base(Fence)', imm=b(w, 27, 20)) if f3 == rd == rs1 == b(w, 31, 28) == 0 else None
    if op == 0x73:
        if w == 0x00100073: return d('Base(Ebreak)')
        return d(f'Csr({CSR[f3]})', rd, rs1) if f12 == 2 and f3 in CSR else None
    if op in (0x07, 0x27):
        fmt = WIDTHS.get(f3)
        if fmt == 'H' and 'zfhmin' not in F: return None
        if fmt: return d(f'FloatLoad({fmt})', rd, rs1, imm=i) if op == 7 else d(f'FloatStore({fmt})', 0, rs1, rs2, imm=s)
        width = ELEMENTS.get(f3)
        if width is None or f6 or rs2: return None
        return d(f'VecMem({"Vle" if op == 7 else "Vse"}{width})', rd, rs1, vm=b(w, 25, 25) == 1)
    if op == 0x2f:
        name, width = AMO.get(b(w, 31, 27)), ATOMIC_WIDTHS.get(f3)
        if not name or not width or name == 'Lr' and rs2: return None
        return d(f'Atomic({name}, {width})', rd, rs1, rs2, imm=b(w, 26, 25))
    if op == 0x53: return floats(w)
    if op in FUSED:
        fmt = FORMATS.get(b(w, 26, 25))
        if fmt is None or f3 in (5, 6): return None
        return d(f'Float({fmt}, {FUSED[op]})', rd, rs1, rs2, b(w, 31, 27), rm=f3)
    if op == 0x57: return vector(w)
    return None

def half(h, F):
    if 'zca' not in F: return None
    c = lambda op, *a, **k: d(op, *a, **k, len=2)
    f3, q = b(h, 15, 13), h & 3
    rl, rh, rd, rs2 = 8 + b(h, 4, 2), 8 + b(h, 9, 7), b(h, 11, 7), b(h, 6, 2)
    six = b(h, 12, 12) << 5 | b(h, 6, 2)
    if q == 0:
        lw = b(h, 5, 5) << 6 | b(h, 12, 10) << 3 | b(h, 6, 6) << 2
        ld = b(h, 6, 5) << 6 | b(h, 12, 10) << 3
        if f3 == 0:
            n = b(h, 10, 7) << 6 | b(h, 12, 11) << 4 | b(h, 5, 5) << 3 | b(h, 6, 6) << 2
            return c('Alu(Int(Addi))', rl, 2, imm=n) if n else None
        if f3 == 1 and 'zcd' in F: return c('FloatLoad(D)', rl, rh, imm=ld)
        if f3 == 2: return c('Load(Lw)', rl, rh, imm=lw)
        if f3 == 3: return c('Load(Ld)', rl, rh, imm=ld)
        if f3 == 4 and 'zcb' in F:
            k, one, two = b(h, 12, 10), b(h, 5, 5) << 1 | b(h, 6, 6), b(h, 5, 5) << 1
            if k == 0: return c('Load(Lbu)', rl, rh, imm=one)
            if k == 1: return c('Load(Lh)' if b(h, 6, 6) else 'Load(Lhu)', rl, rh, imm=two)
            if k == 2: return c('Store(Sb)', 0, rh, rl, imm=one)
            if k == 3 and not b(h, 6, 6): return c('Store(Sh)', 0, rh, rl, imm=two)
            return None
        if f3 == 5 and 'zcd' in F: return c('FloatStore(D)', 0, rh, rl, imm=ld)
        if f3 == 6: return c('Store(Sw)', 0, rh, rl, imm=lw)
        if f3 == 7: return c('Store(Sd)', 0, rh, rl, imm=ld)
        return None
    if q == 1:
        if f3 == 0: return c('Alu(Int(Addi))', rd, rd, imm=sx(six, 6))
        if f3 == 1: return c('Alu(Int(Addiw))', rd, rd, imm=sx(six, 6)) if rd else None
        if f3 == 2: return c('Alu(Int(Addi))', rd, 0, imm=sx(six, 6))
        if f3 == 3:
            if not six: return None
            if rd == 2: return c('Alu(Int(Addi))', 2, 2, imm=sx(b(h, 12, 12) << 9 | b(h, 4, 3) << 7 | b(h, 5, 5) << 6 | b(h, 2, 2) << 5 | b(h, 6, 6) << 4, 10))
            return c('Base(Lui)', rd, imm=sx(six, 6))
        if f3 == 4:
            k = b(h, 11, 10)
            if k == 0: return c('Alu(Int(Srli))', rh, rh, imm=six)
            if k == 1: return c('Alu(Int(Srai))', rh, rh, imm=six)
            if k == 2: return c('Alu(Int(Andi))', rh, rh, imm=sx(six, 6))
            n = b(h, 12, 12) << 2 | b(h, 6, 5)
            two = {0: 'Int(Sub)', 1: 'Int(Xor)', 2: 'Int(Or)', 3: 'Int(And)', 4: 'Int(Subw)', 5: 'Int(Addw)'}
            if n in two: return c(f'Alu({two[n]})', rh, rh, rl)
            if n == 6: return c('Alu(Mul(Mul))', rh, rh, rl) if 'zcb' in F and 'm' in F else None
            if 'zcb' not in F: return None
            k = b(h, 4, 2)
            if k == 0: return c('Alu(Int(Andi))', rh, rh, imm=255)
            if k in (1, 2, 3): return c(f'Alu(Bit({["SextB", "ZextH", "SextH"][k - 1]}))', rh, rh) if 'zbb' in F else None
            if k == 4: return c('Alu(Bit(AddUw))', rh, rh) if 'zba' in F else None
            return c('Alu(Int(Xori))', rh, rh, imm=-1) if k == 5 else None
        if f3 == 5: return c('Base(Jal)', 0, imm=sx(b(h, 12, 12) << 11 | b(h, 8, 8) << 10 | b(h, 10, 9) << 8 | b(h, 6, 6) << 7 | b(h, 7, 7) << 6 | b(h, 2, 2) << 5 | b(h, 11, 11) << 4 | b(h, 5, 3) << 1, 12))
        return None
    if q == 2:
        lwsp, ldsp = b(h, 3, 2) << 6 | b(h, 12, 12) << 5 | b(h, 6, 4) << 2, b(h, 4, 2) << 6 | b(h, 12, 12) << 5 | b(h, 6, 5) << 3
        swsp, sdsp = b(h, 8, 7) << 6 | b(h, 12, 9) << 2, b(h, 9, 7) << 6 | b(h, 12, 10) << 3
        if f3 == 0: return c('Alu(Int(Slli))', rd, rd, imm=six)
        if f3 == 1 and 'zcd' in F: return c('FloatLoad(D)', rd, 2, imm=ldsp)
        if f3 == 2: return c('Load(Lw)', rd, 2, imm=lwsp) if rd else None
        if f3 == 3: return c('Load(Ld)', rd, 2, imm=ldsp) if rd else None
        if f3 == 4:
            if not b(h, 12, 12):
                if not rs2: return c('Base(Jalr)', 0, rd) if rd else None
                return c('Alu(Int(Add))', rd, 0, rs2)
            if not rs2: return c('Base(Jalr)', 1, rd) if rd else c('Base(Ebreak)')
            return c('Alu(Int(Add))', rd, rd, rs2)
        if f3 == 5 and 'zcd' in F: return c('FloatStore(D)', 0, 2, rs2, imm=sdsp)
        if f3 == 6: return c('Store(Sw)', 0, 2, rs2, imm=swsp)
        if f3 == 7: return c('Store(Sd)', 0, 2, rs2, imm=sdsp)
    return None

def decode(w, F): return word(w, F) if w & 3 == 3 else half(w & 0xffff, F)

# ---- texts and digests

def shown(x):
    if x is None: return '-'
    fields = ', '.join(f'{k}: {str(v).lower() if isinstance(v, bool) else v}' for k, v in x.items())
    return f'Decoded {{ {fields} }}'

def fnv(text, h=0xcbf29ce484222325):
    for byte in text.encode(): h = (h ^ byte) * 0x100000001b3 % 2 ** 64
    return h

ALL = 'm zba zbb zca zcb zcd zfhmin'
OPCODES = [0x03, 0x07, 0x0f, 0x13, 0x17, 0x1b, 0x23, 0x27, 0x2f, 0x33, 0x37, 0x3b, 0x43, 0x47, 0x4b, 0x4f, 0x53, 0x57, 0x63, 0x67, 0x6f, 0x73]

class Random:
    """x -> x * 6364136223846793005 + 1442695040888963407 modulo 2^64; the upper 32 bits."""
    def __init__(self, seed): self.state = seed
    def next(self):
        self.state = (self.state * 6364136223846793005 + 1442695040888963407) % 2 ** 64
        return self.state >> 32

def random_words(seed, n):
    """Words with an opcode of an operation; of every other one the fields 31:20 are masked to few values, near the tables' rows."""
    r = Random(seed)
    for k in range(n):
        w, pick, kind = r.next(), r.next(), r.next()
        w = w & 0xffffff80 | OPCODES[pick % len(OPCODES)]
        if kind % 4 == 1: w &= 0xfe0fffff
        if kind % 4 == 2: w &= 0xfdffffff
        if kind % 4 == 3: w &= 0x3e1fffff
        yield w

def digest_words(seed, n, F):
    h = 0xcbf29ce484222325
    for w in random_words(seed, n): h = fnv(shown(decode(w, F)) + '\n', h)
    return h

def edge_words():
    """A word of each operation, format, selector and order: rd is 8, rs1 5, rs2 16 and rs3 3 where they are free, the rounding mode dynamic."""
    def w(opcode, f3=7, f7=0, rs2=16, rs1=5, rd=8): return f7 << 25 | rs2 << 20 | rs1 << 15 | f3 << 12 | rd << 7 | opcode
    words = [w(0x37), w(0x17), w(0x6f), w(0x67, 0), w(0x0f, 0, rs1=0, rd=0), w(0x73, 0, rs2=1, rs1=0, rd=0)]
    words += [w(0x63, f3) for f3 in BRANCHES] + [w(0x03, f3) for f3 in LOADS] + [w(0x23, f3) for f3 in STORES]
    words += [w(0x13, f3) for f3 in IMM] + [w(0x13, f3, f6 << 1) for f6, f3 in SHIFT] + [w(0x13, f3, f12 >> 5, f12 & 31) for f12, f3 in (*UNARY, (0x687, 5))]
    words += [w(0x1b, 0), w(0x1b, 1, 2 << 1)] + [w(0x1b, f3, f7) for f7, f3 in SHIFT32] + [w(0x1b, f3, f12 >> 5, f12 & 31) for f12, f3 in UNARY32]
    words += [w(0x33, f3, f7) for f7, f3 in (*OP, *CARRY)] + [w(0x3b, f3, f7) for f7, f3 in (*OP32, (4, 4))] + [w(0x3b, 4, 4, 0)]
    words += [w(0x73, f3, 0, 2) for f3 in CSR]
    words += [w(0x2f, f3, f5 << 2 | order, 0 if AMO[f5] == 'Lr' else 16) for f5 in AMO for f3 in ATOMIC_WIDTHS for order in range(4)]
    for opcode in (0x07, 0x27): words += [w(opcode, f3) for f3 in WIDTHS] + [w(opcode, f3, 1, 0) for f3 in ELEMENTS]
    for fmt in FORMATS:
        words += [w(opcode, f7=3 << 2 | fmt) for opcode in FUSED] + [w(0x53, f7=f5 << 2 | fmt) for f5 in ROUNDED] + [w(0x53, f3, f5 << 2 | fmt) for f5, f3 in FIXED]
        words += [w(0x53, f7=f5 << 2 | fmt, rs2=rs2) for (f5, rs2), name in ROUNDED_ONE.items() if name != 'FcvtFrom' + FORMATS[fmt]]
        words += [w(0x53, f3, f5 << 2 | fmt, rs2) for f5, rs2, f3 in FIXED_ONE]
    v = lambda f3, f6, vm=1, rs2=16, rs1=5: w(0x57, f3, f6 << 1 | vm, rs2, rs1)
    words += [v(f3, f6) for f3, f6 in FORMS] + [v(f3, 0x17, 0) for f3 in (0, 3, 4, 5)] + [v(f3, 0x17, rs2=0) for f3 in (0, 3, 4, 5)] + [v(2, f6) for f6 in MASKS]
    words += [v(f3, 0x10, rs1=0) for f3 in (1, 2)] + [v(f3, 0x10, rs2=0) for f3 in (5, 6)] + [v(1, 0x13, rs1=0)] + [v(3, 0x27, rs1=n) for n in (0, 1, 3, 7)]
    words += [v(2, 0x12, rs1=n) for n in EXTENSIONS] + [v(1, 0x12, rs1=n) for n in CONVERSIONS] + [w(0x57, 7, 3 << 5 | 0xd0 >> 5, 0xd0 & 31)]
    return words

FIELDS = [(11, 7), (14, 12), (19, 15), (24, 20), (25, 25), (31, 20), (31, 25), (31, 27)]

def edges(words):
    """Each word, and those that differ from it in one field, which is 0, 1, its top bit alone or all ones."""
    for w in words:
        yield w
        for hi, lo in FIELDS:
            ones = (1 << hi - lo + 1) - 1
            for value in (0, 1, ones ^ ones >> 1, ones): yield w & ~(ones << lo) | value << lo

def digest_edges(words, F):
    h = 0xcbf29ce484222325
    for w in edges(words): h = fnv(shown(decode(w, F)) + '\n', h)
    return h

def digest_halves(F):
    h = 0xcbf29ce484222325
    for x in range(65536): h = fnv(shown(half(x, F)) + '\n', h)
    return h

REGS = 'zero ra sp gp tp t0 t1 t2 fp s1 a0 a1 a2 a3 a4 a5 a6 a7 s2 s3 s4 s5 s6 s7 s8 s9 s10 s11 t3 t4 t5 t6'.split()
FREGS = 'ft0 ft1 ft2 ft3 ft4 ft5 ft6 ft7 fs0 fs1 fa0 fa1 fa2 fa3 fa4 fa5 fa6 fa7 fs2 fs3 fs4 fs5 fs6 fs7 fs8 fs9 fs10 fs11 ft8 ft9 ft10 ft11'.split()

def text(x):
    if x is None: return '-'
    op, rd, rs1, rs2, imm = x['op'], REGS[x['rd']], REGS[x['rs1']], REGS[x['rs2']], x['imm']
    name = re.sub(r'[^(]*\(', '', op).rstrip(')').lower()
    if op == 'FloatLoad(D)': return f"fld {FREGS[x['rd']]},{imm}({rs1})"
    if op == 'FloatStore(D)': return f"fsd {FREGS[x['rs2']]},{imm}({rs1})"
    name = {'adduw': 'add.uw', 'sextb': 'sext.b', 'sexth': 'sext.h', 'zexth': 'zext.h'}.get(name, name)
    if op.startswith('Load') or name == 'jalr': return f'{name} {rd},{imm}({rs1})'
    if op.startswith('Store'): return f'{name} {rs2},{imm}({rs1})'
    if name == 'ebreak': return name
    if name == 'lui': return f'lui {rd},{imm % 2 ** 20}'
    if name == 'jal': return f'jal {rd},{imm}'
    if 'Bit' in op and name != 'add.uw': return f'{name} {rd},{rs1}'
    if name in ('addi', 'addiw', 'xori', 'andi', 'slli', 'srli', 'srai'): return f'{name} {rd},{rs1},{imm}'
    return f'{name} {rd},{rs1},{rs2}'

def main():
    what = sys.argv[1]
    if what == 'digests':
        for F in ['zca', 'zca zcd', 'm zba zbb zca zcb', ALL]:
            print(f'halves {digest_halves(F.split()):016x} {F}')
        for seed, count, F in ((1, 20000, 'm'), (3, 100000, ALL)):
            print(f'words {seed} {count} {digest_words(seed, count, F.split()):016x} {F}')
        groups = {}
        for w in sorted(edge_words()): groups.setdefault((w & 127, b(w, 14, 12) if w & 127 == 0x57 else 0), []).append(w)
        for (opcode, _), words in sorted(groups.items()):
            for F in (ALL, 'm')[:2 if opcode in (0x07, 0x27) else 1]:
                print(f'edges {digest_edges(words, F.split()):016x} {F} of {" ".join("%08x" % w for w in words)}')
    if what == 'texts':
        for F in ['', 'zca', 'zca zcd', 'm zba zbb zca zcd zfhmin', 'm zba zbb zca zcb', 'zca zcb']:
            h = 0xcbf29ce484222325
            for x in range(65536): h = fnv(text(half(x, F.split())) + '\n', h)
            print(f'{h:x} {F}')
    if what == 'compare':
        n = int(sys.argv[3]) if len(sys.argv) > 3 else 100000
        words = edge_words()
        assert len({listing(decode(w, ALL.split()))[0] for w in words}) == len(words)
        for words in words, list(dict.fromkeys(edges(words))), list(dict.fromkeys(random_words(77, n))): compare(sys.argv[2], words)

INTS = [name.replace('fp', 's0') for name in REGS]
IMMEDIATE = {*IMM.values(), *SHIFT.values(), *SHIFT32.values(), 'Int(Addiw)', 'Bit(SlliUw)'}
SINGLE = {*UNARY.values(), *UNARY32.values(), 'Bit(ZextH)'}
EXACT = ('s.h', 'd.s', 'd.h', 'd.w', 'd.wu')  # conversions that never round, of which the mode rne isn't written
MODES = {0: 'rne', 1: 'rtz', 2: 'rdn', 3: 'rup', 4: 'rmm', 7: 'dyn'}
CONSTANTS = ('-1.0 min 1.5258789e-05 3.0517578e-05 0.00390625 0.0078125 0.0625 0.125 0.25 0.3125 0.375 0.4375 0.5 0.625 0.75 0.875 1.0 1.25 1.5 1.75 2.0 2.5 3.0 '
             '4.0 8.0 16.0 128.0 256.0 32768.0 65536.0 inf nan').split()
UNSIGNED = 'vrgather vslideup vslidedown vror vsll vsrl vsra vssrl vnclipu vnclip'.split()

def vector_listing(x, rd, rs1):
    f6, f3 = map(int, re.findall(r': (\d+)', x['op']))
    vd, vs2, selector = f"v{x['rd']}", f"v{x['rs2']}", x['rs1']
    masked = [] if x['vm'] else ['v0.t']
    source = {0: f'v{selector}', 1: f'v{selector}', 2: f'v{selector}', 3: str(sx(selector, 5)), 4: rs1, 5: FREGS[selector], 6: rs1}[f3]
    form = {0: 'v', 3: 'i', 4: 'x', 5: 'f'}.get(f3)
    if f6 == 0x17 and form:
        if x['vm']: return 'vfmv.v.f' if form == 'f' else 'vmv.v.' + form, [vd, source]
        return f'v{"f" * (form == "f")}merge.v{form}m', [vd, vs2, source, 'v0']
    if f3 == 2 and f6 in MASKS: return MASKS[f6], [vd, vs2, source]
    if f6 == 0x10 and f3 in (1, 2, 5, 6): return {1: ('vfmv.f.s', [FREGS[x['rd']], vs2]), 2: ('vmv.x.s', [rd, vs2]), 5: ('vfmv.s.f', [vd, source]), 6: ('vmv.s.x', [vd, source])}[f3]
    if f6 == 0x12: return (EXTENSIONS if f3 == 2 else CONVERSIONS)[selector], [vd, vs2] + masked
    if f6 == 0x13: return 'vfsqrt.v', [vd, vs2] + masked
    if f6 == 0x27 and f3 == 3: return f'vmv{selector + 1}r.v', [vd, vs2]
    base, form = FORMS[f3, f6]
    if base in UNSIGNED and form == 'i': source = str(selector)
    name = base + ('.vs' if base.startswith('vred') else '.wi' if 'nclip' in base else form if base.endswith('.w') else '.v' + form)
    return name, [vd] + ([source, vs2] if base.endswith(('macc', 'msac')) else [vs2, source]) + masked

def listing(x):
    """The assembler's text, without pseudoinstructions: the operation's name, and its operands."""
    op, imm = x['op'], x['imm']
    kind, *args = re.findall(r'\w+', op)
    rd, rs1, rs2 = (INTS[x[k]] for k in ('rd', 'rs1', 'rs2'))
    fd, fs1, fs2, fs3 = (FREGS[x[k]] for k in ('rd', 'rs1', 'rs2', 'rs3'))
    name = re.sub(r'(?<!^)(?=[A-Z])', '.', args[-1]).lower()
    at = f'{imm}({rs1})'
    if kind == 'Alu':
        which = op[4:-1]
        return name, [rd, rs1] + ([str(imm)] if which in IMMEDIATE else [] if which in SINGLE else [rs2])
    if kind == 'Carry': return name, [rd, rs1] + [rs2] * (name != 'brev8')
    if name in ('lui', 'auipc'): return name, [rd, str(imm % 2 ** 20)]
    if name == 'jal': return name, [rd, str(imm)]
    if kind == 'Load' or name == 'jalr': return name, [rd, at]
    if kind == 'Store': return name, [rs2, at]
    if name == 'ebreak': return name, []
    if name == 'fence': return name, [''.join(c for k, c in enumerate('wroi') if bits >> k & 1)[::-1] or '0' for bits in (imm >> 4, imm & 15)]
    if kind == 'Base': return name, [rs1, rs2, str(imm)]
    if kind == 'Csr': return name, [rd, 'frm', str(x['rs1']) if name.endswith('i') else rs1]
    if kind in ('FloatLoad', 'FloatStore'): return ('fl' if kind == 'FloatLoad' else 'fs') + dict(h='h', s='w', d='d')[name], [fd if kind == 'FloatLoad' else fs2, at]
    if kind == 'Atomic':
        order = ['', '.rl', '.aq', '.aqrl'][imm]
        return f'{args[0].lower()}.{name}{order}', [rd] + [rs2] * (args[0] != 'Lr') + [f'({rs1})']
    if kind == 'Float':
        fmt, name = args[0].lower(), args[1]
        wide, mode = dict(h='h', s='w', d='d')[fmt], [MODES[x['rm']]]
        if name.startswith('FcvtTo'): return f'fcvt.{name[6:].lower()}.{fmt}', [rd, fs1] + mode
        if name.startswith('FcvtFrom'):
            unwritten = f'{fmt}.{name[8:].lower()}' in EXACT and mode == ['rne']
            return f'fcvt.{fmt}.{name[8:].lower()}', [fd, fs1 if name[8:] in 'HSD' else rs1] + mode * (not unwritten)
        if name == 'FmvToX': return f'fmv.x.{wide}', [rd, fs1]
        if name == 'FmvFromX': return f'fmv.{wide}.x', [fd, rs1]
        if name == 'Fli': return f'fli.{fmt}', [fd, CONSTANTS[x['rs1']]]
        if name == 'Fclass': return f'fclass.{fmt}', [rd, fs1]
        sources = [fs1, fs2, fs3][:3 if name in ('Fmadd', 'Fmsub', 'Fnmsub', 'Fnmadd') else 1 if name in ('Fsqrt', 'Fround') else 2]
        return f'{name.lower()}.{fmt}', [rd if name in ('Feq', 'Flt', 'Fle') else fd] + sources + mode * (name in ('Fadd', 'Fsub', 'Fmul', 'Fdiv') or len(sources) != 2)
    if name == 'vsetivli':
        sew, lmul = f'e{8 << (imm >> 3 & 7)}', dict(enumerate(('m1', 'm2', 'm4', 'm8', None, 'mf8', 'mf4', 'mf2')))[imm & 7]
        return name, [rd, str(x['rs1']), sew, lmul, 'ta' if imm >> 6 & 1 else 'tu', 'ma' if imm >> 7 else 'mu']
    if kind == 'VecMem': return name + '.v', [f"v{x['rd']}", f'({rs1})'] + ['v0.t'] * (not x['vm'])
    return vector_listing(x, rd, rs1)

def known_to(llvm, words):
    """What a disassembler writes of each word that is an operation."""
    attr = '+m,+a,+f,+d,+zba,+zbb,+zbs,+zbc,+v,+zfh,+zbkb,+zicond,+zfa,+zvbb'
    feed = '\n'.join(' '.join(f'0x{w >> s & 255:02x}' for s in (0, 8, 16, 24)) for w in words)
    out = subprocess.run([llvm, '-disassemble', '-triple=riscv64', '-mattr=' + attr, '-show-encoding', '-M', 'no-aliases'], input=feed, capture_output=True, text=True)
    known = {}
    for line in out.stdout.splitlines():
        m = re.search(r'(\S.*?)\s*[#@] encoding: \[(.*?)\]', line)
        if m:
            bytes_ = [int(x, 16) for x in m.group(2).split(',')]
            if len(bytes_) == 4: known[sum(x << 8 * k for k, x in enumerate(bytes_))] = re.sub(r'\s+', ' ', m.group(1))
    return known

def compare(llvm, words):
    known = known_to(llvm, words)
    ours_only, theirs_only, names = {}, {}, set()
    same = differ = neither = 0
    for w in words:
        ours = decode(w, ALL.split())
        if ours: names.add(listing(ours)[0])
        if ours and w in known:
            name, operands = listing(ours)
            text = f'{name} {", ".join(operands)}'.strip()
            if text == known[w]: same += 1
            else:
                differ += 1
                print('differ', f'{w:08x}', known[w], '|', text)
        elif ours: ours_only.setdefault(ours['op'], []).append(f'{w:08x}')
        elif w in known: theirs_only.setdefault(known[w].split()[0], []).append(f'{w:08x} {known[w]}')
        else: neither += 1
    print(len(words), 'words: the same text', same, 'another', differ, 'in neither', neither, 'here alone', sum(map(len, ours_only.values())), 'there alone', sum(map(len, theirs_only.values())))
    for k, v in sorted(ours_only.items()): print('here alone', k, len(v), v[:2])
    for k, v in sorted(theirs_only.items()):
        if k in names: print('there alone, of a name that is here', k, len(v), v[:4])
    print('there alone, of other names', ' '.join(sorted(k for k in theirs_only if k not in names)))

main()
