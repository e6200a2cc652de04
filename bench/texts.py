#!/usr/bin/env python3
"""Writes the rows of crates/machine_cases/data/text that an assembler has a say in: words by GNU as, whose mnemonics and operands objdump gives,
put into the order and the numbers of docs/DISASSEMBLER.md.

  texts.py AS OBJDUMP
  texts.py AS OBJDUMP MACHINE_CASES SEED COUNT

With the program machine_cases it writes nothing, and compares the texts of all halfwords and of COUNT random words near each line with
objdump's: it prints how many there are, and how many differ by objdump's mnemonic and the text's, with the first of each.
"""
import random, re, subprocess, sys, tempfile
from pathlib import Path

OUT = Path(__file__).parent.parent / 'crates/machine_cases/data/text'
MARCH = 'rv64gcv_zba_zbb_zbs_zbc_zbkb_zfh'
WORDS = '''add a0,a0,a1; sub s0,t6,ra; and s11,zero,gp; sltu t0,t1,t2; addw a0,a1,a2; srlw s2,s3,s4; mul a0,a1,a2; mulhsu a3,a4,a5; remuw s8,s9,s10
addi a0,a0,-2048; addi zero,zero,0; xori a0,a1,-1; sltiu a0,a1,2047; slli a0,a1,63; srai a0,a1,1; slliw a0,a1,31; sraiw a0,a1,7; addiw a0,a1,0
lui a0,0xfffff; lui t4,0x7ffff; auipc a0,0; auipc ra,0x80000; jal ra,.+0x100; jal zero,.-16; jalr zero,0(ra); jalr ra,-4(t1)
beq a0,a1,.-8; bne s0,zero,.+4094; bltu a0,a1,.+64; bgeu a2,a3,.-4096
lb a0,-1(s0); lhu a0,2(a1); lwu t3,2047(sp); ld a0,8(sp); sb a0,-2048(a1); sh s0,0(s1); sw zero,4(tp); sd a0,8(sp)
fence rw,rw; fence iorw,iorw; fence r,w; ebreak
sh1add a0,a1,a2; add.uw a0,a1,a2; slli.uw a0,a1,12; andn a0,a1,a2; rori a0,a1,5; clz a0,a1; cpopw s0,s1; sext.b a0,a1; orc.b a0,a1; rev8 a0,a1; max a0,a1,a2
bset a0,a1,a2; bexti a0,a1,40; clmul a0,a1,a2; clmulh a0,a1,a2; packh a0,a1,a2; brev8 a0,a1
lr.w a0,(a1); lr.d.aq s0,(sp); sc.d.rl a0,a2,(a1); amoadd.w a0,a2,(a1); amomaxu.d.aqrl zero,s0,(t6); amoswap.w.aq a0,a1,(a2)
csrrw a0,frm,a1; csrrs a0,frm,zero; csrrwi zero,frm,3; csrrci a0,frm,31
flw fa0,-4(a0); fld fs0,8(sp); flh ft11,0(a0); fsw fa0,12(s0); fsd fs11,-8(sp)
fadd.d fa0,fa0,fa1; fadd.s fa0,fa1,fa2,rtz; fsub.h ft0,ft1,ft2; fdiv.d fs0,fs1,fs2,rup; fsqrt.s fa0,fa1; fmadd.d fa0,fa1,fa2,fa3; fnmsub.s ft8,ft9,ft10,ft11,rmm
fsgnj.d fa0,fa1,fa2; fsgnjx.s fa0,fa1,fa2; fmin.d fa0,fa1,fa2; feq.d a0,fa0,fa1; fle.s a0,ft0,fs0; fclass.d a0,fa0
fcvt.w.d a0,fa0,rtz; fcvt.lu.s a0,fa0; fcvt.s.l fa0,a0; fcvt.s.d fa0,fa1; fmv.x.d a0,fa0; fmv.w.x fa0,a0
vle32.v v8,(a0); vle8.v v0,(sp),v0.t; vse64.v v31,(s0)'''
HALVES = '''c.addi4spn a0,sp,16; c.addi4spn s0,sp,1020; c.lw a0,4(a1); c.ld s0,248(s1); c.sw a0,124(a5); c.sd s1,0(s0); c.fld fa0,8(a0); c.fsd fs1,16(s0)
c.nop; c.addi a0,-32; c.addi sp,16; c.addiw s0,31; c.li a0,5; c.li t6,-1; c.addi16sp sp,-512; c.addi16sp sp,16; c.lui a0,0xfffff; c.lui s0,31
c.srli a0,63; c.srai s0,1; c.andi a5,-2; c.sub s0,s1; c.xor a0,a1; c.or a2,a3; c.and a4,a5; c.subw s0,s1; c.addw a0,a1; c.j .-2; c.j .+1024
c.slli a0,5; c.slli s0,63; c.lwsp a0,4(sp); c.ldsp ra,504(sp); c.fldsp fs0,0(sp); c.jr ra; c.jalr a0; c.mv a0,s0; c.add s0,a0; c.ebreak
c.swsp zero,252(sp); c.sdsp s0,8(sp); c.fsdsp fa0,504(sp)'''
ROUNDED = re.compile(r'f(add|sub|mul|div|sqrt|n?madd|n?msub|cvt)\.')
SETS = {'i': 8, 'o': 4, 'r': 2, 'w': 1}

def shown(directives, count):
    """What objdump says of the instructions of these directives: of each its word, mnemonic, operands and place."""
    with tempfile.TemporaryDirectory() as folder:
        source, object = Path(folder, 'x.s'), Path(folder, 'x.o')
        source.write_text('\n'.join(['.option norelax', '.zero 8192', *directives, '.balign 4', '.zero 8192', '']))
        subprocess.run([sys.argv[1], '-march=' + MARCH, source, '-o', object], check=True)
        text = subprocess.run([sys.argv[2], '-d', '-M', 'no-aliases', object], capture_output=True, text=True, check=True).stdout
    rows = re.findall(r'^\s*([0-9a-f]+):\s+([0-9a-f]{8}|[0-9a-f]{4})\s+(\S+)[ \t]*([^#<\n]*)', text, re.M)
    found = [(word, name, operands.strip(), int(at, 16)) for at, word, name, operands in rows if 8192 <= int(at, 16)][:count]
    assert len(found) == count
    return found

def listed(lines):
    """The lines' words, with what objdump says of them."""
    lines = [x.strip() for x in re.split('[;\n]', lines)]
    return shown([x if x.startswith('c.') else f'.option norvc\n{x}\n.option rvc' for x in lines], len(lines))

def of_words(words, size):
    """What objdump says of words of this size in bytes."""
    found = shown([f'.insn {size}, {x}' for x in words], len(words))
    assert [int(word, 16) for word, *_ in found] == words
    return found

def number(x): return int(x, 0) if re.fullmatch(r'-?(0x[0-9a-f]+|\d+)', x) else x
def upper(x): return x - 2 ** 20 if x >= 2 ** 19 else x

def text(word, name, operands, at):
    """The text of an instruction that objdump gives so."""
    bits, parts = int(word, 16), operands.split(',') if operands else []
    store = re.match(r'(c\.)?f?s[bhwd](sp)?$|vse', name)
    if re.match(r'(c\.)?j$|jal$|b(eq|ne|ltu?|geu?)$', name): parts[-1] = (int(parts[-1], 16) - at + 2 ** 63) % 2 ** 64 - 2 ** 63
    if name in ('c.addi4spn', 'c.addi16sp'): parts.remove('sp')
    if name == 'c.nop': name, parts = 'c.addi', ['zero', 0]
    if name.startswith('fence'): parts = [sum(SETS[c] for c in p) for p in parts]
    if name.startswith('csr'): parts.remove('frm')
    if re.match(r'v[ls]e', name): parts = [p for p in parts if p != 'v0.t']
    order = re.match(r'((?:lr|sc|amo\w+)\.[wd])(\.(aq|rl|aqrl))?$', name)
    mask = [bits >> 25 & 1] if re.match(r'v[ls]e', name) else []
    rounding = [bits >> 12 & 7] if ROUNDED.match(name) else []
    if rounding and parts[-1] in ('rne', 'rtz', 'rdn', 'rup', 'rmm', 'dyn'): parts.pop()
    ordering = [{None: 0, 'aq': 2, 'rl': 1, 'aqrl': 3}[order[3]]] if order else []
    if order: name = order[1]
    place = re.match(r'(-?\d*)\((\w+)\)$', str(parts[-1])) if parts else None
    if place:
        offset = [] if order or mask or name.endswith('sp') and not place[1] else [int(place[1] or 0)]
        base = [] if name.startswith('c.') and name.endswith('sp') else [place[2]]
        # rd, rs1, rs2: an atomic operation's source, and what is stored, come after the base; vector stores have theirs as vd
        parts = parts[:-1]
        if order: parts = parts[:1] + base + parts[1:]
        elif store and not mask: parts = base + parts + offset
        else: parts = parts + base + offset
    parts = [number(str(p)) for p in parts]
    if re.match(r'(c\.)?lui$|auipc$', name): parts[-1] = upper(parts[-1])
    shown = ','.join('fp' if p == 's0' else str(p) for p in parts + rounding + ordering + mask)
    return name + (' ' + shown if shown else '')

def flags(word):
    if len(word) == 4: return ' zca zcd'
    return ' zfhmin' if int(word, 16) & 0x705f == 0x1007 else ''  # flh, fsh

def rows_of(found): return [f'{word}{flags(word)} => {text(word, *rest)}\n' for word, *rest in found]

def is_plain(word, name, operands, at):
    """Whether the decoder knows the word as objdump does: no data, no CSR but frm, no hint and no vector setting."""
    return name[0] != '.' and not re.match(r'csr|fence|pause|prefetch|v|fl[ih]|fs[hq]|flq', name) and 'unknown' not in operands

def write():
    """Writes the rows of the lines."""
    for family, lines in (('words', WORDS), ('halfwords', HALVES)):
        (OUT / family).mkdir(parents=True, exist_ok=True)
        (OUT / family / 'assembled.text').write_text(''.join(rows_of(listed(lines))))
    random.seed(47)
    (OUT / 'words/near.text').write_text(''.join(rows_of(x for x in of_words(list(near(4)), 4) if is_plain(*x))))

def wanted(word, name, operands, at):
    """The text by objdump's; its own text where it has no such form here, and digits where it has no instruction."""
    if name in ('.2byte', 'c.beqz', 'c.bnez'): return f'.2byte 0x{word}'  # the decoder knows none of these two branches
    if name == '.4byte': return f'.4byte 0x{word}'
    try: return text(word, name, operands, at)
    except (KeyError, ValueError): return f'{name} {operands}'

def near(count):
    """Random words, each with some fields of a line's word exchanged."""
    masks = (0xf80, 0xf8000, 0x1f00000, 0xfff00000, 0xfffff000, 0x1ff8f80, 0xffff8f80, 0xffffff80, 0x7000, 0x6000000, 0xfff8000)
    for word, *_ in listed(WORDS):
        for mask in random.choices(masks, k=count):
            yield int(word, 16) & ~mask | random.getrandbits(32) & mask

def differing(rows):
    """The rows (a word, its text) of which the program says something else, with what it says."""
    with tempfile.TemporaryDirectory() as folder:
        file = Path(folder, 'text/near/near.text')
        file.parent.mkdir(parents=True)
        while rows:
            file.write_text(''.join(f'{word}{flags(word)} => {wanted}\n' for word, wanted in rows))
            ran = subprocess.run([Path(sys.argv[3]).resolve()], cwd=folder, capture_output=True, text=True)
            if ran.returncode == 0: return
            said = ran.stdout + ran.stderr
            word = re.search(r'near\.text: ([0-9a-f]+)', said)[1]
            at = [word for word, _ in rows].index(word)
            yield *rows[at], said.split('--- got:\n')[1].split('\n')[0]
            rows = rows[at + 1:]

def compare(seed, count):
    random.seed(seed)
    halves = [x for x in range(2 ** 16) if x % 4 < 3]
    for found in (of_words(halves, 2), of_words(list(near(count)), 4)):
        groups = {}
        for word, wanting, got in differing([(word, wanted(word, *rest)) for word, *rest in found]):
            groups.setdefault((wanting.split()[0], got.split()[0]), []).append(f'{word}: {wanting}; {got}')
        print(len(found), 'compared,', sum(map(len, groups.values())), 'differ')
        for names, those in groups.items(): print(f'{len(those):6}', *names, '|', those[0])

if len(sys.argv) == 3: write()
else: compare(*map(int, sys.argv[4:]))
