#!/usr/bin/env python3
"""Writes crates/float_words/stdout: the words of all floating-point operations, of constants, of operations on frm and of loads and
stores, as an assembler makes them of their texts. Wants llvm-mc 19 or later, which has Zfa. A second assembler, GNU as 2.40 or later, has to
make the same of them, but for those of Zfa, and for conversions that never round, of which it takes no rounding mode and puts rne.

  float_words.py LLVM_MC [AS OBJCOPY]
"""
import re, subprocess, sys, tempfile
from pathlib import Path

OUT = Path(__file__).parent.parent / 'crates/float_words/stdout'
MODES = [('rne', 0), ('rtz', 1), ('rdn', 2), ('rup', 3), ('rmm', 4), ('fcsr', 7)]
MOVED = {'h': 'h', 's': 'w', 'd': 'd'}
# an operation of one source: its text, the files of its registers, its format where it has only one, its own number in the mode's place
ONE = [('fsqrt.{}', 'ff', '', None), ('fround.{}', 'ff', '', None), ('fclass.{}', 'xf', '', 1)]
ONE += [(f'fcvt.{n}.{{}}', 'xf', '', None) for n in ('w', 'wu', 'l', 'lu')] + [(f'fcvt.{{}}.{n}', 'fx', '', None) for n in ('w', 'wu', 'l', 'lu')]
ONE += [('fmv.x.{m}', 'xf', '', 0), ('fmv.{m}.x', 'fx', '', 0)]
ONE += [(f'fcvt.{a}.{b}', 'ff', a, None) for a, b in ('sh', 'hs', 'sd', 'ds', 'dh', 'hd')]
TWO = [(n, 'f', None) for n in ('fadd', 'fsub', 'fmul', 'fdiv')]
TWO += [('fsgnj', 'f', 0), ('fsgnjn', 'f', 1), ('fsgnjx', 'f', 2), ('fmin', 'f', 0), ('fmax', 'f', 1)]
TWO += [('feq', 'x', 2), ('flt', 'x', 1), ('fle', 'x', 0), ('fminm', 'f', 2), ('fmaxm', 'f', 3)]
CONSTANTS = ('-1.0 min 2^-16 2^-15 2^-8 2^-7 0.0625 0.125 0.25 0.3125 0.375 0.4375 0.5 0.625 0.75 0.875 1.0 1.25 1.5 1.75 2.0 2.5 3.0 '
             '4.0 8.0 16.0 128.0 256.0 32768.0 65536.0 inf nan').split()
rows = []  # what the program writes before the word, and the assembler's text

def number(start, place): return (start * 7 + place * 11) % 256 % 32
def asked(mode): return [] if mode == 'own' else ['dyn' if mode == 'fcsr' else mode]
def say(shown, name, operands): rows.append((shown, name + ' ' + ','.join(operands)))

for width in 'hsd':
    for mode, bits in MODES:
        start = bits
        for text, files, only, own in ONE:
            name, (rd, rs) = text.format(width, m=MOVED[width]), (number(start, 0), number(start, 1))
            if only in ('', width) and own in (None, bits):
                say(f'{name} {rd} {rs} {mode}', name, [files[0] + str(rd), files[1] + str(rs)] + asked(mode if own is None else 'own'))
            start = (start * 5 + 3) % 256
        for name, file, own in TWO:
            rd, rs1, rs2 = (number(start, p) for p in range(3))
            if own in (None, bits):
                say(f'{name}.{width} {rd} {rs1} {rs2} {mode}', f'{name}.{width}', [f'{file}{rd}', f'f{rs1}', f'f{rs2}'] + asked(mode if own is None else 'own'))
            start = (start * 5 + 3) % 256
        for name in ('fmadd', 'fmsub', 'fnmsub', 'fnmadd'):
            regs = [number(start, p) for p in range(4)]
            say(f'{name}.{width} ' + ' '.join(map(str, regs)) + ' ' + mode, f'{name}.{width}', [f'f{r}' for r in regs] + asked(mode))
            start = (start * 5 + 3) % 256
    for i, constant in enumerate(CONSTANTS):
        rd, power = number(i, 1), re.match(r'2\^(.*)', constant)
        say(f'fli.{width} {rd} {constant}', f'fli.{width}', [f'f{rd}', repr(2.0 ** int(power[1])) if power else constant])
for i in range(64):
    rd, rs, third = (number(i, p) for p in range(3))
    for name in ('csrrw', 'csrrs', 'csrrc'): say(f'{name} {rd} frm {rs}', name, [f'x{rd}', 'frm', f'x{rs}'])
    for name in ('csrrwi', 'csrrsi', 'csrrci'): say(f'{name} {rd} frm {rs}', name, [f'x{rd}', 'frm', str(rs)])
    for name in ('flh', 'flw', 'fld', 'fsh', 'fsw', 'fsd'): say(f'{name} {rd} {65 * i - 2048:+} {rs}', name, [f'f{rd}', f'{65 * i - 2048}(x{rs})'])
    for name in ('c.fld', 'c.fsd'): say(f'{name} {8 + rd % 8} {third} {8 + rs % 8}', name, [f'f{8 + rd % 8}', f'{8 * third}(x{8 + rs % 8})'])
    for name in ('c.fldsp', 'c.fsdsp'): say(f'{name} {rd} {i}', name, [f'f{rd}', f'{8 * i}(x2)'])

feed = '.option arch, +f, +d, +zfh, +zfa, +c\n' + '\n'.join(text for _, text in rows) + '\n'
out = subprocess.run([sys.argv[1], '-triple=riscv64', '-mattr=+f,+d,+zfh,+zfa,+c', '-show-encoding', '-riscv-no-aliases'], input=feed, capture_output=True, text=True)
codes = [bytes(int(x, 16) for x in m.split(',')) for m in re.findall(r'encoding: \[(.*?)\]', out.stdout)]
assert len(codes) == len(rows), (out.stderr[:2000], len(codes), len(rows))
OUT.write_text(''.join(f'{shown}: {int.from_bytes(code, "little"):0{2 * len(code)}x}\n' for (shown, _), code in zip(rows, codes)))

# the second assembler, which has no Zfa
if sys.argv[2:]:
    assembler, objcopy = sys.argv[2:]
    is_exact = lambda text: re.match(r'fcvt\.(s\.h|d\.(wu?|s|h)) ', text)
    its = [(text, code) for (_, text), code in zip(rows, codes) if not re.match(r'fli|fround|fminm|fmaxm', text)]
    its = [(text.removesuffix(',rne') if is_exact(text) else text, code) for text, code in its if not is_exact(text) or text.endswith(',rne')]
    with tempfile.TemporaryDirectory() as room:
        feed = '.option norelax\n.option norvc\n' + ''.join(f'.option rvc\n{text}\n.option norvc\n' if text.startswith('c.') else text + '\n' for text, _ in its)
        subprocess.run([assembler, '-march=rv64gc_zfh', '-o', f'{room}/it.o'], input=feed, text=True, check=True)
        subprocess.run([objcopy, '-O', 'binary', '-j', '.text', f'{room}/it.o', f'{room}/it.bin'], check=True)
        made = open(f'{room}/it.bin', 'rb').read()
    assert made == b''.join(code for _, code in its), 'the two assemblers differ'
    print(f'{len(rows)} rows; the second assembler makes the same of {len(its)}')
