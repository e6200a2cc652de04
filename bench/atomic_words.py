#!/usr/bin/env python3
"""Makes rows of atomic operations and of fences with their words, as two assemblers have them: llvm-mc and GNU as.

usage: bench/atomic_words.py SEED

Each operation with each ordering, of registers drawn from the seed, and fences between sets that are drawn. A row is a
line of a listing, ` => ` and its word, with the highest digit first. Ends with a failure where the assemblers differ.
"""
import random
import subprocess
import sys
import tempfile

STEMS = "lr sc amoswap amoadd amoxor amoand amoor amomin amomax amominu amomaxu".split()
ORDERS = {"relax": "", "rel": ".rl", "acq": ".aq", "seqcst": ".aqrl"}
NAMES = (
    "zero ra sp gp tp t0 t1 t2 fp s1 a0 a1 a2 a3 a4 a5 a6 a7 s2 s3 s4 s5 s6 s7 s8 s9 s10 s11 t3 t4".split()
)


def accesses(bits):
    return "".join(letter for letter, bit in zip("iorw", (8, 4, 2, 1)) if bits & bit)


def rows(draw):
    for width in "wd":
        for stem in STEMS:
            for order, suffix in ORDERS.items():
                for _ in range(3):
                    rd, addr, src = draw.sample(NAMES, 3)
                    src = "zero" if stem == "lr" else src
                    line = f"Atomic {stem}.{width} {rd} {addr} {src} {order}"
                    operands = f"{rd}, ({addr})" if stem == "lr" else f"{rd}, {src}, ({addr})"
                    yield line, f"{stem}.{width}{suffix} {operands}"
    for pred, succ in sorted(draw.sample([(p, s) for p in range(1, 16) for s in range(1, 16)], 40)):
        yield f"Fence {pred} {succ}", f"fence {accesses(pred)}, {accesses(succ)}"


def by_llvm(texts):
    run = ["llvm-mc", "-triple=riscv64", "-mattr=+a", "-show-encoding"]
    said = subprocess.run(run, input="\n".join(texts) + "\n", capture_output=True, text=True, check=True).stdout
    codes = [line.split("encoding: [")[1].split("]")[0] for line in said.splitlines() if "encoding: [" in line]
    return ["".join(byte[2:] for byte in reversed(code.split(","))) for code in codes]


def by_gnu(texts):
    with tempfile.TemporaryDirectory() as at:
        with open(f"{at}/a.s", "w") as it:
            it.write("\n".join(texts) + "\n")
        subprocess.run(["riscv64-linux-gnu-as", "-march=rv64ga", "-o", f"{at}/a.o", f"{at}/a.s"], check=True)
        subprocess.run(["riscv64-linux-gnu-objcopy", "-O", "binary", "-j", ".text", f"{at}/a.o", f"{at}/a.bin"], check=True)
        with open(f"{at}/a.bin", "rb") as it:
            code = it.read()
    return [code[at : at + 4][::-1].hex() for at in range(0, len(code), 4)]


def main():
    made = list(rows(random.Random(int(sys.argv[1]))))
    texts = [text for _, text in made]
    one, other = by_llvm(texts), by_gnu(texts)
    if one != other or len(one) != len(made):
        sys.exit("atomic_words: the assemblers differ")
    for (line, _), word in zip(made, one):
        print(f"{line} => {word}")


main()
