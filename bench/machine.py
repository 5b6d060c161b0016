#!/usr/bin/env python3
"""Times `vpo run`, the proved program that `./vpo --prove` builds: instructions a second, beside spim where it is installed (a package of
Debian), and bytes of text read a second. Prints two tables with the ratios of one run.

    bench/machine.py               the proved program
    bench/machine.py PROGRAM       another program that takes vpo's words
"""
import os
import shutil
import statistics
import subprocess
import sys
import tempfile
import time

ROOT = os.path.dirname(os.path.dirname(os.path.abspath(__file__)))
RUNS = 3

MIPS_TURNS = 5_000_000
# Loads, stores, sums, logic, a shift and a branch, over a table of 256 words; the same lines for spim and for vpo.
MIPS_BODY = """\
L0:
 lw $11,0($8)
 addu $11,$11,$9
 sw $11,0($8)
 xor $10,$10,$11
 andi $12,$9,255
 sll $12,$12,2
 addu $12,$12,$8
 lw $13,4($12)
 addiu $13,$13,1
 sw $13,4($12)
 addiu $9,$9,-1
 bne $9,$0,L0
"""
MIPS_TURN = 12
PDP11_OUTER, PDP11_INNER = 300, 20_000
PDP11 = f"""\
.text
 mov #{PDP11_OUTER},r4
L1:
 mov #{PDP11_INNER},r1
L0:
 mov _a,r0
 add r1,r0
 mov r0,_a
 bis r0,r2
 mov #_a,r3
 mov 2(r3),r5
 add #1,r5
 mov r5,2(r3)
 dec r1
 bne L0
 dec r4
 bne L1
 mov #0,r0
 sys exit
.data
_a:
 .space 16
"""
PDP11_TURN = 10


def mips_for_vpo():
    head = f".text\n la $8,_a\n li $9,{MIPS_TURNS}\n li $10,0\n"
    return head + MIPS_BODY + " andi $2,$10,127\n sys exit\n.data\n_a:\n .space 2048\n"


def mips_for_spim():
    head = f".text\n.globl main\nmain:\n la $8,a\n li $9,{MIPS_TURNS}\n li $10,0\n"
    return head + MIPS_BODY + " andi $4,$10,127\n li $2,1\n syscall\n li $2,10\n syscall\n.data\n.align 2\na: .space 2048\n"


def timed(words):
    """The median time of some calls, and what the last one answered."""
    times = []
    for _ in range(RUNS):
        begin = time.perf_counter()
        done = subprocess.run(words, stdin=subprocess.DEVNULL, capture_output=True)
        times.append(time.perf_counter() - begin)
    return statistics.median(times), done


def written(room, name, text):
    path = os.path.join(room, name)
    with open(path, "w") as file:
        file.write(text)
    return path


def pace(program, room):
    rows = []
    took, done = timed([program, "run", os.path.join(ROOT, "examples", "mips.vpo"), written(room, "loop.mips", mips_for_vpo())])
    status = done.returncode
    mips = MIPS_TURNS * MIPS_TURN / took / 1e6
    rows.append(("vpo, mips", MIPS_TURNS * MIPS_TURN, took, mips))
    took, done = timed([program, "run", os.path.join(ROOT, "examples", "pdp11.vpo"), written(room, "loop.pdp11", PDP11)])
    if done.returncode != 0:
        sys.exit(f"pdp11: status {done.returncode}: {done.stderr!r}")
    turns = PDP11_OUTER * PDP11_INNER
    rows.append(("vpo, pdp11", turns * PDP11_TURN, took, turns * PDP11_TURN / took / 1e6))
    if shutil.which("spim"):
        took, done = timed(["spim", "-quiet", "-file", written(room, "loop.spim", mips_for_spim())])
        told = done.stdout.decode().split()[-1]
        if told != str(status):
            sys.exit(f"spim computes {told}, vpo {status}")
        rows.append(("spim, mips", MIPS_TURNS * MIPS_TURN, took, MIPS_TURNS * MIPS_TURN / took / 1e6))
    print("| Loop | Instructions | Seconds | Millions a second | To vpo on mips |\n|---|---|---|---|---|")
    for name, count, took, rate in rows:
        print(f"| {name} | {count:,} | {took:.2f} | {rate:.1f} | {rate / mips:.2f} |")


def text_of(lines, width):
    line = " addu $8,$9,$10"
    return ".text\n" + (line + " " * (width - len(line) - 1) + "\n") * lines


def reading(program, room):
    print("| Text | Bytes | Seconds | MB a second |\n|---|---|---|---|")
    for lines, width in ((1_000_000, 16), (15_625, 64), (62_500, 64), (250_000, 64), (1_000_000, 64)):
        text = text_of(lines, width)
        took, done = timed([program, "run", "--steps", "1", os.path.join(ROOT, "examples", "mips.vpo"), written(room, "text", text)])
        if done.returncode != 74:
            sys.exit(f"a text of {lines} lines: status {done.returncode}: {done.stderr!r}")
        print(f"| {lines:,} instructions of {width} bytes | {len(text):,} | {took:.2f} | {len(text) / took / 1e6:.1f} |")


def main():
    program = os.path.join(ROOT, ".build", "vpo")
    if len(sys.argv) > 1:
        program = os.path.abspath(sys.argv[1])
    else:
        subprocess.run([os.path.join(ROOT, "vpo"), "--prove"], check=True)
    with tempfile.TemporaryDirectory() as room:
        pace(program, room)
        print()
        reading(program, room)


if __name__ == "__main__":
    main()
