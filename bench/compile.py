#!/usr/bin/env python3
"""Times `vpo cc --plain` against `tcc -c` and `gcc -S -O0` in one run, and on sources that grow; prints a table with the ratios.

    bench/compile.py [--program PATH]

PATH is the built program; without it the one that `./vpo --prove` keeps. A compiler that isn't installed is left out. Each time is the
least of several whole processes; memory is the greatest resident size that the kernel tells of one.
"""
import argparse
import os
import pathlib
import resource
import shutil
import subprocess
import sys
import tempfile
import time

ROOT = pathlib.Path(__file__).resolve().parent.parent
RUNS = 5


def function(i, statements):
    """A function of some statements over its parameters and locals."""
    lines = [f"int f{i}(int a, int b)", "{", "    int s = 0, i;"]
    for k in range(statements):
        lines.append(f"    for (i = a; i < b + {k}; i++) s = s + (i & {i % 97}) - {k};")
    return "\n".join(lines + ["    return s;", "}"])


def many(count, statements):
    """So many functions, and a main that calls the first hundred. 248 loops in one function, and 390 functions of four loops, are the most that
    pass the limits on weights where a word has 32 bits."""
    calls = "".join(f"    s = s + f{i}({i % 7}, {i % 11});\n" for i in range(min(count, 100)))
    text = "\n".join(function(i, statements) for i in range(count))
    return f"{text}\nint main(void)\n{{\n    int s = 0;\n{calls}    return s & 127;\n}}\n"


def measured(words, out=subprocess.DEVNULL):
    """The least time of several runs, the greatest memory in bytes, and the status."""
    best, memory, status = None, 0, 0
    for _ in range(RUNS):
        begin = time.perf_counter()
        child = subprocess.Popen(words, stdout=out, stderr=subprocess.DEVNULL)
        _, code, usage = os.wait4(child.pid, 0)
        taken = time.perf_counter() - begin
        child.returncode = status = os.waitstatus_to_exitcode(code)
        memory = max(memory, usage.ru_maxrss * 1024)
        best = taken if best is None else min(best, taken)
    return best, memory, status


def row(name, text, program, folder):
    source = folder / "source.c"
    source.write_text(text)
    assembly = folder / "out.s"
    with assembly.open("wb") as out:
        begin = subprocess.run([program, "cc", "--plain", ROOT / "examples/mips.vpo", source], stdout=out, stderr=subprocess.PIPE)
    if begin.returncode:
        print(f"| {name} | {len(text)} | refused: {begin.stderr.decode().strip()} |")
        return
    size = assembly.stat().st_size
    vpo, memory, _ = measured([program, "cc", "--plain", str(ROOT / "examples/mips.vpo"), str(source)])
    cells = [name, f"{len(text):,}", f"{size:,}", f"{vpo:.3f}", f"{memory / 2**20:.0f} ({memory / size:.0f})"]
    for words in (["tcc", "-c", "-o", str(folder / "o.o"), str(source)], ["gcc", "-w", "-S", "-O0", "-o", str(folder / "o.s"), str(source)]):
        if shutil.which(words[0]):
            other, _, status = measured(words)
            cells.append(f"{other:.3f} ({vpo / other:.1f})" if status == 0 else "failed")
        else:
            cells.append("not installed")
    print("| " + " | ".join(cells) + " |", flush=True)


def main():
    asked = argparse.ArgumentParser(description=__doc__)
    asked.add_argument("--program", default=str(ROOT / ".build/vpo"))
    program = asked.parse_args().program
    if not os.access(program, os.X_OK):
        sys.exit(f"{program} isn't there: ./vpo --prove makes it")
    print("| Source | Bytes | Text | cc --plain (s) | Memory, MiB (bytes a byte of text) | tcc -c (s, ratio) | gcc -S -O0 (s, ratio) |")
    print("|---|---|---|---|---|---|---|")
    with tempfile.TemporaryDirectory() as name:
        folder = pathlib.Path(name)
        row("an empty main", "int main(void) { return 0; }\n", program, folder)
        for count in (125, 250, 500):
            row(f"{count} functions", many(count, 2), program, folder)
        for statements in (62, 124, 248):
            row(f"one function of {statements} loops", many(1, statements), program, folder)
        for count in (98, 195, 390):
            row(f"{count} functions of four loops", many(count, 4), program, folder)
    return 0


if __name__ == "__main__":
    resource.setrlimit(resource.RLIMIT_STACK, (resource.RLIM_INFINITY, resource.getrlimit(resource.RLIMIT_STACK)[1]))
    sys.exit(main())
