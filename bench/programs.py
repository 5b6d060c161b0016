#!/usr/bin/env python3
"""Compares the table of programs in crates/vpo_examples/src/programs.rt with gcc: each source is compiled by it with tests for undefined
acts, run on its input, and must print and end with what the table says. Run it at the top of the repository; it says how many agree."""
import ast
import pathlib
import re
import subprocess
import sys
import tempfile

TABLE = pathlib.Path(__file__).parent.parent / "crates/vpo_examples/src/programs.rt"
ROW = re.compile(r'\(\s*(b"(?:[^"\\]|\\.)*"),\s*(b"(?:[^"\\]|\\.)*"),\s*(b"(?:[^"\\]|\\.)*"),\s*(\d+),?\s*\)', re.S)
FLAGS = ["-std=c11", "-w", "-O0", "-fsanitize=undefined", "-fno-sanitize-recover=undefined"]


def answer(folder, source, given):
    """What gcc's program prints and ends with; a row whose source doesn't include stdio.h gets its declarations."""
    text = source if b"stdio.h" in source else b"#include <stdio.h>\n" + source.replace(b"int putchar(int);", b"")
    (folder / "p.c").write_bytes(text)
    subprocess.run(["gcc", *FLAGS, "-o", folder / "p", folder / "p.c"], check=True)
    done = subprocess.run([folder / "p"], input=given, capture_output=True, timeout=10)
    return done.stdout, done.returncode


def main():
    rows = [[ast.literal_eval(part) for part in row] for row in ROW.findall(TABLE.read_text())]
    wrong = 0
    with tempfile.TemporaryDirectory() as name:
        for source, given, output, status in rows:
            got = answer(pathlib.Path(name), source, given)
            if got != (output, status):
                wrong += 1
                print(f"{source.decode()}\n  table {output!r} {status}, gcc {got[0]!r} {got[1]}")
    print(f"{len(rows) - wrong} of {len(rows)} agree")
    return 1 if wrong or not rows else 0


if __name__ == "__main__":
    sys.exit(main())
