#!/usr/bin/env python3
"""Times `vpo check`, the proved program that `./vpo --prove` builds, on growing descriptions, and prints a table with the ratios of one run.

Each description is examples/duo.vpo with rows of 200 bytes behind it. In the first kind the rows differ in their first token, in the
second in their last token alone, so that a comparison of two rows goes through both. In the third kind the last row breaks rule 13,
so that the text is read and expanded, and no two rows are compared.
"""
import os
import statistics
import subprocess
import sys
import tempfile
import time

ROOT = os.path.dirname(os.path.dirname(os.path.abspath(__file__)))
ROW_BYTES = 200
SIZES = (512, 1024, 2048, 4096)
RUNS = 5


def padded(begin, end):
    """A row of 200 bytes, its line feed among them: `begin`, as many `,1` as fit, and `end`."""
    room = ROW_BYTES - len(begin) - len(end) - 1
    return begin + ",1" * (room // 2) + ("" if room % 2 == 0 else ",") + end + "\n"


def first_token_differs(number):
    return padded(f"row k{number:04} <d:r>,<x:r>", " | <d> = (<d> + (<x> & 15))")


def last_token_differs(number):
    return padded("row pad <d:r>,<x:r>", f",{number + 1000} | <d> = (<d> + (<x> & 15))")


def deep_row():
    tree = "<x>"
    for _ in range(8):
        tree = f"(neg {tree})"
    return f"row deep <d:r>,<x:r> | <d> = {tree}\n"


def description(base, base_rows, size, row, last=""):
    count = size - base_rows - (1 if last else 0)
    return base + "".join(row(number) for number in range(count)) + last


def seconds(path, status):
    times = []
    for _ in range(RUNS):
        begin = time.perf_counter()
        done = subprocess.run([os.path.join(ROOT, ".build", "vpo"), "check", path], capture_output=True)
        times.append(time.perf_counter() - begin)
        if done.returncode != status:
            sys.exit(f"{path}: status {done.returncode}, not {status}: {done.stdout + done.stderr!r}")
    return statistics.median(times)


def main():
    subprocess.run([os.path.join(ROOT, "vpo"), "--prove"], check=True)
    with open(os.path.join(ROOT, "examples", "duo.vpo")) as file:
        base = file.read()
    base_rows = 36
    kinds = [
        ("rows that differ in their first token", first_token_differs, "", 0),
        ("rows that differ in their last token", last_token_differs, "", 0),
        ("the last row breaks rule 13", first_token_differs, deep_row(), 66),
    ]
    with tempfile.TemporaryDirectory() as folder:
        print("| Description | Rows | Seconds | Ratio |")
        print("|---|---|---|---|")
        for name, rows in (("pdp11", 206), ("mips", 72)):
            path = os.path.join(ROOT, "examples", name + ".vpo")
            print(f"| {name} | {rows} | {seconds(path, 0):.3f} | |")
        for title, row, last, status in kinds:
            before = None
            for size in SIZES:
                path = os.path.join(folder, "machine.vpo")
                with open(path, "w") as file:
                    file.write(description(base, base_rows, size, row, last))
                taken = seconds(path, status)
                ratio = "" if before is None else f"{taken / before:.1f}"
                print(f"| {title} | {size} | {taken:.3f} | {ratio} |")
                before = taken


if __name__ == "__main__":
    main()
