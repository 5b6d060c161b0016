#!/usr/bin/env python3
"""Times the front end of C, `c_source::tree_of`, `c_types::type_program` and `c_limits::within`, on growing sources, and prints a table with the ratios of one run.

A small program is made in a temporary folder, with the repository's crates beside it, and built by `rt run`, which proves all that it stands on, or with `--unproved` by `rt try`, which proves nothing and compiles with checks, so that its times are a
hundred times longer; there the sources have a thirty-second part of the size. `--program PATH` takes a program that is built already, and `--source` prints its source. The program reads all sources and prints for each how long its parts took, which
leaves out the start of the process and the reading.

The sources have up to 1 MiB: many functions; one function of many statements; blocks that nest to the limit, each with names of its own
and uses of those around it; values of an initialiser; objects of the file, and of one block; and one switch of many cases.
"""
import os
import shutil
import statistics
import subprocess
import sys
import tempfile

ROOT = os.path.dirname(os.path.dirname(os.path.abspath(__file__)))
SIZES = (1 << 17, 1 << 18, 1 << 19, 1 << 20)
RUNS = 3
# each block is a statement and a block, and a statement and an assignment stand within
DEEPEST = 97

PROGRAM = """//! Types the sources from standard input, which stand apart by a byte 1, and tells how long that takes.
#![tactic(auto)]

use c_limits::within;
use c_tree::{CFault, Typed};
use c_types::type_program;
use rtl_word::W32;
use std::io::{self, Read, Write};
use std::time::Instant;

/// How long the limits take, on a machine of 16 MiB: a source of this length passes them or not.
fn measured(rt: &HostRuntime, tree: &Typed) -> io::Result<u128> {
    let begin = Instant::now(rt)?;
    let answer = within::<W32>(tree, 1 << 24, 1024, 1 << 20);
    let taken = begin.elapsed(rt)?.as_micros();
    // the answer is looked at, so that it is computed
    Ok(if answer.is_ok() { taken } else { taken.max(1) })
}

fn typed(rt: &HostRuntime, text: &[u8]) -> io::Result<()> {
    if text.len() > 1_048_576 {
        return Ok(());
    }
    let alloc = rt.alloc();
    let begin = Instant::now(rt)?;
    let tree = c_source::tree_of(alloc, text);
    let parsed = begin.elapsed(rt)?.as_micros();
    let begin = Instant::now(rt)?;
    let typed = match tree {
        Ok(syntax) => type_program::<W32>(alloc, &syntax),
        Err(fault) => Err(fault),
    };
    let taken = begin.elapsed(rt)?.as_micros();
    let (told, limits) = match typed {
        Ok(tree) => (0, measured(rt, &tree)?),
        Err(CFault::Bad(reason)) => (reason.rule, 0),
        Err(CFault::NoMemory) => (255, 0),
    };
    writeln!(io::writer(rt), "rule {told} {parsed} {taken} {limits}")
}

fn main(rt: HostRuntime) -> io::Result<()> {
    let mut text = Vec::new(rt.alloc());
    rt.stdin().read_to_end(&mut text)?;
    for part in text.as_slice().split(|b| *b == 1) {
        typed(&rt, part)?;
    }
    Ok(())
}
"""

END = "int main(void){return 0;}"


def repeated(before, unit, behind, size):
    """What stands before, as many units as fit, each made of its number, and what stands behind."""
    parts = [before]
    room = size - len(before) - len(behind)
    number = 0
    while len(part := unit(number)) <= room:
        parts.append(part)
        room -= len(part)
        number += 1
    return "".join(parts) + behind


def functions(size):
    return repeated("", lambda n: f"int f{n}(int a,int b){{int c;c=a*{n % 1000};return c+b;}}", END, size)


def statements(size):
    return repeated("int main(void){int x=0;", lambda n: f"x=x+{n % 1000};", "}", size)


def nest(number):
    inner = "".join(f"{{int n{number}_{d}=n{number}_{d - 1};" for d in range(1, DEEPEST))
    return f"{{int n{number}_0=0;{inner}n{number}_{DEEPEST - 1}=n{number}_0;{'}' * DEEPEST}"


def blocks(size):
    return repeated("int main(void){", nest, "}", size)


def values(size):
    return repeated("int a[]={0", lambda n: f",{n % 1000}", "};" + END, size)


def statics(size):
    return repeated("", lambda n: f"int a{n};", END, size)


def locals_of_one(size):
    return repeated("int main(void){", lambda n: f"int a{n};", "}", size)


def cases(size):
    return repeated("int main(void){switch(1){", lambda n: f"case {n}:;", "}}", size)


def folder_of(temporary):
    """The repository's crates, and the program."""
    shutil.copytree(os.path.join(ROOT, "crates"), os.path.join(temporary, "crates"), ignore=shutil.ignore_patterns("out"))
    shutil.copy(os.path.join(ROOT, "HANDLES"), temporary)
    source = os.path.join(temporary, "crates", "typist", "src")
    os.makedirs(source)
    with open(os.path.join(source, "main.rt"), "w") as file:
        file.write(PROGRAM)
    with open(os.path.join(ROOT, "crates.txt")) as file:
        lines = file.read()
    with open(os.path.join(temporary, "crates.txt"), "w") as file:
        file.write(f"{lines}typist: c_source c_types c_limits c_tree rtl_word\n")
    return os.path.dirname(source)


def run(command, folder, sources):
    """For each source the rule that is told, and the microseconds for its tree, for typing it and for its limits."""
    done = subprocess.run(command, cwd=folder, input="\x01".join(sources).encode(), capture_output=True)
    lines = [line.removeprefix("| ").split() for line in done.stdout.decode().splitlines()]
    answers = [[int(word) for word in words[1:]] for words in lines if len(words) == 5 and words[0] == "rule"]
    if len(answers) != len(sources) or any(answer[0] != 0 for answer in answers):
        sys.exit(f"no answer: {answers}: {(done.stdout + done.stderr).decode()[-2000:]}")
    return answers


def main():
    words = sys.argv[1:]
    if words == ["--source"]:
        print(PROGRAM, end="")
        return
    unproved = words == ["--unproved"]
    program = words[1] if len(words) == 2 and words[0] == "--program" else None
    kinds = [
        ("many functions", functions),
        ("one function of many statements", statements),
        ("deep blocks with many names", blocks),
        ("values of an initialiser", values),
        ("objects of the file", statics),
        ("objects of one block", locals_of_one),
        ("one switch of many cases", cases),
    ]
    sizes = [size // 32 if unproved else size for size in SIZES]
    sources = [source(size) for _, source in kinds for size in sizes]
    runs = 1 if unproved else RUNS
    if program:
        answers = [run([program], ".", sources) for _ in range(runs)]
    else:
        with tempfile.TemporaryDirectory() as temporary:
            folder = folder_of(temporary)
            command = ["rt", "try", "--seconds", "600"] if unproved else [os.path.join(folder, "out", "typist")]
            if not unproved:
                run(["rt", "run"], folder, [END])
            answers = [run(command, folder, sources) for _ in range(runs)]
    print("| Source | Bytes | Tree, seconds | Ratio | Typing, seconds | Ratio | Limits, seconds | Ratio |")
    print("|---|---|---|---|---|---|---|---|")
    before = None
    for number, source in enumerate(sources):
        times = [statistics.median(answer[number][part] for answer in answers) / 1e6 for part in (1, 2, 3)]
        first = number % len(sizes) == 0
        ratios = ["" if first else f"{now / max(then, 1e-6):.1f}" for now, then in zip(times, before or times)]
        parts = " | ".join(f"{time:.3f} | {ratio}" for time, ratio in zip(times, ratios))
        print(f"| {kinds[number // len(sizes)][0]} | {len(source)} | {parts} |")
        before = times


if __name__ == "__main__":
    main()
