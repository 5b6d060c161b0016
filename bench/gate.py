#!/usr/bin/env python3
"""Runs `rt ci`, puts the time before each of its lines, and prints what each crate cost the processors.

The processor time of each prover that the run starts is read twice a second, and counts for the crate that it was given: for its proof, for its
tests (a second proof of the crate with its test functions) or for an edit that has to be refused. The run itself is a plain `rt ci`; its
status is passed on. Crates that an earlier run on this machine passed cost nothing here: the table is whole on a machine where nothing is kept, or with
`--anew`.

    bench/gate.py              runs the gate; its lines go to standard error, the table to standard output
    bench/gate.py --anew       the same, with everything proved again
"""
import os
import subprocess
import sys
import threading
import time

ROOT = os.path.dirname(os.path.dirname(os.path.abspath(__file__)))
TICKS = os.sysconf("SC_CLK_TCK")
PARTS = ("proof", "tests", "edits")


def processes():
    """For each process of this machine its parent and its processor seconds so far, by number and start."""
    found = {}
    for number in filter(str.isdigit, os.listdir("/proc")):
        try:
            with open(f"/proc/{number}/stat") as file:
                fields = file.read().rpartition(")")[2].split()
        except OSError:
            continue
        found[int(number)] = (int(fields[1]), (int(fields[11]) + int(fields[12])) / TICKS, fields[19])
    return found


def is_below(number, top, found):
    while number in found and number != top:
        number = found[number][0]
    return number == top


def work_of(number):
    """The crate and the part of the gate that a prover works for, or None for another program."""
    try:
        if os.path.basename(os.readlink(f"/proc/{number}/exe")) != "rattle":
            return None
        with open(f"/proc/{number}/cmdline") as file:
            words = file.read().split("\0")
        folder = os.path.basename(os.readlink(f"/proc/{number}/cwd"))
        crate = words[words.index("--crate-name") + 1]
    except (OSError, ValueError, IndexError):
        return None
    if folder.startswith("rt-edit"):
        return crate, "edits"
    return crate, "tests" if "--test" in words else "proof"


class Meter:
    """Reads the provers' processor time until it is told to stop."""

    def __init__(self, top):
        self.top, self.works, self.seconds, self.ends = top, {}, {}, threading.Event()
        self.thread = threading.Thread(target=self.read)
        self.thread.start()

    def read(self):
        while not self.ends.wait(0.5):
            found = processes()
            for number, (_, seconds, start) in found.items():
                key = number, start
                # a process that was only just forked isn't its program yet, so it is looked at again
                if not self.works.get(key):
                    self.works[key] = work_of(number) if is_below(number, self.top, found) else None
                if self.works[key]:
                    self.seconds[key] = seconds

    def minutes(self):
        self.ends.set()
        self.thread.join()
        minutes = {}
        for key, seconds in self.seconds.items():
            crate, part = self.works[key]
            row = minutes.setdefault(crate, dict.fromkeys(PARTS, 0.0))
            row[part] += seconds / 60
        return minutes


def crates():
    """Each crate with the crates of this repository that it stands on, lowest first."""
    with open(f"{ROOT}/crates.txt") as file:
        lines = [line.partition("#")[0] for line in file]
    named = {line.partition(":")[0].strip(): line.partition(":")[2].split() for line in lines if ":" in line}
    return {name: [other for other in below if other in named] for name, below in named.items()}


def longest_chain(below, minutes):
    """The chain of crates, each on the one before, whose proofs take longest one after the other."""
    best = {}
    for name in below:
        under = max((best[other] for other in below[name] if other in best), default=(0.0, []))
        best[name] = under[0] + minutes.get(name, {}).get("proof", 0.0), under[1] + [name]
    return max(best.values(), default=(0.0, []))


def main():
    began = time.time()
    run = subprocess.Popen(["rt", "ci", *sys.argv[1:]], cwd=ROOT, stdout=subprocess.PIPE, stderr=subprocess.STDOUT, text=True)
    meter = Meter(run.pid)
    for line in run.stdout:
        print(time.strftime("%H:%M:%S"), line, end="", file=sys.stderr, flush=True)
    status = run.wait()
    minutes, below = meter.minutes(), crates()
    print("| Crate | Proof | Tests | Edits | Sum |")
    print("|---|---|---|---|---|")
    for name in below:
        row = minutes.get(name)
        if row:
            print(f"| {name} | " + " | ".join(f"{row[part]:.1f}" for part in PARTS) + f" | {sum(row.values()):.1f} |")
    sums = [sum(row[part] for row in minutes.values()) for part in PARTS]
    print("| all | " + " | ".join(f"{it:.1f}" for it in sums) + f" | {sum(sums):.1f} |")
    length, chain = longest_chain(below, minutes)
    print(f"\nIn {(time.time() - began) / 60:.0f} minutes of the clock. The longest chain: {length:.1f} minutes, {', '.join(chain)}.")
    sys.exit(status)


if __name__ == "__main__":
    main()
