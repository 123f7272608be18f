#!/usr/bin/env python3
"""Values per second of the proved kernels beside a plain Rust baseline.

Usage: run.py [KERNEL..], after `rt run` in crates/workbench; a kernel is `unpack-W` or `pack-W`, and none means all.

The baseline, baseline.rs beside this file, is compiled by `rustc -O` first. Both programs run on one and the same
processor, in turn. Each is timed by its processor time at few and at many runs, the best of several tries each, and the
difference is the time of the runs alone. Both must print the same checksum. The exit status is 1 where a checksum
differs or a ratio is below 0.8.
"""
import os
import pathlib
import subprocess
import sys
import tempfile

HERE = pathlib.Path(__file__).resolve().parent
sys.path.insert(0, str(HERE.parent))
from measure import PROGRAM, best_runs, keep_one_processor, processor

COUNT = 1 << 22
FEW, MANY, TRIES = 1, 21, 9
LEAST = 0.8
KERNELS = [f"{way}-{width}" for way in ("unpack", "pack") for width in (1, 7, 13, 20, 32)]


def compile_baseline(folder):
    """The plain loops, compiled."""
    program = f"{folder}/baseline"
    subprocess.run(["rustc", "-O", "--edition", "2021", "-o", program, str(HERE / "baseline.rs")], check=True)
    return program


def speed(few, many):
    """Values a second, by the runs that the one has more than the other."""
    return COUNT * (MANY - FEW) / (many.seconds - few.seconds)


def measure(programs, kernel):
    """The speeds of the proved program and of the baseline, and whether they print the same checksums."""
    commands = [[program, "time", kernel, str(runs)] for program in programs for runs in (FEW, MANY)]
    few, many, plain_few, plain_many = best_runs(TRIES, commands)
    same = (few.text, many.text) == (plain_few.text, plain_many.text)
    return speed(few, many), speed(plain_few, plain_many), same


def main():
    keep_one_processor()
    print(f"processor: {processor()}, load {os.getloadavg()[0]:.0f}")
    well = True
    with tempfile.TemporaryDirectory() as folder:
        programs = [PROGRAM, compile_baseline(folder)]
        for kernel in sys.argv[1:] or KERNELS:
            ours, theirs, same = measure(programs, kernel)
            well = well and same and ours >= LEAST * theirs
            said = "same checksum" if same else "CHECKSUMS DIFFER"
            print(f"{kernel}: {ours / 1e6:.0f} and {theirs / 1e6:.0f} million values a second, ratio {ours / theirs:.2f}, {said}", flush=True)
    sys.exit(0 if well else 1)


main()
