#!/usr/bin/env python3
"""How fast commits are written and read, and how the time grows when the commit doubles.

Usage: run.py. Builds crates/workbench by `rt run` first. `time log-write N` makes N added files with statistics and
writes their commit; `time log-read N` does the same and reads the commit. So the difference of the two is the time of
reading alone, and the time of writing includes the making. Each is timed by its processor time on one processor, the
best of several tries. The exit status is 1 where a count is wrong or a time grows by more than 2.2 for twice the adds.
"""
import os
import pathlib
import subprocess
import sys

sys.path.insert(0, str(pathlib.Path(__file__).resolve().parent.parent))
from measure import PROGRAM, WORKBENCH, best_runs, growth, keep_one_processor, processor

COUNTS = (10_000, 20_000)
TRIES = 15
MOST_GROWTH = 2.2


def measure(count):
    """The times of writing and of reading alone, the number of bytes and the number of actions."""
    write, both = best_runs(TRIES, [[PROGRAM, "time", kernel, str(count)] for kernel in ("log-write", "log-read")])
    return write.seconds, both.seconds - write.seconds, int(write.text), int(both.text)


def said(taken, size, before):
    return f"{taken * 1000:.0f} ms | {size / taken / 1e6:.0f} MB/s | {growth(taken, before)}"


def main():
    subprocess.run(["rt", "run", "--", "time", "log-write", "1"], cwd=WORKBENCH, check=True, stdout=subprocess.DEVNULL)
    keep_one_processor()
    print(f"processor: {processor()}, load {os.getloadavg()[0]:.0f}\n")
    print("| Adds | Text | Made and written | Speed | Growth | Read | Speed | Growth |")
    print("|---|---|---|---|---|---|---|---|")
    well, write_before, read_before = True, None, None
    for count in COUNTS:
        write, read, size, actions = measure(count)
        print(f"| {count} | {size / 1e6:.1f} MB | {said(write, size, write_before)} | {said(read, size, read_before)} |", flush=True)
        well = well and actions == count
        if write_before is not None:
            well = well and write <= MOST_GROWTH * write_before and read <= MOST_GROWTH * read_before
        write_before, read_before = write, read
    sys.exit(0 if well else 1)


main()
