#!/usr/bin/env python3
"""Rows and bytes per second of the proved Parquet writer and reader, beside a copy of the same bytes.

Usage: run.py [ROWS], after `rt run` in crates/workbench; ROWS is 1,000,000 where it is left out.

For each table the program makes the rows, then also writes their file, then also copies its bytes or reads it; the
differences of the processor times, the best of several tries each, are the times of writing, copying and reading alone.
Everything is done at half the rows too. The exit status is 1 where twice the rows take more than 2.2 times as long.
"""
import os
import pathlib
import sys

sys.path.insert(0, str(pathlib.Path(__file__).resolve().parent.parent))
from measure import PROGRAM, best_runs, keep_one_processor, processor

TABLES = {"longs": "two columns of longs", "words": "100 distinct texts", "texts": "texts without repeats", "booleans": "booleans and nulls"}
STEPS = ("rows", "write", "copy", "read")
TRIES, MOST_GROWTH = 5, 2.2


def measure(table, rows):
    """The time of each step alone, the number of bytes of the file, and the peak memory up to each step."""
    commands = [[PROGRAM, "time", f"parquet-{step}-{table}", str(rows)] for step in STEPS]
    made, written, copied, read = best_runs(TRIES, commands)
    times = {
        "write": written.seconds - made.seconds,
        "copy": copied.seconds - written.seconds,
        "read": read.seconds - written.seconds,
    }
    memory = {"rows": made.megabytes, "write": written.megabytes, "read": read.megabytes}
    return times, int(written.text), memory


def main():
    rows = int(sys.argv[1]) if len(sys.argv) > 1 else 1_000_000
    keep_one_processor()
    print(f"processor: {processor()} ({os.cpu_count()} cores), load {os.getloadavg()[0]:.0f}, {rows} rows")
    print("| Table | File | Step | Time | Rows a second | Bytes a second | Copies of the bytes | Growth | Peak memory |")
    print("|---|---|---|---|---|---|---|---|---|")
    well = True
    for table, said in TABLES.items():
        half, _, _ = measure(table, rows // 2)
        whole, size, memory = measure(table, rows)
        copy = max(whole["copy"], 1e-4)
        for step in ("write", "read"):
            growth = whole[step] / half[step]
            well = well and growth <= MOST_GROWTH
            print(f"| {said} | {size / 1e6:.1f} MB | {step} | {whole[step]:.2f} s | {rows / whole[step] / 1e6:.2f} million"
                  f" | {size / whole[step] / 1e6:.0f} MB | {whole[step] / copy:.0f} | {growth:.2f} | {memory[step]:.0f} MB (rows alone {memory['rows']:.0f}) |", flush=True)
    sys.exit(0 if well else 1)


main()
