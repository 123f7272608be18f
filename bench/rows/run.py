#!/usr/bin/env python3
"""The time of predicates, changes and merges over rows in memory, and of asking which files may match.

Usage: run.py [ROWS], after `rt run` in crates/workbench; ROWS is 1,000,000 where it is left out.

Each kernel over rows makes ROWS rows of two longs, and half as many; `rows-made` makes as many rows alone, and its time
is taken off. A merge has a tenth as many rows in its source as the file has. The predicate is asked beside a loop with
its comparisons written out. 50,000 files are asked in rounds, and a hundred files for one of many keys; the time of no
rounds and of no keys is taken off. Times are processor times, the best of several tries; where valgrind is there, the
instructions are counted too. The exit status is 1 where the predicate takes more than 4 times as long as the loop, or
where twice the rows or the keys take more than 2.2 times as many instructions (as much time, without valgrind).
"""
import os
import pathlib
import re
import shutil
import subprocess
import sys
import tempfile

sys.path.insert(0, str(pathlib.Path(__file__).resolve().parent.parent))
from measure import PROGRAM, best_runs, keep_one_processor, processor

TRIES, MOST_RATIO, MOST_GROWTH = 9, 4, 2.2
ROW_WORKS = {
    "rows-truth": "the predicate",
    "rows-plain": "the same written out",
    "rows-delete": "delete",
    "rows-update": "update",
    "rows-merge": "merge",
}
FILES, KEYS = 50_000, 100_000
ROUNDS = {"files-asked": ("files that are asked", 100), "files-known": ("files that are known and asked", 5)}


def command(run):
    kernel, number = run
    return [PROGRAM, "time", kernel, str(number)]


def seconds(runs):
    """The processor time of each run, the best of several tries, in which the runs take turns."""
    return {run: best.seconds for run, best in zip(runs, best_runs(TRIES, [command(run) for run in runs]))}


def instructions(runs):
    """The instructions of each run, where there is something to count them with."""
    if not shutil.which("valgrind"):
        return None
    counts = {}
    for run in runs:
        with tempfile.TemporaryDirectory() as folder:
            tool = ["valgrind", "--tool=callgrind", f"--callgrind-out-file={folder}/counts"]
            done = subprocess.run(tool + command(run), capture_output=True, text=True, check=True)
        counts[run] = int(re.search(r"Collected : (\d+)", done.stderr).group(1))
    return counts


def without(taken, run, base):
    """What a run took, without what another one did."""
    return taken[run] - taken[base]


def growth_line(said, half, whole, items, times, counts):
    """A line of a work at half and at the whole, and how it grows; a half and a whole are pairs of a run and its base."""
    now, before = without(times, *whole), without(times, *half)
    growth = now / before
    line = f"| {said} | {before * 1e3:.1f} ms | {now * 1e3:.1f} ms | {growth:.2f} |"
    if counts:
        growth = without(counts, *whole) / without(counts, *half)
        line += f" {without(counts, *whole) / items:.0f} | {growth:.2f} |"
    print(line, flush=True)
    return growth <= MOST_GROWTH


def measure_growth(rows):
    """The works over rows and over keys, whether each grows as it may, and how many times as long the predicate takes."""
    works = [(said, (kernel, "rows-made"), rows) for kernel, said in ROW_WORKS.items()]
    pairs = [(said, [((kernel, n), (base, n)) for n in (rows // 2, rows)], rows) for said, (kernel, base), _ in works]
    none = ("files-keys", 0)
    pairs.append((f"a hundred files and {KEYS} keys", [(("files-keys", n), none) for n in (KEYS // 2, KEYS)], KEYS))
    runs = list(dict.fromkeys(run for _, sides, _ in pairs for side in sides for run in side))
    times, counts = seconds(runs), instructions(runs)
    print("| Work | Half | Whole | Growth | Instructions for each | Growth of instructions |")
    print("|---|---|---|---|---|---|")
    well = all([growth_line(said, *sides, items, times, counts) for said, sides, items in pairs])
    made = ("rows-made", rows)
    return well, without(times, ("rows-truth", rows), made) / without(times, ("rows-plain", rows), made)


def measure_files():
    """The files, round by round."""
    runs = [(kernel, rounds) for kernel, (_, most) in ROUNDS.items() for rounds in (0, most)]
    times, counts = seconds(runs), instructions(runs)
    print(f"| Work | {FILES} files | Each | Instructions for each |")
    print("|---|---|---|---|")
    for kernel, (said, rounds) in ROUNDS.items():
        run, base = (kernel, rounds), (kernel, 0)
        taken = without(times, run, base) / rounds
        line = f"| {said} | {taken * 1e3:.2f} ms | {taken / FILES * 1e9:.0f} ns |"
        print(line + (f" {without(counts, run, base) / rounds / FILES:.0f} |" if counts else ""), flush=True)


def main():
    rows = int(sys.argv[1]) if len(sys.argv) > 1 else 1_000_000
    keep_one_processor()
    print(f"processor: {processor()} ({os.cpu_count()} cores), load {os.getloadavg()[0]:.0f}, {rows} rows")
    well, ratio = measure_growth(rows)
    print(f"the predicate takes {ratio:.1f} times as long as the same written out\n")
    measure_files()
    sys.exit(0 if well and ratio <= MOST_RATIO else 1)


main()
