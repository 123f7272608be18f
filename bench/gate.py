#!/usr/bin/env python3
"""What the gate costs: the processor seconds of `rt ci` by crate, for its proof, its tests and its must-fail edits.

Usage, at the top of the repository: bench/gate.py [WORD..] 2>LOG; `rt ci` is run with these words (names of crates, or
--anew), and what it writes goes to standard error. Once it has ended, or was interrupted, the table stands on standard
output, in Markdown, and this script ends with its status.

Four times a second the gate's checks are read from /proc, with all that they started. The crate of a check is its
`--crate-name`; tests have `--test`, and an edit is tried on a copy of the crate in a folder `rt-edit-..`. What a check takes
after the last look at it counts as "all else", as do rt itself, links and runs, since the whole sum is the system's own.
What the gate kept from an earlier run costs nothing now: the lines below the table name such crates.
"""
import collections
import os
import pathlib
import resource
import subprocess
import sys
import time

# Seconds between two looks.
PAUSE = 0.25
# The most processor minutes of a new crate.
MOST = 7
TICKS = os.sysconf("SC_CLK_TCK")

# A process: its name, when it began, and the seconds that it took with those of its children that have ended.
Process = collections.namedtuple("Process", "name start seconds")


def process(number):
    """The process of this number, or None where it has ended."""
    try:
        text = pathlib.Path(f"/proc/{number}/stat").read_text(errors="replace")
    except OSError:
        return None
    before, _, after = text.rpartition(")")
    fields = after.split()
    return Process(before.partition("(")[2], fields[19], sum(map(int, fields[11:15])) / TICKS)


def children(number):
    """The numbers of the processes that a process has started, and that have not ended."""
    found = []
    for tasks in pathlib.Path(f"/proc/{number}/task").glob("*/children"):
        try:
            found += map(int, tasks.read_text().split())
        except OSError:
            pass
    return found


def crate_and_kind(number):
    """What a check is for, or None where it has ended or is none."""
    try:
        words = pathlib.Path(f"/proc/{number}/cmdline").read_text(errors="replace").split("\0")
        folder = os.readlink(f"/proc/{number}/cwd")
    except OSError:
        return None
    if "--crate-name" not in words:
        return None
    kind = "edits" if "/rt-edit" in folder else "tests" if "--test" in words else "proof"
    return words[words.index("--crate-name") + 1], kind


class Checks:
    """The checks of one gate: what each is for, and the seconds that it had taken when it was last seen."""

    def __init__(self, gate):
        self.gate, self.labels, self.seconds = gate, {}, {}

    def look(self):
        """Looks once at all checks that run now."""
        sums = collections.Counter()
        # the gate and what it started, each with the check that it belongs to, if to any
        places = [(self.gate, None)]
        while places:
            number, check = places.pop()
            it = process(number)
            if not it:
                continue
            if check is None and it.name == "rattle":
                check = number, it.start
                if check not in self.labels:
                    self.labels[check] = crate_and_kind(number)
            if check:
                sums[check] += it.seconds
            places += [(child, check) for child in children(number)]
        self.seconds.update(sums)

    def rows(self):
        """The seconds by crate and kind."""
        rows = collections.defaultdict(collections.Counter)
        for check, seconds in self.seconds.items():
            if self.labels[check]:
                crate, kind = self.labels[check]
                rows[crate][kind] += seconds
        return rows


def measured(words):
    """Runs the gate, and gives its checks and its exit status."""
    gate = subprocess.Popen(["rt", "ci", *words], stdout=sys.stderr)
    checks = Checks(gate.pid)
    while gate.poll() is None:
        try:
            checks.look()
            time.sleep(PAUSE)
        except KeyboardInterrupt:
            gate.wait()  # it reaches the gate too
    return checks, gate.returncode


def print_table(rows, passed):
    """Prints the rows, the crate that takes most first, and the sums. `passed` is the time of the clock, in seconds."""
    print("| Crate | proof | tests | edits | sum, in seconds |")
    print("|---|---:|---:|---:|---:|")
    sums = collections.Counter()
    for crate, row in sorted(rows.items(), key=lambda pair: -pair[1].total()):
        print(f"| {crate} | {row['proof']:.0f} | {row['tests']:.0f} | {row['edits']:.0f} | {row.total():.0f} |")
        sums.update(row)
    used = resource.getrusage(resource.RUSAGE_CHILDREN)
    whole = used.ru_utime + used.ru_stime
    print(f"| all | {sums['proof']:.0f} | {sums['tests']:.0f} | {sums['edits']:.0f} | {sums.total():.0f} |")
    print(f"| all else |  |  |  | {whole - sums.total():.0f} |")
    minutes = ", ".join(f"{kind} {sums[kind] / 60:.0f}" for kind in ("proof", "tests", "edits"))
    print(f"\nProcessor minutes: {whole / 60:.0f} ({minutes}), in {passed / 60:.0f} minutes on {os.cpu_count()} processors.")


def print_notes(rows):
    """Names the crates that take too long, and those of which nothing was proved in this run."""
    dear = [crate for crate, row in rows.items() if row.total() > 60 * MOST]
    lines = [it.split(":")[0].split() for it in open("crates.txt") if not it.startswith("#")]
    kept = [it[0] for it in lines if it and not rows[it[0]]["proof"]]
    print(f"Over {MOST} minutes: {', '.join(sorted(dear)) or 'none'}.")
    print(f"Not proved in this run: {', '.join(kept) or 'none'}.")


def main(words):
    began = time.monotonic()
    checks, status = measured(words)
    rows = checks.rows()
    print_table(rows, time.monotonic() - began)
    print_notes(rows)
    return status if status >= 0 else 1


if __name__ == "__main__":
    sys.exit(main(sys.argv[1:]))
