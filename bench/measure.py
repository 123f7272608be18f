"""What the bench scripts share: the processor, the built workbench, runs of a program with what they took, and growth."""
import collections
import os
import pathlib
import subprocess
import sys
import tempfile

WORKBENCH = pathlib.Path(__file__).resolve().parent.parent / "crates" / "workbench"
PROGRAM = str(WORKBENCH / "out" / "workbench")

# The processor time in seconds, the peak memory in MB, and the text on standard output.
Run = collections.namedtuple("Run", "seconds megabytes text")


def processor():
    """The processor's name."""
    for line in open("/proc/cpuinfo"):
        if line.startswith("model name"):
            return line.split(":", 1)[1].strip()
    return "unknown"


def keep_one_processor():
    """Has this script, and what it runs, keep to one and the same processor."""
    os.sched_setaffinity(0, {max(os.sched_getaffinity(0))})


def run(command, source=None):
    """One run of a command, with the file `source` as its standard input. A status other than 0 ends this script."""
    if source is not None:
        source.seek(0)
    with tempfile.TemporaryFile() as sink:
        child = subprocess.Popen(command, stdin=source, stdout=sink)
        _, status, used = os.wait4(child.pid, 0)
        child.returncode = os.waitstatus_to_exitcode(status)
        if child.returncode:
            sys.exit(f"{' '.join(command)} ended with status {child.returncode}")
        sink.seek(0)
        text = sink.read().decode()
    return Run(used.ru_utime + used.ru_stime, used.ru_maxrss / 1024, text)


def best(runs):
    """The least time and the most memory of runs of one command, and their text."""
    return Run(min(taken.seconds for taken in runs), max(taken.megabytes for taken in runs), runs[0].text)


def best_runs(tries, commands, source=None):
    """The best of so many tries of each command. In each try the commands run one after another."""
    turns = [[run(command, source) for command in commands] for _ in range(tries)]
    return [best(runs) for runs in zip(*turns)]


def growth(now, before):
    """How many times as much it is now, or nothing where there was none before."""
    return "" if before is None else f"{now / before:.2f}"
