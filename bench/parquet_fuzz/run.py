#!/usr/bin/env python3
"""Feeds damaged Parquet files to the proved reader: no crash, no hang, memory bounded.

Usage: run.py [N], after `rt run` in crates/workbench; N is the number of files, 20,000 where it is left out.

The whole seeds, which seeds.py beside this file writes, must read as so many rows. Each further file is a seed with one
to four damages (a bit turned, a byte set, a cut, bytes put in or left out or moved, a number of a varint made huge), and
`workbench read parquet FILE` must end with status 0 and one line, within ten seconds and four gibibytes. The damages
come from a fixed seed of the random numbers. The exit status is 1 where a run ends otherwise; the file is kept then.
"""
import collections
import os
import pathlib
import random
import re
import resource
import subprocess
import sys
import tempfile

from seeds import seeds

sys.path.insert(0, str(pathlib.Path(__file__).resolve().parent.parent))
from measure import PROGRAM

SECONDS, BYTES, MOST_BAD = 10, 4 << 30, 10
HUGE = [b"\xff\xff\xff\xff\x0f", b"\xfe\xff\xff\xff\x0f", b"\xff" * 9 + b"\x01", b"\x80\x80\x80\x80\x08", b"\xfe\xff\xff\xff\xff\xff\xff\xff\xff\x01"]


def turn_bit(data, chance):
    at = chance.randrange(len(data))
    data[at] ^= 1 << chance.randrange(8)


def set_byte(data, chance):
    data[chance.randrange(len(data))] = chance.choice([0, 1, 2, 3, 21, 0x7f, 0x80, 0xff, chance.randrange(256)])


def cut(data, chance):
    del data[chance.randrange(len(data)):]


def leave_out(data, chance):
    at = chance.randrange(len(data))
    del data[at:at + chance.randrange(1, 9)]


def put_in(data, chance):
    at = chance.randrange(len(data))
    data[at:at] = bytes(chance.randrange(256) for _ in range(chance.randrange(1, 9)))


def move(data, chance):
    start, to = chance.randrange(len(data)), chance.randrange(len(data))
    size = chance.randrange(1, 33)
    data[to:to + size] = data[start:start + size]


def make_huge(data, chance):
    at = chance.randrange(len(data))
    data[at:at + 1] = chance.choice(HUGE)


DAMAGES = [turn_bit] * 4 + [set_byte] * 4 + [make_huge] * 3 + [cut, leave_out, put_in, move]


def damaged(file, chance):
    data = bytearray(file)
    for _ in range(chance.randrange(1, 5)):
        if data:
            chance.choice(DAMAGES)(data, chance)
    if chance.random() < 0.5 and len(data) > 8:
        data[:4], data[-4:] = b"PAR1", b"PAR1"
    return bytes(data)


def bound():
    resource.setrlimit(resource.RLIMIT_AS, (BYTES, BYTES))


def read(path):
    """The status, the text and the peak memory of a run; the status is None where it didn't end in time."""
    child = subprocess.Popen([PROGRAM, "read", "parquet", path], stdout=subprocess.PIPE, stderr=subprocess.STDOUT, preexec_fn=bound)
    try:
        text, _ = child.communicate(timeout=SECONDS)
    except subprocess.TimeoutExpired:
        child.kill()
        child.communicate()
        return None, b"", 0
    return child.returncode, text, resource.getrusage(resource.RUSAGE_CHILDREN).ru_maxrss


def answer(text):
    """The sort of an answer: its text without numbers."""
    return re.sub("[0-9]+", "N", text.decode(errors="replace").strip())


def main():
    count = int(sys.argv[1]) if len(sys.argv) > 1 else 20_000
    chance = random.Random(20_000)
    files, answers, bad, peak = seeds(), collections.Counter(), 0, 0
    with tempfile.TemporaryDirectory() as folder:
        path = f"{folder}/file.parquet"
        for number in range(-len(files), count):
            whole, rows = files[number % len(files)]
            data = whole if number < 0 else damaged(whole, chance)
            pathlib.Path(path).write_bytes(data)
            status, text, used = read(path)
            peak = max(peak, used)
            well = status == 0 and text.count(b"\n") == 1 and (number >= 0 or text.startswith(b"%d rows" % rows))
            answers[answer(text)] += 1
            if not well:
                bad += 1
                kept = f"fuzz-{number}.parquet"
                pathlib.Path(kept).write_bytes(data)
                print(f"{kept}: status {status}, {text[:200]!r}")
            if bad == MOST_BAD:
                break
    print(f"{count} damaged files and {len(files)} whole ones, {bad} bad, peak {peak // 1024} MiB")
    for text, number in answers.most_common(40):
        print(f"{number} times: {text}")
    sys.exit(1 if bad else 0)


main()
