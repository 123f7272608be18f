#!/usr/bin/env python3
"""Times whole runs of the program, and shows how cost grows when the work doubles.

Usage: run.py PROGRAM, the built program, whose word `step` reads a script from standard input. Prints three tables: a
script of 10 MB of inserted rows; one session of one-row inserts with a select after each hundredth; many sessions that
append in turn, one store call each. A run's time is its processor time, the best of three. Benchmarks are no tests:
nothing is judged here.
"""
import os
import pathlib
import sys
import tempfile

sys.path.insert(0, str(pathlib.Path(__file__).resolve().parent.parent))
from measure import best_runs, growth, processor

START_WORDS = "table (id long not null, v long not null)\n"
RUNS = 3


def run(program, script):
    """The least processor time in seconds, the peak memory in MB and the replies."""
    with tempfile.TemporaryFile() as source:
        source.write(script.encode())
        return best_runs(RUNS, [[program, "step"]], source)[0]


def big_insert(size):
    """A script of about so many bytes: one session, inserts of fifty thousand rows."""
    parts, length, number = [START_WORDS, "session a\n"], 0, 0
    while length < size:
        rows = ", ".join(f"({number + k}, {(number + k) * 7919 % 1000003})" for k in range(50_000))
        number += 50_000
        line = f"insert {rows}\n"
        parts.append(line)
        length += len(line)
    return "".join(parts)


def bytes_table(program):
    print("| Script | Time | Speed | Peak memory |")
    print("|---|---|---|---|")
    for size in (2_500_000, 5_000_000, 10_000_000):
        script = big_insert(size)
        taken, peak, _ = run(program, script)
        print(f"| {len(script) / 1e6:.1f} MB | {taken:.2f} s | {len(script) / 1e6 / taken:.1f} MB/s | {peak:.0f} MB |")


def statements(count):
    lines = [START_WORDS, "session a\n"]
    for k in range(1, count + 1):
        lines.append(f"insert ({k}, {k})\n")
        if k % 100 == 0:
            lines.append("select\n")
    return "".join(lines)


def gets_of_inserts(count):
    """How many commits are got: a statement after k appends gets k + 1, its listing as many names."""
    inserts = sum(k + 1 for k in range(count))
    selects = sum(2 * k + 1 for k in range(100, count + 1, 100))
    return inserts + selects


def statements_table(program):
    print("| Inserts | Time | Per statement | Growth | Gets | Per get | Peak memory |")
    print("|---|---|---|---|---|---|---|")
    before = None
    for count in (250, 500, 1000, 2000):
        taken, peak, _ = run(program, statements(count))
        all_statements = count + count // 100
        gets = gets_of_inserts(count)
        print(
            f"| {count} | {taken:.3f} s | {taken / all_statements * 1e6:.0f} µs | {growth(taken, before)}"
            f" | {gets} | {taken / gets * 1e9:.0f} ns | {peak:.0f} MB |"
        )
        before = taken


def calls_in_turn(sessions, inserts):
    """How many store calls sessions make that append in turn, one call each: a model of the protocol's calls."""
    commits = 1  # the table's own
    state = [{"left": inserts, "at": "now"} for _ in range(sessions)]
    calls = 4  # the table's own: clock, listing, clock, put
    while any(s["left"] for s in state):
        for s in state:
            if not s["left"]:
                continue
            calls += 1
            if s["at"] == "now":
                s["at"] = "list"
            elif s["at"] == "list":
                s["read"], s["got"], s["at"] = commits - 1, 0, "get"
            elif s["at"] == "get":
                s["got"] += 1
                if s["got"] == s["read"] + 1:
                    s["at"] = "data"
            elif s["at"] == "data":
                s["try"], s["at"] = s["read"] + 1, "clock"
            elif s["at"] == "clock":
                s["at"] = "put"
            elif s["at"] == "put":
                if s["try"] == commits:
                    commits += 1
                    s["left"] -= 1
                    s["at"] = "now"
                else:
                    s["at"] = "winner"
            else:
                s["try"] += 1
                s["at"] = "clock"
    return calls


def name(k):
    """A session's name: s and two letters, so that none is a word of the grammar."""
    return "s" + "abcdefghijklmnopqrstuvwxyz"[k // 26] + "abcdefghijklmnopqrstuvwxyz"[k % 26]


def sessions_in_turn(sessions, inserts):
    calls = calls_in_turn(sessions, inserts)
    lines = [START_WORDS]
    for k in range(sessions):
        lines.append(f"session {name(k)}\n")
        lines += [f"insert ({k}, {j})\n" for j in range(inserts)]
    lines.append("schedule\n")
    turn = " ".join(name(k) for k in range(sessions)) + "\n"
    lines.append(turn * min((calls + sessions - 1) // sessions, 1_000_000 // sessions))
    return "".join(lines), calls


def sessions_table(program):
    print("| Sessions | Inserts each | Store calls | Time | Per store call | Growth | Peak memory |")
    print("|---|---|---|---|---|---|---|")
    before = None
    for sessions in (8, 16, 32):
        script, calls = sessions_in_turn(sessions, 25)
        taken, peak, replies = run(program, script)
        landed = replies.count(" committed ")
        if landed != sessions * 25:
            sys.exit(f"{landed} of {sessions * 25} inserts landed")
        each = taken / calls
        print(f"| {sessions} | 25 | {calls} | {taken:.3f} s | {each * 1e9:.0f} ns | {growth(each, before)} | {peak:.0f} MB |")
        before = each


def main():
    program = os.path.abspath(sys.argv[1])
    print(f"processor: {processor()}, {os.cpu_count()} cores\n")
    for table in (bytes_table, statements_table, sessions_table):
        table(program)
        print()


main()
