#!/usr/bin/env python3
"""Runs the built `test_tables` over the short lines of texts of its table with one of its allocations refused, for many allocations in turn.

At most one line may then differ from the one that is due, and that line must tell of memory; or the program ends there, with status 3 and a message
that tells of memory. A C compiler is asked for. It prints what it checked, and ends within a minute. PROGRAM=.. names another program than
crates/test_tables/out/test_tables; MOST=.. how many allocations are refused, evenly spread (1000).
"""

import itertools
import os
import subprocess
import sys
import tempfile

HERE = os.path.dirname(os.path.abspath(__file__))
CRATE = f"{HERE}/../../crates/test_tables"
PROGRAM = os.environ.get("PROGRAM", f"{CRATE}/out/test_tables")
MOST = int(os.environ.get("MOST", "1000"))


def short_lines():
    """The lines of the table without a part that stands a thousand times or more, but for those whose last word alone is answered, and the history at its end."""
    with open(f"{CRATE}/stdin", encoding="utf-8") as table:
        counts = lambda line: [part.split("*")[0] for part in line.split("~")[1::2]]
        kinds = itertools.takewhile(lambda line: line != "history\n", table)
        asked = [line for line in kinds if not line.startswith(("named ", "updates ", "issued "))]
    lines = [line for line in asked if all(len(count) < 4 for count in counts(line))]
    return "".join(lines).encode()


def run(shim, given, refuse, count_to="/dev/null"):
    how = dict(os.environ, LD_PRELOAD=shim, REFUSE=str(refuse), COUNT_TO=count_to)
    return subprocess.run([PROGRAM], input=given, capture_output=True, env=how, timeout=20)


def tells_of_memory(line):
    return any(it in line.lower() for it in (b"outofmemory", b"allocerror", b"out of memory"))


def check(due, ran):
    """Whether the run ended early; each other line than the one that is due must tell of memory."""
    lines = ran.stdout.splitlines()
    others = [line for line, wanted in zip(lines, due) if line != wanted]
    assert len(others) <= 1 and all(tells_of_memory(line) for line in others), others
    if ran.returncode == 0:
        assert len(lines) == len(due), ran
        return False
    assert ran.returncode == 3 and not others and tells_of_memory(ran.stderr), ran
    return True


def main():
    given = short_lines()
    with tempfile.TemporaryDirectory() as work:
        shim, count = f"{work}/refuse.so", f"{work}/count"
        compiler = os.environ.get("CC", "cc")
        subprocess.run([compiler, "-O1", "-shared", "-fPIC", "-o", shim, f"{HERE}/refuse.c", "-ldl"], check=True)
        ample = run(shim, given, 0, count)
        assert ample.returncode == 0 and not ample.stderr, ample
        due = ample.stdout.splitlines()
        with open(count, encoding="ascii") as counted:
            total = int(counted.read())
        refused = range(1, total + 1, max(1, total // MOST))
        ended = sum(check(due, run(shim, given, n)) for n in refused)
    print(f"test_tables: {len(refused)} of {total} allocations refused in turn, {ended} runs ended early for it")


if __name__ == "__main__":
    sys.exit(main())
