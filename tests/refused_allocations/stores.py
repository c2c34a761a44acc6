#!/usr/bin/env python3
"""Runs the built program's `serve` over a folder whose agent's record has more than is configured, with one of its allocations refused, for many allocations in turn.

With ample memory it ends with `Z1 TotalDiffers`, once it has opened both stores, taken the master's next run and read the record. A run whose memory is refused ends so
too, where it didn't need that memory, or tells of memory: for a store that is `K4 OutOfMemory` with the store's path, and never `K1 Store`. The agent's store stays as it
is. A C compiler is asked for. It prints what it checked, and ends within a minute. PROGRAM=.. names another program than crates/mesos_node/out/mesos_node;
MOST=.. how many allocations are refused, evenly spread (600).
"""
import collections
import json
import os
import subprocess
import sys
import tempfile

HERE = os.path.dirname(os.path.abspath(__file__))
sys.path.insert(0, os.path.join(HERE, "..", "serve"))
sys.dont_write_bytecode = True

from store_files import RECORD_KEPT, made, run_kept  # noqa: E402

PROGRAM = os.environ.get("PROGRAM", f"{HERE}/../../crates/mesos_node/out/mesos_node")
MOST = int(os.environ.get("MOST", "600"))
DUE = (2, "Z1 TotalDiffers: a1's record has more than is configured\n")


class Case:
    """A folder of two stores, which each run finds as they were."""

    def __init__(self, work, shim):
        self.work, self.shim = work, shim
        self.agent, self.master = f"{work}/agent-a1.db", f"{work}/master.db"
        self.stores = {
            self.agent: made(self.agent, RECORD_KEPT),
            self.master: made(self.master, run_kept(1)),
        }
        self.config = f"{work}/agents.json"
        with open(self.config, "w", encoding="utf-8") as it:
            json.dump({"agents": {"a1": {"cpus": 1}}}, it)

    def run(self, refuse, count_to="/dev/null"):
        """The status of `serve`, and what it tells."""
        for path, data in self.stores.items():
            with open(path, "wb") as it:
                it.write(data)
        words = [PROGRAM, "serve", "--port", "1", "--agents", self.config, "--state", self.work]
        how = dict(os.environ, LD_PRELOAD=self.shim, REFUSE=str(refuse), COUNT_TO=count_to)
        ran = subprocess.run(words, stdin=subprocess.DEVNULL, capture_output=True, env=how, timeout=20)
        assert not ran.stdout, ran
        with open(self.agent, "rb") as it:
            assert it.read() == self.stores[self.agent], f"allocation {refuse}: the agent's store has changed"
        return ran.returncode, ran.stderr.decode()


def kind(refused, got):
    """What a run told, whose memory was refused."""
    status, said = got
    if got == DUE:
        return "the total"
    assert status == 3 and "memory" in said.lower() and "K1" not in said, (refused, got)
    return "K4 of a store" if said.startswith("K4 OutOfMemory: ") else "want of memory elsewhere"


def main():
    with tempfile.TemporaryDirectory() as work, tempfile.TemporaryDirectory() as tools:
        shim, count = f"{tools}/refuse.so", f"{tools}/count"
        subprocess.run([os.environ.get("CC", "cc"), "-O1", "-shared", "-fPIC", "-o", shim, f"{HERE}/refuse.c", "-ldl"], check=True)
        case = Case(work, shim)
        assert case.run(0, count) == DUE, case.run(0)
        with open(count, encoding="ascii") as it:
            total = int(it.read())
        numbers = range(1, total + 1, max(1, total // MOST))
        told = collections.Counter(kind(n, case.run(n)) for n in numbers)
        assert told["K4 of a store"], told
        print(f"serve: {len(numbers)} of {total} allocations refused, one in each run; told: {', '.join(f'{it} in {n}' for it, n in sorted(told.items()))}")


if __name__ == "__main__":
    sys.exit(main())
