#!/usr/bin/env python3
"""A served cluster that runs a task, with one allocation refused in a thread of it: tests/failing_calls/parts.py [COUNT [SEED]]

COUNT allocations (24), spread over all that an agent, the ticker and the connections make from the ACCEPT to the task's end, each in a cluster of its own; SEED (1)
moves them. An agent that is down comes up by being stopped, and goes on: the task is told to run and to have finished, once each, or it is told lost and nothing
else, and then all that the agent owns is offered. A stream that breaks off is hung up, and its framework subscribes again. Where the master is down, calls are
answered 503 C2 until a server is started again on the folder, where all this is so. At the end a server is started on each folder, where all is offered. A C
compiler is asked for. It prints what it checked, and ends within a minute.
"""
import collections
import concurrent.futures
import random
import sys
import tempfile

from failing import Control
from task import AT_ONCE, run
from cluster import check


def kind_of(outcome):
    if not outcome.failed:
        return "not reached"
    return ", ".join(outcome.ways + ["the master was down"] * (not outcome.stands))


def main():
    count, seed = [int(it) for it in sys.argv[1:]] + [24, 1][len(sys.argv) - 1 :]
    with tempfile.TemporaryDirectory() as work:
        ample = run(work, "ample", Control.MEMORY, 0)
        check(ample.stands and ample.ways == ["the task ran"], f"with ample memory: {ample.ways}")
        offset = random.Random(seed).random()
        numbers = sorted({1 + int((i + offset) * ample.count / count) for i in range(count)})
        with concurrent.futures.ThreadPoolExecutor(AT_ONCE) as pool:
            outcomes = list(pool.map(lambda number: run(work, f"control-{number}", Control.MEMORY, number), numbers))
    check(all(it.said is None for it in outcomes), f"no server ends: {[it.said for it in outcomes]}")
    tally = collections.Counter(kind_of(it) for it in outcomes)
    print(f"a task with one of some {ample.count} allocations refused, {len(numbers)} in turn (seed {seed}): {'; '.join(f'{it} {n}' for it, n in sorted(tally.items()))}")


if __name__ == "__main__":
    sys.exit(main())
