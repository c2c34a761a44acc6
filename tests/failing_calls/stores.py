#!/usr/bin/env python3
"""Served clusters whose stores fail: a read, a write, a change of length or a flush of a file, once or for good, each in its turn: tests/failing_calls/stores.py [COUNT [SEED]]

At the start, over an empty folder, one with a record, and one whose record stands as one text, which a start moves, each such call fails for good, and one in three once: the server ends with K1 and status 3, or serves. Then another one is started on
the folder: its run is above each that was told, and where there was a record it is still there, so that a smaller total is refused with Z1. And in the middle: of the
calls from a task's ACCEPT to its end COUNT (12) fail, spread over all, once and for good; SEED (1) moves them. The task is told to run and to have finished, once
each, or it is told lost and nothing else; then all that the agent owns is offered. A server whose store fails for good ends with K1, and one that is started again
on the folder goes on from there. With --keep-serving the calls fail from one on for OUTAGE seconds and then succeed again: the server goes on, and tells at most once that the record can't be saved,
and at most once that it is saved again. A C compiler is asked for. It prints what it checked, and ends within a minute.
"""
import collections
import concurrent.futures
import random
import subprocess
import sys
import tempfile
import time

from failing import SECONDS, Control
from task import AT_ONCE, OWNS, Job, goes_on, run
from cluster import PROGRAM, Folder, Server, check, free_port, run_serve
from store_files import FIRST_KEPT, FIRST_TABLES, RECORD_KEPT, SECOND_KEPT, SECOND_TABLES, TABLES, made, run_kept

FAULT = "K1 Store "
BEGUN, OVER = "agent a1 can't be saved, and is tried again each second: K1 Store ", "agent a1 is saved again\n"
OUTAGE = 3
# What a folder has at a start: the statements of the agent's store, and of the master's.
FOLDERS = {
    "an empty folder": None,
    "a record": (RECORD_KEPT, run_kept(1, TABLES)),
    "a record with its total in the head": (SECOND_KEPT, run_kept(1, SECOND_TABLES)),
    "a record of one text": (FIRST_KEPT, run_kept(1, FIRST_TABLES)),
}


def words(folder, port):
    return [PROGRAM, "serve", "--port", str(port), "--agents", folder.agents, "--state", folder.state]


def start(folder, control):
    """A server is started under fail.c, and killed as soon as it serves. Its run, or None where a store failed."""
    process = subprocess.Popen(words(folder, free_port()), stdin=subprocess.DEVNULL, stdout=subprocess.PIPE, stderr=subprocess.PIPE, env=control.environment)
    line = process.stderr.readline().decode()
    while line.endswith("starts fresh\n"):
        line = process.stderr.readline().decode()
    if line.startswith("run "):
        process.kill()
        process.communicate(timeout=SECONDS)
        return int(line.split()[1])
    out, err = process.communicate(timeout=SECONDS)
    check((process.returncode, out, err) == (3, b"", b"") and line.startswith(FAULT), f"a start ends with {process.returncode}, and tells {line!r} {err!r}")
    return None


def check_record(folder):
    """The record, whose agent owns two cpus, is refused where it is to own one."""
    folder.write({"agents": {"a1": {"cpus": 1}}})
    status, out, err = run_serve(folder)
    check((status, out) == (2, "") and err.startswith("Z1 TotalDiffers: a1"), f"the record is there: {status} {err!r}")
    folder.write({"agents": {"a1": OWNS}})


def next_run(folder, last):
    """The run of a server that is started on the folder, which is above the last one that was told."""
    with Server(folder) as server:
        given = int(server.said.split()[1])
    check(given > last, f"run {last} was told, and then run {given}")
    return given


def try_start(kept, control, number, rest):
    """What comes of a start whose call of this number fails, once or for good. None where no such call is made."""
    with Folder({"a1": OWNS}) as folder:
        if kept:
            made(f"{folder.state}/agent-a1.db", kept[0])
            made(f"{folder.state}/master.db", kept[1])
        control.arm(Control.FILES, number, rest=rest, scope=Control.ALL)
        run_told = start(folder, control)
        _, failed = control.disarm()
        if kept:
            check_record(folder)
        next_run(folder, run_told or int(kept is not None))
    return ("served" if run_told else "K1") if failed else None


def try_starts(work, name, rest):
    """Calls at the start fail in turn, each for good, and one in three once, until a start has no such call."""
    control, tally = Control(work, f"control-{name.replace(' ', '_')}-{rest}"), collections.Counter()
    for number in range(1, 1000, 1 if rest else 3):
        came = try_start(FOLDERS[name], control, number, rest)
        if came is None:
            return tally
        tally[came] += 1
    raise SystemExit("failed: a start makes a thousand calls on files")


def try_task(work, number, rest):
    """What comes of a task where this call fails. A server that ends tells whose record it was."""
    outcome = run(work, f"control-{number}-{rest}", Control.FILES, number, rest)
    if outcome.said:
        status, out, err = outcome.said
        *told, last = err.splitlines(keepends=True) or [""]
        check(all(line.startswith("agent a1 can't be saved, ") or line == "agent a1 is saved again\n" for line in told), f"a server told before it ended: {outcome.said}")
        check(rest and (status, out) == (3, "") and last.startswith(FAULT) and last.endswith(": the record of a1\n"), f"a server ends: {outcome.said}")
    check(outcome.stands or outcome.said, "the master is up where a store fails")
    if not outcome.failed:
        return "not reached"
    return ", ".join(outcome.ways + ["the server ended"] * (outcome.said is not None))


def try_outage(work, number):
    """What comes of a task where the calls from this one on fail for a while, and the server is to keep serving."""
    control, job = Control(work, f"control-{number}-outage"), Job()
    with Folder({"a1": OWNS}) as folder, Server(folder, "--keep-serving", "--task-seconds", "1", env=control.environment) as server:
        job.subscribe(server.port)
        check(goes_on(job, server, job.offers_all), "all is offered at the start")
        control.arm(Control.FILES, number, rest=True, scope=Control.OTHERS)
        job.accept()
        end = time.monotonic() + OUTAGE
        check(goes_on(job, server, lambda: time.monotonic() > end), "a server that keeps serving goes on while a store fails")
        _, failed = control.disarm()
        check(goes_on(job, server, job.is_settled), "and its agent does once that works again")
        server.kill()
        told = server.process.stderr.read().decode().splitlines(keepends=True)
    # (where nothing was saved again before the server was killed, that isn't told)
    check(not told or (failed and told[0].startswith(BEGUN) and told[1:] in ([], [OVER])), f"it is told once, and once that it is over: {told}")
    return "not reached" if not failed else "the task ran" if job.told else "it was lost"


def main():
    count, seed = [int(it) for it in sys.argv[1:]] + [12, 1][len(sys.argv) - 1 :]
    offset = random.Random(seed).random()
    with tempfile.TemporaryDirectory() as work, concurrent.futures.ThreadPoolExecutor(AT_ONCE) as pool:
        ample = run(work, "control", Control.FILES, 0)
        check(ample.stands and ample.ways == ["the task ran"], f"with a store that doesn't fail: {ample.ways}")
        numbers = sorted({1 + int((i + offset) * ample.count / count) for i in range(count)})
        starts = {(name, rest): pool.submit(try_starts, work, name, rest) for name in FOLDERS for rest in (False, True)}
        for (name, rest), tally in starts.items():
            told = ", ".join(f"{it} {n}" for it, n in sorted(tally.result().items()))
            print(f"a start over {name}, a call failing {'for good' if rest else 'once'}: {told}")
        for rest in (False, True):
            tally = collections.Counter(pool.map(lambda number: try_task(work, number, rest), numbers))
            told = "; ".join(f"{it} {n}" for it, n in sorted(tally.items()))
            print(f"a task, {len(numbers)} of some {ample.count} calls failing {'for good' if rest else 'once'} (seed {seed}): {told}")
        tally = collections.Counter(pool.map(lambda number: try_outage(work, number), numbers))
        told = "; ".join(f"{it} {n}" for it, n in sorted(tally.items()))
        print(f"a task with --keep-serving, {len(numbers)} of these calls failing with all behind them for {OUTAGE} seconds: {told}")


if __name__ == "__main__":
    sys.exit(main())
