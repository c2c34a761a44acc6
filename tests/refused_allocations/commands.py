#!/usr/bin/env python3
"""Runs the built program's `calls` and `replay` with each of their allocations refused in turn, and the test of an agent that falls.

What is written must be a beginning of what is due, the status 3 where something is lacking, and the message must tell of memory. A `replay` ends behind all that
the lines before the refused one bring out, and tells that one's number: so it does where a part falls in mid-step, too. The histories are a first offer, the launch of two
tasks with the offer of what is left, an agent that is stopped behind a save and before it, and others. A program that has no memory at all passes none of them
(tests/histories/run). In one run of the test at least an agent must fall, and be down until it is stopped. A C compiler is asked for. It prints what it checked, and
ends within two minutes. PROGRAM=.. and TESTS=.. name other programs than crates/mesos_node/out/mesos_node and crates/all_tests/out/all_tests_tests.
"""

import os
import re
import subprocess
import sys
import tempfile

HERE = os.path.dirname(os.path.abspath(__file__))
HISTORIES = f"{HERE}/../histories"
PROGRAM = os.environ.get("PROGRAM", f"{HERE}/../../crates/mesos_node/out/mesos_node")
TESTS = os.environ.get("TESTS", f"{HERE}/../../crates/all_tests/out/all_tests_tests")
FALLS = "of_cluster_tests::an_agent_that_fell_is_down"
REPLAYED = ("first_offer", "what_is_left", "stopped_after_its_save", "stopped_before_its_save", "a_launch", "torn_down", "mails_of_other_sessions")


def run(shim, words, given, refuse, count_to="/dev/null"):
    how = dict(os.environ, LD_PRELOAD=shim, REFUSE=str(refuse), COUNT_TO=count_to)
    return subprocess.run(words, input=given, capture_output=True, env=how, timeout=20)


def allocations(shim, words, given):
    """How many allocations a run with ample memory makes, and what it writes."""
    with tempfile.NamedTemporaryFile() as count:
        ran = run(shim, words, given, 0, count.name)
        return int(count.read()), ran


def answered(out):
    """How many lines of a replay's input are answered in what it wrote: the configuration, and each numbered step."""
    return len(re.findall(rb"^\d+ ", out, re.M))


def start_of(due, line):
    """Where the answer to a line begins in what is due: the configuration is line 1 and has the number 0, and behind the last line stands the end table."""
    starts = [it.start() for it in re.finditer(rb"^\d+ ", due, re.M)]
    return starts[line - 1] if line <= len(starts) else re.search(rb"^agent ", due, re.M).start()


def check_line(given, due, out, said):
    """The number of the line whose memory was refused: all that the lines before it bring out is written, and it isn't answered."""
    line = int(re.fullmatch(rb"(\d+) C9 OutOfMemory\n", said)[1])
    lines = given.count(b"\n")
    assert 1 <= line <= lines + 1, line
    assert answered(out) == line - 1, (line, out)
    start = start_of(due, line)
    assert out == due[:start] if line <= lines else len(out) >= start, (line, out)


def check_refused(command, given, due, ran):
    """Whether a run was refused memory, and stopped as it should."""
    assert ran.returncode in (0, 3), ran
    if ran.returncode == 0:
        assert ran.stdout == due and not ran.stderr, ran
        return False
    assert due.startswith(ran.stdout), ran
    if ran.stderr.endswith(b" C9 OutOfMemory\n"):
        check_line(given, due, ran.stdout, ran.stderr)
    elif command == "calls" and re.fullmatch(rb"(F4|J10|M5) OutOfMemory\n", ran.stderr):
        pass
    else:
        # (memory was refused before the command was known)
        assert not ran.stdout and b"memory" in ran.stderr.lower(), ran
    return True


def sweep_command(shim, command, name):
    with open(f"{HISTORIES}/{name}.in", "rb") as given, open(f"{HISTORIES}/{name}.out", "rb") as due:
        given, due = given.read(), due.read()
    words = [PROGRAM, command]
    total, ample = allocations(shim, words, given)
    assert (ample.returncode, ample.stdout, ample.stderr) == (0, due, b""), ample
    refused = sum(check_refused(command, given, due, run(shim, words, given, n)) for n in range(1, total + 1))
    assert refused, f"{command} needed none of its {total} allocations"
    print(f"{command} over {name}: {total} allocations refused in turn, {refused} runs stopped for it")


def check_gives_up(shim, work):
    """A program to which all memory is refused gives up, and passes no history."""
    program = f"{work}/gives_up"
    with open(program, "w", encoding="ascii") as it:
        it.write(f"#!/bin/sh\nexec env LD_PRELOAD={shim} REFUSE=1 REFUSE_REST=1 {os.path.realpath(PROGRAM)} \"$@\"\n")
    os.chmod(program, 0o700)
    names = ("calls_subscribe", *REPLAYED)
    ran = subprocess.run([f"{HISTORIES}/run", *names], capture_output=True, env=dict(os.environ, PROGRAM=program), timeout=60)
    assert ran.returncode == 1 and ran.stdout.endswith(b"\n0 passed, %d failed\n" % len(names)), ran
    print(f"a program without memory passes none of {len(names)} histories")


def sweep_fall(shim):
    words = [TESTS, FALLS]
    total, ample = allocations(shim, words, b"")
    assert ample.returncode == 0 and b"an agent fell" not in ample.stdout, ample
    ran = [run(shim, words, b"", n) for n in range(1, total + 1)]
    fell = [it for it in ran if b"an agent fell" in it.stdout]
    assert fell and all(it.returncode == 0 for it in fell), (total, fell)
    print(f"an agent fell in {len(fell)} of {total} runs, and was down until it was stopped")


def main():
    with tempfile.TemporaryDirectory() as work:
        shim = f"{work}/refuse.so"
        compiler = os.environ.get("CC", "cc")
        subprocess.run([compiler, "-O1", "-shared", "-fPIC", "-o", shim, f"{HERE}/refuse.c", "-ldl"], check=True)
        sweep_command(shim, "calls", "calls_subscribe")
        for name in REPLAYED:
            sweep_command(shim, "replay", name)
        check_gives_up(shim, work)
        sweep_fall(shim)


if __name__ == "__main__":
    sys.exit(main())
