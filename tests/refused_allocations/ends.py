#!/usr/bin/env python3
"""Runs worked histories by the built `test_tables` with each of its allocations refused in turn, and compares how each run ends.

A step that is refused memory is marked there, the part that it made fall comes up again by a stop, and the history goes on. So the table at its end must be that of the
same history without the marked step, as the replayer has it: a step that was refused is left out, one that made its part fall is replaced by the stop that brought the part
up again, and a stop of the master in which the new one fell counts as taken before that. The table's entries must be as many, with each step that made a part fall for
one more. Where memory is refused to anything but a step, as to read a line, a run prints nothing, and ends with the status 3 and a message that tells of memory.

Of both kinds of marks, of agents and of masters that fell there must be some. A C compiler is asked for. It prints what it checked, and ends within two minutes. PROGRAM=..
and REPLAY=.. name other programs than crates/test_tables/out/test_tables and crates/mesos_node/out/mesos_node.
"""

import collections
import json
import os
import re
import subprocess
import sys
import tempfile

HERE = os.path.dirname(os.path.abspath(__file__))
HISTORIES = f"{HERE}/../histories"
PROGRAM = os.environ.get("PROGRAM", f"{HERE}/../../crates/test_tables/out/test_tables")
REPLAY = os.environ.get("REPLAY", f"{HERE}/../../crates/mesos_node/out/mesos_node")
NAMES = ("first_offer", "what_is_left", "a_launch", "stopped_after_its_save", "stopped_before_its_save", "torn_down", "a_task_over_two_runs")
STOP_MASTER = b'{"step":"stop_master"}'


def run(shim, given, refuse, count_to="/dev/null"):
    how = dict(os.environ, LD_PRELOAD=shim, REFUSE=str(refuse), COUNT_TO=count_to)
    return subprocess.run([PROGRAM], input=b"history\n" + given, capture_output=True, env=how, timeout=20)


def replayed(lines):
    """What a replay of lines with ample memory writes."""
    ran = subprocess.run([REPLAY, "replay"], input=b"\n".join(lines), capture_output=True, timeout=20)
    assert ran.returncode == 0 and not ran.stderr, ran
    return ran.stdout


def end_of(out):
    """The lines of agents and tasks at the end, and the number of entries."""
    entries = int(re.search(rb"^entries (\d+)$", out, re.M)[1])
    return re.findall(rb"^(?:agent|task) .*$", out, re.M), entries


def marks_of(out):
    """The number of each marked line, from 1, and how it was refused."""
    return [(int(line), how.decode()) for line, how in re.findall(rb"^marked (\d+) (refused|fell)$", out, re.M)]


def recovery(line):
    """The step that brings the part up again that a step made fall, and the name of the part."""
    step = json.loads(line)
    if step["step"] != "prepare":
        return STOP_MASTER, "a master"
    return json.dumps({"step": "stop_agent", "agent": step["agent"], "keep": "before"}).encode(), "an agent"


def renumbered(line, above, more):
    """A line whose mail has a number so much higher, if that lies above a bound."""
    step = json.loads(line)
    if step.get("mail", 0) <= above:
        return line
    return json.dumps(dict(step, mail=step["mail"] + more)).encode()


def stopped_twice(lines, index):
    """The history in which a stop of the master counts as taken before the one that brings a master up again. The first one's mails have numbers too."""
    before, behind = lines[:index], lines[index + 1 :]
    sent = len(re.findall(rb"^# ", replayed(before), re.M))
    agents = len(json.loads(lines[0])["agents"])
    return [*before, STOP_MASTER, STOP_MASTER, *(renumbered(line, sent, agents) for line in behind)]


def without(lines, mark):
    """The history without the marked step, by how much its entries may be fewer, and what was refused."""
    number, how = mark
    index = number - 1
    if how == "refused":
        return [*lines[:index], *lines[index + 1 :]], 0, "a step"
    stop, part = recovery(lines[index])
    if json.loads(lines[index])["step"] == "stop_master":
        return stopped_twice(lines, index), 0, "a new master"
    return [*lines[:index], stop, *lines[index + 1 :]], 1, part


class History:
    """A worked history, with the table at its end; what is due without a marked step is replayed once."""

    def __init__(self, name):
        with open(f"{HISTORIES}/{name}.in", "rb") as given, open(f"{HISTORIES}/{name}.out", "rb") as due:
            self.given, self.due = given.read(), end_of(due.read())
        self.lines, self.dues = self.given.splitlines(), {}

    def due_without(self, mark):
        if mark not in self.dues:
            lines, fewer, what = without(self.lines, mark)
            table, entries = end_of(replayed(lines))
            self.dues[mark] = (table, entries + fewer), what
        return self.dues[mark]

    def check(self, ran):
        """What was refused memory in a run, which must end as is due then."""
        if ran.returncode == 3:
            assert not ran.stdout and b"memory" in ran.stderr.lower(), ran
            return "no step"
        assert ran.returncode == 0 and not ran.stderr, ran
        marks = marks_of(ran.stdout)
        if not marks:
            assert end_of(ran.stdout) == self.due, ran
            return "nothing"
        assert len(marks) == 1, ran
        due, what = self.due_without(marks[0])
        assert end_of(ran.stdout) == due, (due, ran)
        return what


def sweep(shim, name):
    history = History(name)
    with tempfile.NamedTemporaryFile() as count:
        assert history.check(run(shim, history.given, 0, count.name)) == "nothing"
        total = int(count.read())
    told = collections.Counter(history.check(run(shim, history.given, n)) for n in range(1, total + 1))
    print(f"{name}: {total} allocations refused in turn, to {', '.join(f'{what} in {n}' for what, n in sorted(told.items()))}; {len(history.dues)} ends compared")
    return told


def main():
    with tempfile.TemporaryDirectory() as work:
        shim = f"{work}/refuse.so"
        subprocess.run([os.environ.get("CC", "cc"), "-O1", "-shared", "-fPIC", "-o", shim, f"{HERE}/refuse.c", "-ldl"], check=True)
        told = sum((sweep(shim, name) for name in NAMES), collections.Counter())
    for what in ("a step", "an agent", "a master", "a new master"):
        assert told[what], (what, told)
    print(f"{sum(told.values())} runs of {len(NAMES)} histories end as is due: memory was refused to {', '.join(f'{what} in {n}' for what, n in sorted(told.items()))}")


if __name__ == "__main__":
    sys.exit(main())
