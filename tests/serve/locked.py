#!/usr/bin/env python3
"""A folder has one server: a second one ends at once, however slowly either starts, and nothing is promised twice.

The first server is held for some seconds between the load of its folder and its first thread: by strace where it may trace, and else by a library of the test's own,
for which a C compiler is asked. Meanwhile a second one starts on the folder, and has to end with K1 and a line that says that a server uses it. The first goes on, and
offers all that its agents own, once. A server that is killed while it is held leaves the folder to the next, as does one that is killed while it serves: what a
task holds is then not offered. Each store is locked, so sqlite3 can't open one either. An agent's store that another program writes between its load and the
agent's first step isn't saved over: the server ends with K2, or goes on without that agent.
"""
import os
import shutil
import sqlite3
import subprocess
import sys
import time
from contextlib import closing

from cluster import PROGRAM, Folder, Framework, Server, amounts, check, free_port, run_serve

AGENTS = {"a1": {"cpus": 2}, "a2": {"cpus": 3}}
HELD = 4
SHIM = """
#define _GNU_SOURCE
#include <dlfcn.h>
#include <pthread.h>
#include <unistd.h>
typedef int create(pthread_t *, const pthread_attr_t *, void *(*)(void *), void *);
int pthread_create(pthread_t *a, const pthread_attr_t *b, void *(*c)(void *), void *d) {
    static int was_held;
    if (!was_held) { was_held = 1; sleep(%d); }
    return ((create *)dlsym(RTLD_NEXT, "pthread_create"))(a, b, c, d);
}
"""


def strace_words():
    """The words by which strace holds a program at its first thread, or none where it is not there or may not trace."""
    words = ["strace", "-f", "-qq", "-o", "/dev/null", "-e", "trace=clone,clone3", "-e", f"inject=clone,clone3:delay_enter={HELD}s:when=1"]
    if not shutil.which("strace") or subprocess.run(["strace", "-o", "/dev/null", "true"], capture_output=True).returncode:
        return None
    return words


def is_gone(pid):
    """Whether a process has ended, and holds no lock any more; its parent may not know yet."""
    try:
        with open(f"/proc/{pid}/stat", encoding="utf-8") as it:
            return it.read().rpartition(")")[2].split()[0] in "ZX"
    except FileNotFoundError:
        return True


class Held:
    """A server that is held between the load of its folder and its first thread."""

    def __init__(self, folder, *options):
        self.port, env, words = free_port(), dict(os.environ), strace_words()
        if words is None:
            words, library = [], os.path.join(folder.path, "hold.so")
            subprocess.run(["cc", "-x", "c", "-shared", "-fPIC", "-o", library, "-", "-ldl"], input=SHIM % HELD, text=True, check=True)
            env["LD_PRELOAD"] = library
        serve = [PROGRAM, "serve", "--port", str(self.port), "--agents", folder.agents, "--state", folder.state, *options]
        self.process = subprocess.Popen([*words, *serve], env=env, stdin=subprocess.DEVNULL, stdout=subprocess.DEVNULL, stderr=subprocess.PIPE)
        self.said = self.process.stderr.readline().decode().strip()
        check("serves at" in self.said, f"the server that is held says: {self.said}")

    def kill(self):
        """Kills the server, and what holds it."""
        rows = subprocess.run(["ps", "-eo", "pid=,ppid="], capture_output=True, text=True, check=True).stdout.split("\n")
        below = [int(row.split()[0]) for row in rows if row.split()[1:] == [str(self.process.pid)]]
        for pid in [*below, self.process.pid]:
            subprocess.run(["kill", "-9", str(pid)], check=False, stderr=subprocess.DEVNULL)
        self.process.wait()
        end = time.monotonic() + 10
        while not all(is_gone(pid) for pid in below) and time.monotonic() < end:
            time.sleep(0.05)

    def __enter__(self):
        return self

    def __exit__(self, *_):
        self.kill()


def check_refused(folder, when):
    began = time.monotonic()
    status, out, err = run_serve(folder)
    check(status == 3 and out == "", f"{when} a second server ends with {status}: {out}{err}")
    lines = err.splitlines()
    check(lines[0].startswith("K1 Store ") and lines[0].endswith("master.db"), f"{when} it says {lines}")
    check(lines[1:] == ["another server uses the folder, or another program this store"], f"{when} it says {lines}")
    check(time.monotonic() - began < 2, f"{when} it ends at once")


def check_locked(folder):
    for name in ("master", "agent-a1", "agent-a2"):
        with closing(sqlite3.connect(os.path.join(folder.state, f"{name}.db"), timeout=0)) as it:
            try:
                it.execute("SELECT count(*) FROM sqlite_schema").fetchall()
                check(False, f"sqlite3 reads {name}.db while a server uses it")
            except sqlite3.OperationalError as fault:
                check("locked" in str(fault), f"sqlite3 is refused {name}.db: {fault}")


def offered(framework, count):
    """The cpus of the next offers, so many, by agent."""
    found = {}
    while len(found) < count:
        event = framework.next("OFFERS")
        check(event, f"{count} offers come, beside {found}")
        for offer in event["offers"]["offers"]:
            name = offer["agent_id"]["value"]
            check(name not in found, f"{name} is offered once")
            found[name] = offer
    return found


def try_held(folder):
    """A second server while the first is held: it ends, and the first goes on."""
    with Held(folder) as first:
        check_refused(folder, "while the first is held")
        framework = Framework(first.port)
        offers = offered(framework, 2)
        check({name: amounts(it["resources"])["cpus"] for name, it in offers.items()} == {"a1": 2, "a2": 3}, f"all is offered once: {offers}")
        framework.accept(offers["a1"], [("t1", {"cpus": 2})])
        check(framework.next_state() == "TASK_RUNNING", "t1 runs")
        check_refused(folder, "while the first serves")
        check_locked(folder)
        return framework.id


def try_after(folder, framework):
    """A server that is killed while it is held, and one behind it: what the task of before holds isn't offered."""
    with Held(folder) as held:
        check_refused(folder, "while one is held behind a kill")
        held.kill()
        with Server(folder, "--task-seconds", "0") as server:
            check("run 3 serves" in server.said, f"the next run is 3: {server.said}")
            again = Framework(server.port, framework=framework)
            offers = offered(again, 1)
            check(list(offers) == ["a2"], f"a1's cpus are t1's, and aren't offered: {offers}")
            check(not again.next("OFFERS", seconds=3), "nothing more is offered")


def change(folder, agent):
    """Another program writes an agent's store, which keeps another record then."""
    with closing(sqlite3.connect(os.path.join(folder.state, f"agent-{agent}.db"), timeout=0)) as it:
        changed = it.execute("UPDATE agent_head SET session = session + 1").rowcount
        it.commit()
    check(changed == 1, f"{agent}'s store keeps a record")


def try_changed(folder):
    """A store that another program writes while a server is held isn't saved over."""
    with Held(folder) as held:
        change(folder, "a1")
        status = held.process.wait(timeout=HELD + 10)
        said = held.process.stderr.read().decode().splitlines()
        check(status == 3 and "K2 Damaged: the record of a1" in said, f"it ends with {status}: {said}")
    with Held(folder, "--keep-serving") as held:
        change(folder, "a1")
        said = held.process.stderr.readline().decode().strip()
        check(said == "K2 Damaged: the record of a1, which is down from now on", f"it says {said}")
        framework = Framework(held.port)
        check(list(offered(framework, 1)) == ["a2"], "the other agent is offered")


def main():
    with Folder(AGENTS) as folder:
        try_after(folder, try_held(folder))
        try_changed(folder)
        how = "strace" if strace_words() else "a library of the test's own"
        print(f"three servers ended at once with K1, while another on their folder was held by {how} before its first thread, or served; nothing was offered twice, and a store that had changed meanwhile wasn't saved over")


if __name__ == "__main__":
    sys.exit(main())
