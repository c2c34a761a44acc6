#!/usr/bin/env python3
"""An agent's record that can't be saved: for a while, which is told once when it begins and once when it is over, and then for good, where its store can't be opened
again either. A disk that is full is told so too, where a small one can be mounted."""
import os
import resource
import select
import subprocess
import time

from cluster import Folder, Framework, Server, check, tell

BEGUN, OVER = "agent a1 can't be saved, and is tried again each second: K1 Store ", "agent a1 is saved again\n"


def set_limit(server, size):
    """Lets the server write its files up to this size alone."""
    resource.prlimit(server.process.pid, resource.RLIMIT_FSIZE, (size, resource.RLIM_INFINITY))


def said(server, seconds):
    """The next line on standard error, which is "" where none comes in time."""
    if not select.select([server.process.stderr], [], [], seconds)[0]:
        return ""
    return server.process.stderr.readline().decode()


def check_begun(server, seconds=10):
    line = said(server, seconds)
    check(line.startswith(BEGUN), f"that saves fail is told: {line!r}")


def check_over(server):
    line = said(server, 10)
    check(line == OVER, f"that saves go on is told: {line!r}")
    check(said(server, 2) == "", "and no more")


def fail_for_a_while(server, framework):
    offer = framework.next_offer({"cpus": 2})
    set_limit(server, 0)
    framework.accept(offer, [("t0", {"cpus": 2})])
    check(framework.next("UPDATE", seconds=4) is None and not framework.ends(seconds=0), "a task whose record can't be saved isn't told of")
    check_begun(server)
    check(said(server, 2) == "", "it is told once, however often it is tried")
    set_limit(server, resource.RLIM_INFINITY)
    state = framework.next_state()
    check(state == "TASK_LOST", f"t0, which no record has, is {state}")
    check_over(server)
    framework.accept(framework.next_offer({"cpus": 2}), [("t1", {"cpus": 1})])
    state = framework.next_state()
    check(state == "TASK_RUNNING", f"t1 is {state}")


def fail_for_good(folder, server, framework):
    offer = framework.next_offer({"cpus": 1})
    set_limit(server, 0)
    os.rename(folder.state, folder.state + "-")
    framework.accept(offer, [("t2", {"cpus": 1})])
    check(framework.ends(), "the stream ends where a store can't be opened again")
    out, err = server.process.communicate(timeout=15)
    tell("a store that can't be opened again", (server.process.returncode, out.decode(), err.decode()), 3, "K1 Store ")
    check(err.decode().endswith(": the record of a1\n"), f"whose record it is: {err.decode()!r}")
    os.rename(folder.state + "-", folder.state)


def fill(path):
    """Fills the disk of a folder."""
    with open(os.path.join(path, "filling"), "wb", buffering=0) as it:
        for size in (65_536, 4_096, 1):
            try:
                while it.write(bytes(size)) == size:
                    pass
            except OSError:
                pass


def launch_until_full(server, framework):
    """Launches tasks, each of which takes a few saves, until one can't be saved."""
    for number in range(400):
        event = framework.next("OFFERS", seconds=2)
        if event:
            (offer,) = event["offers"]["offers"]
            framework.accept(offer, [(f"f{number}", {"cpus": 1})])
        line = said(server, 0)
        if line:
            check(line.startswith(BEGUN), f"a full disk is told: {line!r}")
            return
        while update := framework.next("UPDATE", seconds=0.2):
            framework.acknowledge(update)
    check(False, "a full disk is noticed")


def try_full_disk(folder):
    """Where a small disk can be mounted: once it is full that is told, and that it isn't any more."""
    mount = ["mount", "-t", "tmpfs", "-o", "size=4m", "tmpfs", folder.state]
    if os.geteuid() != 0 or subprocess.run(mount, capture_output=True, check=False).returncode:
        return "a full disk was left out: it takes root and a mount"
    try:
        with Server(folder, "--task-seconds", "1") as server:
            framework = Framework(server.port)
            fill(folder.state)
            launch_until_full(server, framework)
            check(server.process.poll() is None, "the server goes on")
            os.remove(os.path.join(folder.state, "filling"))
            check(said(server, 10) == OVER, "that the disk has room again is told")
    finally:
        subprocess.run(["umount", "-l", folder.state], check=True)
    return "a full disk was told once, and once it had room again"


def main():
    with Folder({"a1": {"cpus": 2}}) as folder:
        with Server(folder, "--task-seconds", "0") as server:
            framework = Framework(server.port)
            fail_for_a_while(server, framework)
            fail_for_good(folder, server, framework)
        with Server(folder, "--task-seconds", "0") as server:
            Framework(server.port, framework=framework.id).next_offer({"cpus": 1})
    with Folder({"a1": {"cpus": 2}}) as folder:
        full = try_full_disk(folder)
        print(f"that an agent couldn't be saved was told once, and that it was saved again; {full}")
        print("a task whose record couldn't be saved was told lost, and its resources offered again, once saves went on")
        print("a store that couldn't be opened again ended the server with status 3 and one line; t1, which was saved before, has its cpu after a new start")


main()
