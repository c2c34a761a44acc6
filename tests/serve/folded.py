#!/usr/bin/env python3
"""The write-ahead files of a folder's stores stay short: 1,250 saves leave one of bounded size, and a start cuts each to its header. What was kept stays."""
import glob
import os
import socket

from cluster import Folder, Framework, Server, check, free_port, run_serve

TASKS = 250
# With so many frames a write-ahead file is copied into its database before the next transaction. Each has a page of 4,096 bytes and a head of 24; beside them stand the frames
# of one transaction more, and zeros of 256 KiB.
FRAMES, PAGE, REST = 1_000, 4_096 + 24, 1 << 20
HEADER = 41


def logs(folder):
    """The size of each write-ahead file of a folder, by its name."""
    return {os.path.basename(path): os.path.getsize(path) for path in glob.glob(os.path.join(folder.state, "*-wal"))}


def run_tasks(framework):
    """Each task is launched, runs and is finished, and both states are acknowledged: five saves. That makes 1,250."""
    framework.accept(framework.next_offer({"cpus": TASKS}), [(f"t{number}", {"cpus": 1}) for number in range(TASKS)])
    told = {}
    while sum(state == "TASK_FINISHED" for state in told.values()) < TASKS:
        update = framework.next("UPDATE", seconds=60)
        check(update, f"an update comes, beside {len(told)}")
        framework.acknowledge(update)
        told[update["update"]["status"]["task_id"]["value"]] = update["update"]["status"]["state"]


def start_in_vain(folder):
    """A server that opens the folder, and then finds its port in use."""
    with socket.socket() as taken:
        taken.bind(("127.0.0.1", 0))
        taken.listen()
        status, out, err = run_serve(folder, port=taken.getsockname()[1])
    check((status, out) == (3, "") and err.startswith("Z2 DeviceFault: port "), f"a port in use is told: {status} {out} {err}")


def main():
    with Folder({"a1": {"cpus": TASKS}}) as folder:
        with Server(folder, "--task-seconds", "1", port=free_port()) as server:
            framework = Framework(server.port)
            run_tasks(framework)
            long = logs(folder)
            server.kill()
        check(set(long) == {"master.db-wal", "agent-a1.db-wal"}, f"each store has a write-ahead file: {long}")
        check(max(long.values()) <= FRAMES * PAGE + REST, f"none is long: {long}")
        start_in_vain(folder)
        short = logs(folder)
        check(all(size <= HEADER for size in short.values()), f"a start cuts each to its header: {short}")
        with Server(folder, "--task-seconds", "0") as server:
            check("run 3 serves" in server.said, f"the next run is 3: {server.said}")
            Framework(server.port, framework=framework.id).next_offer({"cpus": TASKS})
        print(f"1,250 saves left write-ahead files of {max(long.values())} bytes at most, and a start left {max(short.values())}; what was kept stayed")


main()
