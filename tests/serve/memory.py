#!/usr/bin/env python3
"""With --memory the server ends once it has so many MiB: it says so, its status is 3, and its streams end. Started again, it goes on from its records. Without memory to spare for
a limit that is below what a server has at its start, it ends at once."""
import json
import os
import time

from cluster import Folder, Framework, Server, check, request, send_raw

PAGE = os.sysconf("SC_PAGE_SIZE")
MORE = 24
ACCEPTED = b"HTTP/1.1 202 Accepted\r\nContent-Length: 0\r\n\r\n"


def mebibytes(server):
    with open(f"/proc/{server.process.pid}/statm", encoding="ascii") as it:
        return int(it.read().split()[1]) * PAGE >> 20


def fill(server, framework, seconds):
    """Has the history grow by questions for tasks that there aren't, until the server is gone."""
    tasks = [{"task_id": {"value": f"no-{number}"}} for number in range(256)]
    body = {"type": "RECONCILE", "framework_id": {"value": framework.id}, "reconcile": {"tasks": tasks}}
    call = request(json.dumps(body).encode(), "Connection: close", f"Mesos-Stream-Id: {framework.stream}")
    end = time.monotonic() + seconds
    while server.process.poll() is None and time.monotonic() < end:
        try:
            answer = send_raw(server.port, call)
        except OSError:
            answer = b""
        check(answer in (b"", ACCEPTED), f"it is answered until the server ends: {answer!r}")


def ended(server, limit):
    """What is seen of a server that ends by its limit."""
    out, err = server.process.communicate(timeout=10)
    check(server.process.returncode == 3, f"its status is 3: {server.process.returncode}")
    due = f"H8 OutOfMemory: the server has the {limit} MiB that --memory allows\n"
    check((out, err.decode()) == (b"", due), f"it says that it has so much, and no more: {out!r} {err!r}")


def main():
    with Folder({"a1": {"cpus": 2}}) as folder:
        with Server(folder) as server:
            limit = mebibytes(server) + MORE
        with Server(folder, "--memory", str(limit)) as server:
            framework = Framework(server.port)
            offer = framework.next_offer({"cpus": 2})
            framework.accept(offer, [("t1", {"cpus": 1})], 86_400)
            check(framework.next_state() == "TASK_RUNNING", "a task runs")
            fill(server, framework, 40)
            ended(server, limit)
            check(framework.ends(), "its stream ends by its last chunk")
        with Server(folder, "--memory", str(limit)) as server:
            framework = Framework(server.port)
            framework.next_offer({"cpus": 1})
        with Server(folder, "--memory", "1") as server:
            ended(server, 1)
    print(f"a server ended by H8 with {limit} MiB, {MORE} more than at its start, and its task held its part of the agent when it was started again; with a limit of 1 it ended at once")


main()
