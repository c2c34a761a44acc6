#!/usr/bin/env python3
"""101,000 calls of one framework on one connection, one behind another without waiting: each is answered 202, and then the framework is offered the agent, runs a task on it, and tears itself
down. So more calls and mails are sent than any small number of them would hide."""
import json
import socket
import threading
import time

from cluster import Folder, Framework, Server, check, request

CALLS, AT_ONCE = 101_000, 1_000
ACCEPTED = b"HTTP/1.1 202 Accepted\r\n"


def send_all(it, call):
    """The same call again and again, so many of them in a write."""
    for _ in range(CALLS // AT_ONCE):
        it.sendall(call * AT_ONCE)


def count_answers(it):
    """How many are accepted, of as many answers as calls; the connection stays."""
    left, accepted, rest = CALLS, 0, b""
    while left:
        piece = it.recv(1 << 20)
        check(piece, f"{CALLS - left} calls were answered, and the connection ended")
        heads = (rest + piece).split(b"\r\n\r\n")
        rest = heads.pop()
        accepted += sum(head.startswith(ACCEPTED[:-2]) for head in heads)
        left -= len(heads)
    return accepted


def main():
    with Folder({"a1": {"cpus": 1}}) as folder, Server(folder, "--task-seconds", "1") as server:
        framework = Framework(server.port)
        framework.next_offer({"cpus": 1})
        body = json.dumps({"type": "SUPPRESS", "framework_id": {"value": framework.id}}).encode()
        call = request(body, f"Mesos-Stream-Id: {framework.stream}")
        began = time.monotonic()
        with socket.create_connection(("127.0.0.1", server.port), 60) as it:
            sending = threading.Thread(target=send_all, args=(it, call))
            sending.start()
            accepted = count_answers(it)
            sending.join()
        seconds = time.monotonic() - began
        check(accepted == CALLS, f"{accepted} of {CALLS} calls are accepted")
        check(framework.call("REVIVE") == (202, ""), "it revives")
        other = Framework(server.port)
        check(framework.call("TEARDOWN") == (202, ""), "it is torn down")
        other.accept(other.next_offer({"cpus": 1}), [("t1", {"cpus": 1})])
        check([other.next_state(), other.next_state()] == ["TASK_RUNNING", "TASK_FINISHED"], "a task runs behind them")
        print(f"{CALLS} calls on one connection were accepted within {seconds:.0f} s, and a task ran behind them")


main()
