#!/usr/bin/env python3
"""An end of input behind SUBSCRIBE is no hang-up: a client that shuts down its sending half gets its events as before."""
from cluster import Folder, Framework, Server, check


def main():
    with Folder({"a1": {"cpus": 2}}) as folder, Server(folder, "--task-seconds", "1") as server:
        framework = Framework(server.port)
        framework.end_input()
        for name in ("t1", "t2"):
            framework.accept(framework.next_offer({"cpus": 2}), [(name, {"cpus": 2})])
            for due in ("TASK_RUNNING", "TASK_FINISHED"):
                state = framework.next_state()
                check(state == due, f"{name} is {state}, and {due} is due")
        check(not framework.ends(seconds=0), "the stream is open")
        status, text = framework.call("TEARDOWN")
        check(status == 202, f"TEARDOWN is answered {status} {text}")
        check(framework.ends(), "TEARDOWN ends the stream by its last chunk")
        print("a client whose input had ended got its offers and all updates of two tasks, one after the other, until its TEARDOWN")


main()
