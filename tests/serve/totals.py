#!/usr/bin/env python3
"""A server is started again with a larger configuration: the agent owns that from then on, and not before its record has it. With a smaller one it isn't served."""
import json
import os
import sqlite3
from contextlib import closing

from cluster import Folder, Framework, Server, amounts, check, run_serve, tell
from store_files import record_text

LESS, MORE = {"cpus": 2}, {"cpus": 4, "mem": 64}
# What a task holds it holds while the script runs.
HELD = {"cpus": 1}
PACE = ("--task-seconds", "1000")


def kept(folder):
    """The agent's record, as its store's rows tell it."""
    with closing(sqlite3.connect(os.path.join(folder.state, "agent-a1.db"))) as it:
        return json.loads(record_text(it))


def offered_until(framework, due):
    """Waits for an offer of what is due; before it nothing is offered but what the smaller total leaves."""
    while True:
        event = framework.next("OFFERS")
        check(event, f"an offer of {due} comes")
        for offer in event["offers"]["offers"]:
            got = amounts(offer["resources"])
            if got == due:
                return
            check(got == {"cpus": LESS["cpus"] - HELD["cpus"]}, f"{got} are offered before {due}")


def main():
    with Folder({"a1": LESS}) as folder:
        with Server(folder, *PACE) as server:
            framework = Framework(server.port)
            framework.accept(framework.next_offer(LESS), [("t1", HELD)])
            check(framework.next_state() == "TASK_RUNNING", "the task runs")
            server.kill()
        check(kept(folder)["total"] == LESS, "the record has the smaller total")
        folder.write({"agents": {"a1": MORE}})
        with Server(folder, *PACE) as server:
            offered_until(Framework(server.port, framework=framework.id), {"cpus": 3, "mem": 64})
            server.kill()
        record = kept(folder)
        check(record["total"] == MORE, f"the record has the larger total once it is offered: {record}")
        check([task["name"] for task in record["tasks"]] == ["t1"], f"the task is still there: {record}")
        with Server(folder, *PACE) as server:
            again = Framework(server.port, framework=framework.id)
            again.next_offer({"cpus": 3, "mem": 64})
            check(again.next("RESCIND", seconds=3) is None, "no further session is opened")
            server.kill()
        again = kept(folder)
        check((again["session"], again["total"]) == (record["session"] + 1, MORE), f"no further session is opened for the total: {record} {again}")
        for less in (LESS, {"cpus": 4}, {"cpus": 3, "mem": 128}):
            folder.write({"agents": {"a1": less}})
            tell(f"{less}", run_serve(folder), 2, "Z1 TotalDiffers: a1's record has more than is configured")
        check(kept(folder) == again, "the record stays as it was")
    print(f"an agent of {LESS} came back with {MORE}, which its record had as it was offered; a smaller total was refused, and nothing changed")


main()
