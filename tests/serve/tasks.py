#!/usr/bin/env python3
"""A framework runs 20 tasks to TASK_FINISHED, and acknowledges each update."""
from cluster import Folder, Framework, Server, amounts, check, check_finished, note, states

TASKS = 20


def main():
    with Folder({"a1": {"cpus": 4, "mem": 4096}, "a2": {"cpus": 4, "mem": 4096}}) as folder, Server(folder, "--task-seconds", "1") as server:
        framework = Framework(server.port)
        launched, tally, most = 0, {}, 0
        while sum(states(it)[-1] == "TASK_FINISHED" for it in tally.values()) < TASKS:
            event = framework.next(seconds=30)
            check(event, f"an event comes while {tally} stand")
            if event["type"] == "OFFERS":
                for offer in event["offers"]["offers"]:
                    free = amounts(offer["resources"])
                    count = min(int(free.get("cpus", 0)), int(free.get("mem", 0)) // 512, TASKS - launched)
                    framework.accept(offer, [(f"t{launched + i}", {"cpus": 1, "mem": 512}) for i in range(count)])
                    launched += count
            elif event["type"] == "UPDATE":
                note(tally, event)
                most = max(most, sum(states(it) == ["TASK_RUNNING"] for it in tally.values()))
                framework.acknowledge(event)
        check(launched == TASKS, f"{launched} tasks were launched")
        check(len(tally) == TASKS, f"{len(tally)} tasks were told of")
        check_finished(tally)
        check(most <= 8, f"{most} tasks ran at once on 8 cpus")
        print(f"{TASKS} tasks: each TASK_RUNNING, then TASK_FINISHED, each told with one uuid; at most {most} ran at once on 8 cpus")


main()
