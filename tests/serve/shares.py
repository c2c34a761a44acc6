#!/usr/bin/env python3
"""Two frameworks of different roles share two kinds of resources by dominant shares: what is free goes whole to the one whose dominant share is least."""
from cluster import Folder, Framework, Server, amounts, check

# One agent of 15 cpus and 23 of memory. A task of A takes <1, 4>, and 4/23 of memory is the greater share; one of B takes <4, 2>, and 4/15 of cpus is.
# A framework launches one task on each offer, and the rest is free again. So the dominant shares of A and B are, before each offer,
#
#     0 and 0         A (where both are the same, the role that comes first by name)
#     4/23 and 0      B
#     4/23 and 4/15   A, since 4/23 = 60/345 is less than 4/15 = 92/345
#     8/23 and 4/15   B, since 92/345 is less than 8/23 = 120/345
#     8/23 and 8/15   A, since 120/345 is less than 8/15 = 184/345
#     12/23 and 8/15  A, since 12/23 = 180/345 is less than 184/345
#     16/23 and 8/15  B, since 184/345 is less than 16/23 = 240/345; but of <3, 3>, which are free now, it can launch nothing, and declines
#     16/23 and 8/15  A, since B has a filter; it declines too
#
# A runs 4 tasks and B 2. One after the other they would run 3 and 3, by shares of cpus alone 5 and 1, and by shares of memory alone 3 and 3.
TOTAL = {"cpus": 15, "mem": 23}
NEEDS = {"A": {"cpus": 1, "mem": 4}, "B": {"cpus": 4, "mem": 2}}
OFFERED = "ABABAABA"
TASKS = {"A": 4, "B": 2}


def next_offer(frameworks, seconds=20):
    """The next offer, and whose it is."""
    for _ in range(seconds * 10):
        for name, framework in frameworks.items():
            if event := framework.next("OFFERS", seconds=0.05):
                (offer,) = event["offers"]["offers"]
                return name, offer
    raise SystemExit("failed: an offer comes")


def main():
    with Folder({"a1": TOTAL}) as folder, Server(folder, "--task-seconds", "0") as server:
        frameworks = {name: Framework(server.port, role=role) for name, role in (("A", "analytics"), ("B", "services"))}
        offered, tasks = "", {"A": 0, "B": 0}
        for _ in OFFERED:
            name, offer = next_offer(frameworks)
            free = amounts(offer["resources"])
            used = {it: sum(tasks[f] * NEEDS[f][it] for f in tasks) for it in TOTAL}
            check(free == {it: TOTAL[it] - used[it] for it in TOTAL}, f"{free} are offered to {name} while {used} are in use")
            fits = all(free[it] >= value for it, value in NEEDS[name].items())
            frameworks[name].accept(offer, [(f"{name}-{tasks[name]}", NEEDS[name])] if fits else [], refuse_seconds=0 if fits else 600)
            offered += name
            tasks[name] += fits
        check(offered == OFFERED, f"offers go to {offered}, and {OFFERED} is due")
        check(tasks == TASKS, f"the frameworks run {tasks} tasks, and {TASKS} are due")
        print("on 15 cpus and 23 of memory, tasks of <1, 4> and <4, 2> run 4 and 2 at once, with dominant shares of 16/23 and 8/15")


main()
