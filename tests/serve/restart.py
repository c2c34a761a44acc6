#!/usr/bin/env python3
"""kill -9 in mid-run, and a restart on the same folder: the framework resubscribes by its id, no task is lost or runs twice, and no CPU that a task holds is offered."""
import glob
import json
import sqlite3
from contextlib import closing

from cluster import Folder, Framework, Server, amounts, check, check_finished, note, states
from store_files import record_text

# Six tasks of one cpu each on seven cpus, so that one cpu is free while all run.
AGENTS = {"a1": {"cpus": 4}, "a2": {"cpus": 3}}
CPUS = 7
TASKS = 6


def launch_all(framework):
    launched = 0
    while launched < TASKS:
        event = framework.next("OFFERS")
        check(event, "offers come")
        for offer in event["offers"]["offers"]:
            count = min(int(amounts(offer["resources"]).get("cpus", 0)), TASKS - launched)
            framework.accept(offer, [(f"t{launched + i}", {"cpus": 1}) for i in range(count)])
            launched += count


def run_all(framework, tally):
    """Acknowledges updates until each task was told to run."""
    while len(tally) < TASKS:
        event = framework.next("UPDATE", seconds=30)
        check(event, f"an update comes while {tally} stand")
        note(tally, event)
        framework.acknowledge(event)


def finish_all(framework, tally, places):
    """Acknowledges updates and keeps offers until each task has finished and all is offered. Each offer has to fit, beside the others, what its agent owns less what the
    tasks there hold that weren't told to have finished: a CPU is free only once an update that is told before its offer says so."""
    offers, early = {}, False
    while any(states(it)[-1] != "TASK_FINISHED" for it in tally.values()) or sum(cpus for _, cpus in offers.values()) < CPUS:
        event = framework.next(seconds=30)
        check(event, f"an event comes while {tally} stand and {offers} are offered")
        if event["type"] == "UPDATE":
            note(tally, event)
            framework.acknowledge(event)
        elif event["type"] == "RESCIND":
            offers.pop(event["rescind"]["offer_id"]["value"], None)
        elif event["type"] == "OFFERS":
            for offer in event["offers"]["offers"]:
                offers[offer["id"]["value"]] = offer["agent_id"]["value"], amounts(offer["resources"])["cpus"]
            live = [places[name] for name, told in tally.items() if states(told)[-1] != "TASK_FINISHED"]
            early = early or len(live) == TASKS
            for agent, total in AGENTS.items():
                offered, held = sum(cpus for it, cpus in offers.values() if it == agent), live.count(agent)
                check(offered + held <= total["cpus"], f"of {agent}'s {total['cpus']} cpus {offered} are offered, and {held} tasks hold one each")
    check(early, "what is free is offered before the first task has finished")


def recorded(folder):
    """On which agent each task stands, by the agents' records as sqlite3 reads them."""
    tasks = {}
    for path in sorted(glob.glob(f"{folder.state}/agent-*.db")):
        with closing(sqlite3.connect(path)) as it:
            check(it.execute("PRAGMA integrity_check").fetchone() == ("ok",), f"{path} is sound")
            record = json.loads(record_text(it))
            for task in record["tasks"]:
                check(task["name"] not in tasks, f"{task['name']} stands in one record")
                tasks[task["name"]] = record["name"]
    return tasks


def main():
    with Folder(AGENTS) as folder:
        tally = {}
        with Server(folder, "--task-seconds", "600") as server:
            framework = Framework(server.port)
            launch_all(framework)
            run_all(framework, tally)
            server.kill()
        places = recorded(folder)
        check(len(places) == TASKS, f"the records hold {len(places)} of {TASKS} tasks")
        with Server(folder, "--task-seconds", "5") as server:
            again = Framework(server.port, framework=framework.id)
            check(again.id == framework.id, "the framework has its id again")
            check(again.stream != framework.stream, "on a new stream")
            finish_all(again, tally, places)
        check(len(tally) == TASKS, f"{len(tally)} tasks were told of")
        check_finished(tally)
        print(f"{TASKS} tasks ran when it was killed; started again, each went on to TASK_FINISHED, once, each state with one uuid")
        print("no cpu was offered while a task held it, and all were in the end; the records are sound in sqlite3")


main()
