#!/usr/bin/env python3
"""kill -9 at random moments, many times over one folder: killed.py [KILLS [SEED]]

Three frameworks launch short tasks, each under a name of its own, and go on by their ids after each kill; at the end the server runs until all that was launched is settled.
No task is lost that was told to run, and none runs twice: each is told TASK_RUNNING and TASK_FINISHED, updates 0 and 1 of one launch key, in this order. A task of which
nothing was told is asked for, and where it is answered TASK_LOST it never runs, and no later answer says otherwise. After each kill the agents' records, as sqlite3 reads a copy of them, have each
task once, and no agent's live tasks have more than it owns. KILLS is 50 where it isn't given.
"""
import base64
import json
import os
import queue
import random
import shutil
import sqlite3
import sys
import tempfile
import time
from contextlib import closing

from cluster import Folder, Framework, Server, amounts, check
from store_files import record_text

AGENTS = {"a1": {"cpus": 4}, "a2": {"cpus": 3}}
FRAMEWORKS = 3
KILLS, SEED = [int(it) for it in sys.argv[1:]] + [50, 1][len(sys.argv) - 1 :]
# At most so many tasks of one framework are launched and not finished.
MOST = 3


class Client:
    """A framework over all runs of the server: what it launched, and what it was told."""

    def __init__(self, place):
        self.place, self.id, self.framework, self.count = place, None, None, 0
        self.waits, self.runs, self.finished, self.lost, self.keys = {}, {}, set(), set(), {}

    def subscribe(self, port):
        self.framework = Framework(port, framework=self.id)
        check(self.id in (None, self.framework.id), f"{self.id} has its id again")
        self.id = self.framework.id

    def ask(self):
        """Asks for the tasks of which nothing was told."""
        tasks = [{"task_id": {"value": name}, "agent_id": {"value": agent}} for name, agent in self.waits.items()]
        if tasks:
            self.framework.call("RECONCILE", {"tasks": tasks})

    def hear(self, launches):
        """Takes the events that have come."""
        while True:
            try:
                event = self.framework.events.get_nowait()
            except queue.Empty:
                return
            check(event, "the stream goes on while the server runs")
            if event["type"] == "UPDATE":
                self.told(event)
            elif event["type"] == "OFFERS":
                for offer in event["offers"]["offers"]:
                    self.use(offer, launches)

    def use(self, offer, launches):
        free = min(amounts(offer["resources"]).get("cpus", 0), MOST - len(self.waits) - len(self.runs)) if launches else 0
        names = [f"f{self.place}-{self.count + i}" for i in range(free)]
        self.count += len(names)
        self.waits.update((name, offer["agent_id"]["value"]) for name in names)
        self.framework.accept(offer, [(name, {"cpus": 1}) for name in names])

    def told(self, event):
        status = event["update"]["status"]
        name, state = status["task_id"]["value"], status["state"]
        if "uuid" not in status:
            self.answered(name, state)
            return
        check(name not in self.lost, f"{name} was answered TASK_LOST, and runs: {state}")
        uuid = base64.b64decode(status["uuid"])
        key, k = uuid[:6], int.from_bytes(uuid[12:], "big")
        check(self.keys.setdefault(name, key) == key, f"{name} runs under two launch keys")
        check((state, k) in (("TASK_RUNNING", 0), ("TASK_FINISHED", 1)), f"update {k} of {name} is {state}")
        if k == 0:
            check(name not in self.finished, f"{name} runs, which has finished")
            self.runs[name] = self.waits.pop(name, None) or self.runs[name]
        elif name not in self.finished:
            check(name in self.runs, f"{name} has finished, and wasn't told to run")
            del self.runs[name]
            self.finished.add(name)
        self.framework.acknowledge(event)

    def answered(self, name, state):
        """Takes the answer to a call. TASK_LOST may come twice: a task is asked for again where its ACCEPT, or the call before, was answered and the answer not yet read."""
        check(name not in self.lost or state == "TASK_LOST", f"{name} was answered TASK_LOST, and then {state}")
        if state == "TASK_LOST" and name not in self.lost:
            check(name in self.waits, f"{name} is lost, which ran")
            del self.waits[name]
            self.lost.add(name)

    def is_settled(self):
        return not self.waits and not self.runs


def check_records(folder):
    """Each task stands in one record, and no agent's live tasks have more than it owns."""
    tasks = set()
    with tempfile.TemporaryDirectory() as copy:
        shutil.copytree(folder.state, copy, dirs_exist_ok=True)
        for path in (it.path for it in os.scandir(copy) if it.name.startswith("agent-") and it.name.endswith(".db")):
            with closing(sqlite3.connect(path)) as it:
                check(it.execute("PRAGMA integrity_check").fetchone() == ("ok",), f"{path} is sound")
                text = record_text(it)
            for record in [json.loads(text)] if text else []:
                live = [task for task in record["tasks"] if "TASK_FINISHED" not in task["updates"]]
                check(sum(task["resources"]["cpus"] for task in live) <= record["total"]["cpus"], f"{record['name']} has more live than it owns: {live}")
                names = [task["name"] for task in record["tasks"]]
                check(len(set(names)) == len(names) and not tasks & set(names), f"each task stands once: {names}, {tasks}")
                tasks |= set(names)


def live(clients, server, seconds, launches):
    """Lets the frameworks go on for so long, or until all is settled where nothing more is launched."""
    for client in clients:
        client.subscribe(server.port)
    end, asked = time.monotonic() + seconds, 0
    while time.monotonic() < end:
        for client in clients:
            client.hear(launches)
        if not launches and all(client.is_settled() for client in clients):
            return
        if time.monotonic() > asked + 0.5:
            asked = time.monotonic()
            for client in clients:
                client.ask()
        time.sleep(0.01)


def main():
    rng, clients = random.Random(SEED), [Client(i) for i in range(FRAMEWORKS)]
    with Folder(AGENTS) as folder:
        for _ in range(KILLS):
            with Server(folder, "--task-seconds", "1") as server:
                live(clients, server, rng.uniform(0.1, 3), launches=True)
                server.kill()
            check_records(folder)
        with Server(folder, "--task-seconds", "1") as server:
            live(clients, server, 30, launches=False)
        check(all(client.is_settled() for client in clients), f"all is settled: {[(it.waits, it.runs) for it in clients]}")
        finished, lost = (sum(len(it) for it in kind) for kind in ((it.finished for it in clients), (it.lost for it in clients)))
        check(finished > 0, "tasks finish")
        print(f"{KILLS} kills (seed {SEED}): {finished} tasks ran once each, with both updates, and {lost} of which nothing was told never ran; no agent had more than it owns")


main()
