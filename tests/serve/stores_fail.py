#!/usr/bin/env python3
"""With --keep-serving an agent whose store can't be opened again after a save that failed is down alone: that is told once when it begins and once when it is over, the other agent's tasks run and
finish meanwhile on the stream that stays, and once the store opens the agent goes on, with its task. One whose store keeps another record stays down, which is told once, and the other goes on; after a
new start over the store that it had it has its record. The server has a limit on the size of its files that the one agent's log has reached, and the other's hasn't."""
import os
import resource
import select
import time

from cluster import Folder, Framework, Server, amounts, check

BEGUN, OVER = "agent a1 can't be saved, and is tried again each second: K1 Store ", "agent a1 is saved again\n"
DAMAGED = "K2 Damaged: the record of a1, which is down from now on\n"
AGENTS = {"a1": {"cpus": 8}, "a2": {"cpus": 3}}
# A log grows by so many bytes at once, before they are written, and ends less than three such pieces behind what was written last.
PIECE = 131_072


class Cluster:
    """A server with two agents, a framework, its offers by agent, and the states of its tasks."""

    def __init__(self, folder, server, framework=None):
        self.folder, self.server = folder, server
        self.framework = Framework(server.port, framework=framework)
        self.offers, self.states = {}, {}

    def look(self, done, text, seconds=15):
        """Takes events until something is so."""
        end = time.monotonic() + seconds
        while not done():
            check(time.monotonic() < end, f"{text}: {self.states} {list(self.offers)}")
            event = self.framework.next(seconds=0.2)
            check(event or not self.framework.ends(seconds=0), "the stream stays")
            if event and event["type"] == "OFFERS":
                self.offers.update((it["agent_id"]["value"], it) for it in event["offers"]["offers"])
            if event and event["type"] == "UPDATE":
                self.framework.acknowledge(event)
                status = event["update"]["status"]
                told = self.states.setdefault(status["task_id"]["value"], [])
                if told[-1:] != [status["state"]]:
                    told.append(status["state"])

    def launch(self, agent, names):
        """Launches a task of one cpu of each name, on an offer of the agent that has enough."""
        self.look(lambda: agent in self.offers and amounts(self.offers[agent]["resources"])["cpus"] >= len(names), f"{agent} is offered")
        self.framework.accept(self.offers.pop(agent), [(name, {"cpus": 1}) for name in names])

    def until(self, name, *states):
        self.look(lambda: self.states.get(name) == list(states), f"{name} is told {states}")

    def finish(self, agent, name):
        self.launch(agent, [name])
        self.until(name, "TASK_RUNNING", "TASK_FINISHED")

    def said(self, seconds=10):
        """The next line on standard error, which is "" where none comes in time."""
        if not select.select([self.server.process.stderr], [], [], seconds)[0]:
            return ""
        return self.server.process.stderr.readline().decode()

    def path(self, agent, end=""):
        return os.path.join(self.folder.state, f"agent-{agent}.db{end}")

    def log_sizes(self):
        return [os.path.getsize(self.path(agent, "-wal")) for agent in AGENTS]

    def limit(self, size):
        resource.prlimit(self.server.process.pid, resource.RLIMIT_FSIZE, (size, resource.RLIM_INFINITY))

    def limit_to_first(self):
        """No log is written further than the first agent's was, to which nothing can be added so; the other's is shorter by far."""
        first, second = self.log_sizes()
        check(first - 3 * PIECE >= second, f"the logs have {first} and {second} bytes")
        self.limit(first - 3 * PIECE)


def lengthen(cluster):
    """The first agent's log gets long, by the saves of some tasks; the other agent's offer waits."""
    names = [f"long-{i}" for i in range(AGENTS["a1"]["cpus"])]
    cluster.launch("a1", names)
    for name in names:
        cluster.until(name, "TASK_RUNNING", "TASK_FINISHED")


def go_on_after_an_outage(cluster):
    """The store is a folder for some seconds: then it can't be opened."""
    cluster.launch("a1", ["before"])
    cluster.until("before", "TASK_RUNNING")
    cluster.limit_to_first()
    os.rename(cluster.path("a1"), cluster.path("a1", "-away"))
    os.mkdir(cluster.path("a1"))
    line = cluster.said()
    check(line.startswith(BEGUN), f"that the store fails is told: {line!r}")
    began = time.monotonic()
    cluster.finish("a2", "beside")
    check(cluster.framework.call("REVIVE") == (202, ""), "a call is answered")
    check(cluster.said(2) == "", "it is told once, however often it is tried")
    check(cluster.states["before"] == ["TASK_RUNNING"], "what can't be saved isn't told")
    os.rmdir(cluster.path("a1"))
    os.rename(cluster.path("a1", "-away"), cluster.path("a1"))
    cluster.limit(resource.RLIM_INFINITY)
    check(cluster.said() == OVER, "that it is over is told")
    seconds = time.monotonic() - began
    cluster.until("before", "TASK_RUNNING", "TASK_FINISHED")
    cluster.finish("a1", "behind")
    check(cluster.said(1) == "", "and no more")
    return seconds


def stay_down(cluster):
    """The store and its log are gone: then a new one is made, which keeps no record."""
    cluster.launch("a1", ["last"])
    cluster.until("last", "TASK_RUNNING")
    cluster.limit_to_first()
    for end in ("", "-wal"):
        os.rename(cluster.path("a1", end), cluster.path("a1", end + "-away"))
    lines = [cluster.said(), cluster.said()]
    check(lines[0].startswith(BEGUN) and lines[1] == DAMAGED, f"that it stays down is told: {lines}")
    cluster.finish("a2", "alone")
    check(cluster.said(2) == "" and cluster.server.process.poll() is None, "it is told once, and the server goes on")
    cluster.server.kill()
    check(cluster.server.process.stderr.read() == b"", "no more is told")
    for end in ("", "-wal"):
        os.replace(cluster.path("a1", end + "-away"), cluster.path("a1", end))


def have_its_record(folder, framework):
    """The record that the agent had before has its task, which ends now."""
    with Server(folder, "--task-seconds", "1") as server:
        cluster = Cluster(folder, server, framework)
        cluster.look(lambda: "a1" in cluster.offers, "a1 is offered")
        had = amounts(cluster.offers["a1"]["resources"])
        check(had["cpus"] in (7, 8), f"beside its task, or once that has ended, a1 is offered: {had}")
        cluster.look(lambda: cluster.states.get("last", [])[-1:] == ["TASK_FINISHED"], "its task ends")


def main():
    with Folder(AGENTS) as folder:
        with Server(folder, "--keep-serving", "--task-seconds", "2") as server:
            cluster = Cluster(folder, server)
            lengthen(cluster)
            seconds = go_on_after_an_outage(cluster)
            stay_down(cluster)
        have_its_record(folder, cluster.framework.id)
    print(f"a1, whose store couldn't be opened for {seconds:.1f} s, was told down once and saved again once, and its task ended after it; a2's ran and ended meanwhile, on the stream that stayed")
    print("a1, whose store kept no record any more, stayed down, told once, and a2 went on; over the store that it had a new server had its record, and its task ended")


main()
