"""A framework with one task over all servers of a folder, for the scripts of this folder that look at what becomes of it."""
import json
import time
from contextlib import suppress

from failing import SECONDS, Control, answer_to, refusal, tear_down
from cluster import Folder, Framework, Server, amounts, check, request

OWNS = {"cpus": 2}
TASK = "t1"
# So many clusters run at a time, and each has so many seconds until all is settled.
AT_ONCE, LIMIT = 8, 25
IS_DOWN = refusal(503, "C2 MasterDown")
IS_UP = refusal(400, "M3 NoSuchFramework")


class Job:
    """A framework with one task, over all servers of its folder."""

    def __init__(self):
        self.id, self.framework, self.offers, self.again = None, None, {}, 0
        self.launched, self.lost, self.told, self.uuids = False, False, [], set()

    def subscribe(self, port):
        self.framework = Framework(port, framework=self.id)
        check(self.id in (None, self.framework.id), f"{self.id} has its id again")
        self.id, self.offers = self.framework.id, {}

    def call(self, kind, members):
        """A call, whose answer may be lost."""
        body = {"type": kind, "framework_id": {"value": self.id}, kind.lower(): members}
        with suppress(ConnectionError):
            answer_to(self.framework.port, request(json.dumps(body).encode(), "Connection: close", f"Mesos-Stream-Id: {self.framework.stream}"))

    def accept(self):
        """Launches the task on all that is offered. An offer that is still current then, since the call wasn't taken, is given back."""
        ((offer, (agent, _)),) = self.offers.items()
        resources = [{"name": name, "type": "SCALAR", "scalar": {"value": amount}} for name, amount in OWNS.items()]
        task = {"name": TASK, "task_id": {"value": TASK}, "agent_id": agent, "resources": resources}
        operations = [{"type": "LAUNCH", "launch": {"task_infos": [task]}}]
        self.launched, self.offers = True, {}
        which = {"offer_ids": [{"value": offer}], "filters": {"refuse_seconds": 0}}
        self.call("ACCEPT", {**which, "operations": operations})
        self.call("DECLINE", which)

    def reconcile(self):
        self.call("RECONCILE", {"tasks": [{"task_id": {"value": TASK}, "agent_id": {"value": "a1"}}]})

    def hear(self, event):
        if event["type"] == "OFFERS":
            for offer in event["offers"]["offers"]:
                self.offers[offer["id"]["value"]] = offer["agent_id"], amounts(offer["resources"])["cpus"]
        elif event["type"] == "RESCIND":
            self.offers.pop(event["rescind"]["offer_id"]["value"], None)
        elif event["type"] == "UPDATE":
            self.hear_update(event["update"]["status"])

    def hear_update(self, status):
        check(not self.lost or status["state"] == "TASK_LOST", f"the task was told lost, and is told {status['state']}")
        if "uuid" not in status:
            if status["state"] == "TASK_LOST":
                check(not self.told, f"the task is lost behind {self.told}")
                self.lost = True
            return
        if status["uuid"] not in self.uuids:
            self.uuids.add(status["uuid"])
            self.told.append(status["state"])
            check(self.told == ["TASK_RUNNING", "TASK_FINISHED"][: len(self.told)], f"the task is told {self.told}")
        self.call("ACKNOWLEDGE", {"agent_id": status["agent_id"], "task_id": status["task_id"], "uuid": status["uuid"]})

    def is_settled(self):
        """The task has ended, or never was, and all is offered."""
        return (self.lost or self.told[-1:] == ["TASK_FINISHED"]) and self.offers_all()

    def offers_all(self):
        return sum(cpus for _, cpus in self.offers.values()) == OWNS["cpus"]


def state_of(server):
    """Whether the master is up or down, or the server ends."""
    try:
        answer = answer_to(server.port, request(tear_down("F1-4000").encode()))
    except ConnectionError:
        answer = b""
    check(answer in (IS_UP, IS_DOWN, b""), f"a TEARDOWN of nobody is answered {answer!r}")
    return {IS_UP: "up", IS_DOWN: "down", b"": "ended"}[answer]


def goes_on(job, server, until, ends=False):
    """Whether it comes to this before the master is down or the server ends. A stream that ended is followed by another, unless `ends` says that its end is the server's. The
    framework asks for the task where nothing is told of it."""
    end, asked = time.monotonic() + LIMIT, time.monotonic() + 1
    while not until():
        check(time.monotonic() < end, f"after {LIMIT} seconds: the task is told {job.told}, lost {job.lost}, offered {job.offers}")
        event = job.framework.next(seconds=0.2)
        if event:
            job.hear(event)
        elif not job.framework.reader.is_alive():
            if state_of(server) != "up" or ends:
                return False
            job.subscribe(server.port)
            job.again += 1
        elif job.launched and not job.told and not job.lost and time.monotonic() > asked:
            asked = time.monotonic() + 1
            job.reconcile()
    return True


class Outcome:
    """What came of a task over two servers of a folder."""

    def __init__(self, job, stands, count, failed, said):
        self.stands, self.count, self.failed, self.said = stands, count, failed, said
        self.ways = ["the task ran" if job.told else "it was lost"] + ["its framework subscribed again"] * (job.again > 0)


def run(work, name, kind, number, rest=False):
    """Runs a task with the call of this kind and number failing, counted from its ACCEPT, and lets it end: behind the first server another one is started on the folder. Where the
    first one ended by itself, its status and what it wrote and told are said."""
    control, job = Control(work, name), Job()
    with Folder({"a1": OWNS}) as folder:
        with Server(folder, "--task-seconds", "1", env=control.environment) as server:
            job.subscribe(server.port)
            check(goes_on(job, server, job.offers_all), "all is offered at the start")
            control.arm(kind, number, rest=rest, scope=Control.OTHERS)
            job.accept()
            stands, said = goes_on(job, server, job.is_settled, ends=rest), None
            count, failed = control.disarm()
            if not stands and state_of(server) == "ended":
                out, err = server.process.communicate(timeout=SECONDS)
                said = server.process.returncode, out.decode(), err.decode()
            elif rest and not stands:
                raise SystemExit("failed: a server whose calls fail for good ends")
        with Server(folder, "--task-seconds", "1") as server:
            job.subscribe(server.port)
            check(goes_on(job, server, job.is_settled), "a server that is started again on the folder goes on")
    return Outcome(job, stands, count, failed, said)
