#!/usr/bin/env python3
"""A framework over `requests` that outlives its connection and the master: examples/reconnecting.py [PORT [TASKS]]

It subscribes to the master at 127.0.0.1:PORT (5050) and launches TASKS tasks (3) of one cpu each as offers come. Where its stream ends, or the master can't be reached, it subscribes again
by its id, each second for a minute, asks by RECONCILE what became of its tasks, and goes on. It prints each state of a task once, and tears itself down when all have finished.
"""
import json
import sys
import time

import requests

PORT, TASKS = [*map(int, sys.argv[1:]), *(5050, 3)[len(sys.argv) - 1 :]]
URL, PATIENCE = f"http://127.0.0.1:{PORT}/api/v1/scheduler", 60


class Framework:
    def __init__(self):
        self.id, self.stream, self.states, self.launched = None, None, {}, 0

    def call(self, kind, **members):
        """Sends a call. The answer is 202; what comes of it are events on the stream."""
        body = {"type": kind, "framework_id": {"value": self.id}, **members}
        requests.post(URL, json=body, headers={"Mesos-Stream-Id": self.stream}, timeout=30).raise_for_status()

    def subscribe(self):
        """Opens a stream, as the framework that it was before where it was one, and gives its events."""
        known = {"id": {"value": self.id}} if self.id else {}
        body = {"type": "SUBSCRIBE", "subscribe": {"framework_info": {"user": "me", "name": "reconnecting", **known}}}
        body |= {"framework_id": known["id"]} if known else {}
        answer = requests.post(URL, json=body, stream=True, timeout=(5, 60))
        answer.raise_for_status()
        self.stream = answer.headers["Mesos-Stream-Id"]
        return records(answer)

    def take(self, event):
        """Does what an event asks for."""
        if event["type"] == "SUBSCRIBED":
            is_back, self.id = self.id is not None, event["subscribed"]["framework_id"]["value"]
            print("subscribed again as" if is_back else "subscribed as", self.id, flush=True)
            if is_back:
                self.call("RECONCILE", reconcile={"tasks": [{"task_id": {"value": it}} for it in self.states]})
        elif event["type"] == "OFFERS":
            for offer in event["offers"]["offers"]:
                self.accept(offer)
        elif event["type"] == "UPDATE":
            self.note(event["update"]["status"])

    def accept(self, offer):
        """Launches what fits the offer of what is left to launch, and declines the rest by that."""
        cpus = sum(it["scalar"]["value"] for it in offer["resources"] if it["name"] == "cpus")
        names = [f"task-{self.launched + i}" for i in range(min(int(cpus), TASKS - self.launched))]
        self.launched, self.states = self.launched + len(names), self.states | dict.fromkeys(names)
        cpu = {"name": "cpus", "type": "SCALAR", "scalar": {"value": 1}}
        tasks = [{"name": it, "task_id": {"value": it}, "agent_id": offer["agent_id"], "resources": [cpu]} for it in names]
        launch = [{"type": "LAUNCH", "launch": {"task_infos": tasks}}] if tasks else []
        self.call("ACCEPT", accept={"offer_ids": [offer["id"]], "operations": launch})

    def note(self, status):
        """Acknowledges an update, which is sent again until then, and prints a state that is new. An answer to RECONCILE has no uuid, and isn't acknowledged."""
        if "uuid" in status:
            self.call("ACKNOWLEDGE", acknowledge={it: status[it] for it in ("agent_id", "task_id", "uuid")})
        name, state = status["task_id"]["value"], status["state"]
        if self.states.get(name) != state:
            print(name, state, flush=True)
        self.states[name] = state

    def is_done(self):
        return self.launched == TASKS and set(self.states.values()) == {"TASK_FINISHED"}


def records(answer):
    """The events of a stream: each is its size in decimal digits, a line feed, and so many bytes of JSON (RecordIO)."""
    rest = b""
    for piece in answer.iter_content(None):
        rest += piece
        while (cut := rest.partition(b"\n"))[1] and len(cut[2]) >= int(cut[0]):
            yield json.loads(cut[2][: int(cut[0])])
            rest = cut[2][int(cut[0]) :]


def main():
    framework, last_heard = Framework(), time.monotonic()
    while time.monotonic() - last_heard < PATIENCE:
        try:
            for event in framework.subscribe():
                framework.take(event)
                last_heard = time.monotonic()
                if framework.is_done():
                    framework.call("TEARDOWN")
                    return f"{TASKS} tasks finished"
        except requests.RequestException as fault:
            print(f"the master can't be reached ({type(fault).__name__}); trying again", flush=True)
        time.sleep(1)
    sys.exit(f"nothing was heard of the master for {PATIENCE} seconds")


if __name__ == "__main__":
    print(main())
