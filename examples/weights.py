#!/usr/bin/env python3
"""Two frameworks of different roles, of which one counts twice: examples/weights.py [PORT]

It is for a server of `--agents examples/weights.json --task-seconds 0`. The file gives the role prod the weight 2, so that it is due twice what test is. A framework of each
role launches one task of one cpu on each offer that it gets, until nothing is free. It prints who gets each offer and how many tasks each runs in the end, and
tears both frameworks down.
"""
import argparse
import http.client
import json
import queue
import threading

PARSER = argparse.ArgumentParser(description=__doc__, formatter_class=argparse.RawDescriptionHelpFormatter)
PARSER.add_argument("port", metavar="PORT", nargs="?", type=int, default=5050)
PORT = PARSER.parse_args().port
CPUS = 9
SECONDS = 60


def post(body, stream=None):
    """Sends a call on a connection of its own, and gives the answer if the master takes the call."""
    fields = {"Content-Type": "application/json", **({"Mesos-Stream-Id": stream} if stream else {})}
    try:
        connection = http.client.HTTPConnection("127.0.0.1", PORT)
        connection.request("POST", "/api/v1/scheduler", json.dumps(body), fields)
        answer = connection.getresponse()
    except OSError as fault:
        raise SystemExit(f"{body['type']} can't be sent to port {PORT}: {fault}") from fault
    if answer.status not in (200, 202):
        raise SystemExit(f"{body['type']} is refused: {answer.status} {answer.read().decode().strip()}")
    return answer


class Framework:
    """A framework of a role, whose offers are put into a queue as they come."""

    def __init__(self, role, offers):
        self.role, self.tasks = role, 0
        answer = post({"type": "SUBSCRIBE", "subscribe": {"framework_info": {"user": "me", "name": role, "role": role}}})
        self.stream = answer.getheader("Mesos-Stream-Id")
        self.id = self.event(answer)["subscribed"]["framework_id"]
        threading.Thread(target=self.hear, args=(answer, offers), daemon=True).start()

    @staticmethod
    def event(answer):
        """The next event: its size in decimal digits, a line feed, and so many bytes of JSON."""
        size = answer.readline()
        return json.loads(answer.read(int(size))) if size else None

    def hear(self, answer, offers):
        while event := self.event(answer):
            if event["type"] == "OFFERS":
                for offer in event["offers"]["offers"]:
                    offers.put((self, offer))

    def call(self, kind, **members):
        post({"type": kind, "framework_id": self.id, **members}, self.stream)

    def launch(self, offer):
        """Launches a task of one cpu on the offer, and wants what is left of it back at once."""
        name = f"{self.role}-{self.tasks}"
        self.tasks += 1
        cpu = {"name": "cpus", "type": "SCALAR", "scalar": {"value": 1}}
        task = {"name": name, "task_id": {"value": name}, "agent_id": offer["agent_id"], "resources": [cpu]}
        launch = {"type": "LAUNCH", "launch": {"task_infos": [task]}}
        self.call("ACCEPT", accept={"offer_ids": [offer["id"]], "operations": [launch], "filters": {"refuse_seconds": 0}})


def main():
    offers = queue.Queue()
    frameworks = [Framework(role, offers) for role in ("prod", "test")]
    order = []
    for _ in range(CPUS):
        try:
            framework, offer = offers.get(timeout=SECONDS)
        except queue.Empty:
            raise SystemExit(f"no offer comes within {SECONDS} seconds: is {CPUS} what the agents own?") from None
        framework.launch(offer)
        order.append(framework.role)
    print("offers go to", " ".join(order))
    print(", ".join(f"{it.role} runs {it.tasks} tasks" for it in frameworks))
    for framework in frameworks:
        framework.call("TEARDOWN")


main()
