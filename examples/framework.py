#!/usr/bin/env python3
"""A framework of the Mesos scheduler HTTP API: examples/framework.py [PORT [TASKS [ID]]]

It subscribes to the master at 127.0.0.1:PORT (5050), launches TASKS tasks (3) of one cpu each as offers come, acknowledges every
update, prints how each task goes on, and tears itself down when all have finished, or when one ended otherwise. With an ID it goes on
as the framework that had this id before, as behind a restart of the server: it launches nothing, and waits for its TASKS tasks to finish.
"""
import argparse
import http.client
import json

PARSER = argparse.ArgumentParser(description=__doc__, formatter_class=argparse.RawDescriptionHelpFormatter)
PARSER.add_argument("port", metavar="PORT", nargs="?", type=int, default=5050)
PARSER.add_argument("tasks", metavar="TASKS", nargs="?", type=int, default=3)
PARSER.add_argument("id", metavar="ID", nargs="?")
WORDS = PARSER.parse_args()
PORT, TASKS, ID = WORDS.port, WORDS.tasks, {"value": WORDS.id} if WORDS.id else None


def post(body, stream=None):
    """Sends a call on a connection of its own, and gives the answer if the master takes the call."""
    fields = {"Content-Type": "application/json", **({"Mesos-Stream-Id": stream} if stream else {})}
    try:
        connection = http.client.HTTPConnection("127.0.0.1", PORT)
        connection.request("POST", "/api/v1/scheduler", json.dumps(body), fields)
        answer = connection.getresponse()
    except OSError as fault:
        raise SystemExit(f"{body['type']} can't be sent to port {PORT}: {fault}") from fault
    if answer.status not in (200, 202):
        raise SystemExit(f"{body['type']} is refused: {answer.status} {answer.read().decode().strip()}")
    return answer


def events(answer):
    """The events of a stream: each is its size in decimal digits, a line feed, and so many bytes of JSON."""
    while size := answer.readline():
        yield json.loads(answer.read(int(size)))


def task(name, offer):
    cpu = {"name": "cpus", "type": "SCALAR", "scalar": {"value": 1}}
    return {"name": name, "task_id": {"value": name}, "agent_id": offer["agent_id"], "resources": [cpu]}


def main():
    info = {"user": "me", "name": "example", **({"id": ID} if ID else {})}
    answer = post({"type": "SUBSCRIBE", **({"framework_id": ID} if ID else {}), "subscribe": {"framework_info": info}})
    stream, framework, launched, told = answer.getheader("Mesos-Stream-Id"), None, TASKS if ID else 0, {}

    def call(kind, **members):
        post({"type": kind, "framework_id": framework, **members}, stream)

    for event in events(answer):
        if event["type"] == "SUBSCRIBED":
            framework = event["subscribed"]["framework_id"]
            print("subscribed as", framework["value"])
        elif event["type"] == "OFFERS":
            for offer in event["offers"]["offers"]:
                cpus = sum(it["scalar"]["value"] for it in offer["resources"] if it["name"] == "cpus")
                tasks = [task(f"task-{launched + i}", offer) for i in range(min(int(cpus), TASKS - launched))]
                launched += len(tasks)
                launch = [{"type": "LAUNCH", "launch": {"task_infos": tasks}}] if tasks else []
                call("ACCEPT", accept={"offer_ids": [offer["id"]], "operations": launch})
        elif event["type"] == "UPDATE":
            status = event["update"]["status"]
            name, state = status["task_id"]["value"], status["state"]
            if "uuid" in status:  # an update is sent again until it is acknowledged
                call("ACKNOWLEDGE", acknowledge={it: status[it] for it in ("agent_id", "task_id", "uuid")})
            if told.get(name) != state:
                print(name, state)
            told[name] = state
            if state not in ("TASK_STAGING", "TASK_RUNNING", "TASK_FINISHED"):
                call("TEARDOWN")
                raise SystemExit(f"{name} ended as {state}, and the framework with it")
            if list(told.values()).count("TASK_FINISHED") == TASKS:
                call("TEARDOWN")
                print(TASKS, "tasks finished")
                return
    raise SystemExit("the stream ended before all tasks had finished")


main()
