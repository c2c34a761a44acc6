"""The promise, checked from a history's lines and from what was printed of them alone: `Story.take` has each step with its answer, and raises `Broken`.

1. After each step an agent's current offers and live tasks have together at most what it owns, which is the total of its record; and its offers alone at most
   the total of the Report that opened its session.
2. A task is launched by one entry alone, which delivered an ACCEPT of its framework that lists it and names offers that were current, its own and of that agent.
3. What a framework has acknowledged of a task is 0, 1, 2 and so on, and a beginning of its agent's updates, with their states (all of these frameworks are
   honest: they acknowledge only what a Take gave them); an agent takes an update for acknowledged only where its framework acknowledged it.

Beside these: each mail that a commit sends, each refusal of a prepare, and the table at the end are what `agents.py` and the offers followed here say.
"""
import base64
import json

from agents import Agent, covers, key_order


class Broken(Exception):
    """Something that the promise excludes, or that isn't as the rules have it."""


def check(holds, what):
    if not holds:
        raise Broken(what)


def update_of(uuid):
    """Returns the launch key and the number of the update that a uuid names: octets 0 and 1 the run, 2 to 5 the key's number, 12 to 15 the update's."""
    octets = base64.b64decode(uuid)
    run, number, k = (int.from_bytes(octets[a:b], "big") for a, b in ((0, 2), (2, 6), (12, 16)))
    return f"L{run}-{number}", k


def amounts_of(rows):
    return {row["name"]: row["scalar"]["value"] for row in rows if row["scalar"]["value"] > 0}


def total_of(all_amounts):
    total = {}
    for amounts in all_amounts:
        for name, amount in amounts.items():
            total[name] = total.get(name, 0) + amount
    return total


def text_of(amounts):
    return " ".join(f"{name}:{amounts[name]}" for name in sorted(amounts) if amounts[name]) or "-"


class Offer:
    def __init__(self, text):
        self.id, self.framework, self.agent = (text[name]["value"] for name in ("id", "framework_id", "agent_id"))
        self.resources = amounts_of(text["resources"])


class Story:
    """What is known of a history behind some steps: its agents, the calls and mails by their numbers, current offers, sessions, streams, launches, and what frameworks took
    and acknowledged."""

    def __init__(self, config):
        self.agents = {name: Agent(name, total) for name, total in config["agents"].items()}
        self.calls, self.mails = {}, {}
        self.run, self.offers, self.open, self.closed = 1, {}, {}, {}
        self.streams, self.launched, self.sent_acks, self.taken, self.last_call = {}, {}, {}, {}, None
        self.told, self.entries, self.accepting = {}, 0, None
        self.books = {}

    # steps

    def take(self, step, verdict, outputs):
        """Takes a step (None for the opening) with its verdict and the lines of its outputs."""
        self.accepting = None
        due = self.followed(step, verdict) if step else None
        launches = []
        for line in outputs:
            self.output(line, launches)
        if self.accepting is not None:
            self.launched_by(*self.accepting, launches)
        else:
            check(not launches or step["step"] == "tick", f"{step} launches, and is no ACCEPT")
        if due is not None:
            check(outputs_of_mails(outputs) == due, f"a commit sends {outputs}, and not {due}")
        self.entries += 1 if not verdict.startswith("C") else 0
        self.fits()

    def followed(self, step, verdict):
        """Follows what a step does to agents, sessions and offers. Returns the mails that it has to send, where it is a commit."""
        name, ok = step["step"], verdict == "ok"
        if name == "prepare" and not verdict.startswith("C"):
            mail = self.mails.get(step["mail"]) if "mail" in step else None
            refusal = self.agents[step["agent"]].prepare(step, mail)
            check((refusal or "ok") == verdict, f"{step} is {verdict}, and not {refusal or 'ok'}")
        elif name == "commit" and ok:
            agent = self.agents[step["agent"]]
            agent.take_draft()
            self.acknowledged_at(agent)
            return agent.mails
        elif name == "stop_agent" and ok:
            self.agents[step["agent"]].stop(step["keep"])
            self.acknowledged_at(self.agents[step["agent"]])
        elif name == "stop_master" and ok:
            self.run += 1
            self.offers, self.open, self.closed, self.streams, self.books = {}, {}, {}, {}, {}
        elif name == "send":
            self.last_call = step
            self.sent(step["call"])
        elif name == "deliver" and ok:
            self.delivered(step["mail"])
        elif name == "lose" and ok:
            self.withdraw(lambda offer: offer.agent == step["agent"])
            self.closes(step["agent"])
        elif name == "hangup" and ok:
            for framework, stream in list(self.streams.items()):
                if stream == step["stream"]:
                    self.withdraw(lambda offer: offer.framework == framework)
                    del self.streams[framework]
        return None

    # outputs

    def output(self, line, launches):
        kind, rest = line[0], line[2:]
        if kind == "#":
            self.posted(rest, launches)
        elif kind == ">":
            stream, _, text = rest.partition(" ")
            self.event(stream, json.loads(text))
        elif kind == "x":
            self.streams = {framework: stream for framework, stream in self.streams.items() if stream != rest}
        elif kind == "<":
            stream, _, text = rest.partition(" ")
            self.handed_out(stream, json.loads(text))

    def posted(self, rest, launches):
        number, to, text = rest.split(" ", 2)
        if not text.startswith("{"):
            self.calls[int(number)] = self.last_call
            return
        mail = json.loads(text)
        self.mails[int(number)] = (to, mail)
        if "cmd" in mail and "launch" in mail["cmd"]["what"]:
            launches.append((to, mail["cmd"]["what"]["launch"]))

    def event(self, stream, event):
        kind = event["type"]
        self.told[stream] = self.told.get(stream, 0) + 1
        if kind == "SUBSCRIBED":
            self.streams[event["subscribed"]["framework_id"]["value"]] = stream
        elif kind == "OFFERS":
            for text in event["offers"]["offers"]:
                offer = Offer(text)
                check(offer.id not in self.offers and self.streams.get(offer.framework) == stream, f"offer {offer.id} is made twice, or on another stream")
                self.offers[offer.id] = offer
        elif kind == "RESCIND":
            check(event["rescind"]["offer_id"]["value"] not in self.offers, "a RESCIND of an offer that stays current")

    def handed_out(self, stream, event):
        """A Take hands out an event: with an update the framework has what it may acknowledge."""
        self.told[stream] -= 1
        if event["type"] == "UPDATE" and "uuid" in event["update"]["status"]:
            status = event["update"]["status"]
            key, k = update_of(status["uuid"])
            updates = self.updates_at(key, status["agent_id"]["value"])
            check(k < len(updates) and updates[k] == status["state"], f"update {k} of {key} is {status['state']}, and the agent's are {updates}")
            self.taken.setdefault(self.launched[key][0], []).append((key, status))

    def updates_at(self, key, agent):
        found = self.agents[agent]
        return list(found.appended.get(key, []))

    # calls

    def sent(self, call):
        if call["type"] == "ACKNOWLEDGE":
            key, k = update_of(call["acknowledge"]["uuid"])
            said = self.sent_acks.setdefault((call["framework_id"]["value"], key), [])
            if k in said:
                return
            said.append(k)
            check(said == list(range(len(said))), f"{key}: acknowledged {said}")
            check(k < len(self.updates_at(key, call["acknowledge"]["agent_id"]["value"])), f"{key}: acknowledged {said}, and there are fewer updates")

    def acknowledged_at(self, agent):
        """An agent takes for acknowledged only what the task's own framework has acknowledged."""
        for task in agent.state.tasks.values():
            said = self.sent_acks.get((task.framework, task.key), [])
            check(task.acked <= len(said), f"{task.key}: {task.acked} acknowledged at the agent, and {said} by its framework")

    def delivered(self, number):
        if number in self.calls:
            self.call_delivered(self.calls[number]["call"])
        elif "report" in self.mails[number][1]:
            self.reported(self.mails[number][1]["report"])

    def call_delivered(self, call):
        kind, framework = call["type"], call.get("framework_id", {}).get("value")
        if kind == "ACCEPT":
            self.accepting = (call, framework, self.used(framework, call["accept"]["offer_ids"]))
        elif kind == "DECLINE":
            self.used(framework, call["decline"]["offer_ids"])
        elif kind == "TEARDOWN":
            self.withdraw(lambda offer: offer.framework == framework)
        elif kind == "SUBSCRIBE" and "id" in call["subscribe"]["framework_info"]:
            again = call["subscribe"]["framework_info"]["id"]["value"]
            self.withdraw(lambda offer: offer.framework == again)

    def used(self, framework, ids):
        """Withdraws the named offers that are current and the framework's, and returns them, one for each time that it is named."""
        mine = [self.offers[id["value"]] for id in ids if id["value"] in self.offers and self.offers[id["value"]].framework == framework]
        self.withdraw(lambda offer: offer in mine)
        return mine

    def launched_by(self, call, framework, mine, launches):
        """What an ACCEPT launches is listed in it, on the agent of the offers that it uses, which were current and its framework's, and fits their sum."""
        if not launches:
            return
        ids = call["accept"]["offer_ids"]
        check(len(mine) == len(ids) and len({offer.id for offer in mine}) == len(ids), f"a launch on offers {ids}, of which {len(mine)} are current and its own")
        check(len({offer.agent for offer in mine}) == 1, f"a launch on offers {ids} of several agents")
        check(covers(total_of(offer.resources for offer in mine), total_of(launch["resources"] for _, launch in launches)), "launches of more than was offered")
        listed = [task for operation in call["accept"].get("operations", []) for task in operation["launch"]["task_infos"]]
        named = [(task["task_id"]["value"], task["agent_id"]["value"], amounts_of(task["resources"])) for task in listed]
        for to, launch in launches:
            check(launch["key"] not in self.launched, f"{launch['key']} is launched twice")
            check(launch["framework"] == framework and to == mine[0].agent, f"{launch} on {to} by {framework}")
            check((launch["name"], to, launch["resources"]) in named, f"{launch} isn't listed")
            self.launched[launch["key"]] = (framework, to)

    # sessions

    def closes(self, agent):
        self.books.pop(agent, None)
        if agent in self.open:
            self.closed[agent] = max(self.closed.get(agent, 0), self.open.pop(agent))

    def reported(self, report):
        agent, session = report["agent"], report["session"]
        if session > self.open.get(agent, self.closed.get(agent, 0)):
            self.withdraw(lambda offer: offer.agent == agent)
            self.closes(agent)
            self.open[agent], self.books[agent] = session, report["total"]

    def withdraw(self, leaves):
        self.offers = {id: offer for id, offer in self.offers.items() if not leaves(offer)}

    # the promise

    def offered_on(self, agent):
        return total_of(offer.resources for offer in self.offers.values() if offer.agent == agent)

    def fits(self):
        for name, agent in self.agents.items():
            live = total_of(task.resources for task in agent.state.live())
            booked = total_of((self.offered_on(name), live))
            check(covers(agent.state.total, booked), f"{name} owns {agent.state.total}, and offers and tasks have {booked}")
            reported = self.books.get(name, {})
            check(covers(reported, self.offered_on(name)), f"{name} reported {reported}, and offers have {self.offered_on(name)}")
            for task in agent.state.tasks.values():
                check(self.launched.get(task.key) == (task.framework, name), f"no entry launched {task.key} of {task.framework} on {name}")

    def table(self):
        """Returns the table at the end, as it has to be printed."""
        lines = []
        for name in sorted(self.agents):
            agent = self.agents[name]
            live = total_of(task.resources for task in agent.state.live())
            lines.append(f"agent {name} owns {text_of(agent.state.total)} offered {text_of(self.offered_on(name))} live {text_of(live)}")
            for key in sorted(agent.state.tasks, key=key_order):
                task = agent.state.tasks[key]
                last = task.updates[-1] if task.updates else "TASK_STAGING"
                lines.append(f"task {key} {task.framework} {task.name} {last} acked {task.acked} of {len(task.updates)}")
        return lines + [f"entries {self.entries}"]


def outputs_of_mails(outputs):
    return [json.loads(line.split(" ", 3)[3]) for line in outputs if line.startswith("# ")]
