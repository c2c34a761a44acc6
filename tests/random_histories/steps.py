"""Steps by chance: what a framework, an agent, the net and an operator may do next, with repeats, reorderings and restarts."""

STATES = ("TASK_RUNNING",) * 6 + ("TASK_FINISHED", "TASK_FAILED")
ROLES = ("*", "one", "two")
# How often each kind of step is tried, against the others.
WEIGHTS = {
    "subscribe": 8, "accept": 60, "decline": 3, "kill": 4, "acknowledge": 50, "reconcile": 1, "revive": 1, "suppress": 0.3, "teardown": 0.4,
    "deliver": 90, "deliver_again": 6, "prepare": 60, "prepare_again": 5, "executor": 25, "commit": 120, "cause": 2, "grow": 2, "take": 50, "allocate": 6, "tick": 2,
    "lose": 0.5, "hangup": 0.5, "stop_agent": 1, "stop_master": 0.6,
}  # fmt: skip


def scalar(name, value):
    return {"name": name, "type": "SCALAR", "scalar": {"value": value}}


class Steps:
    """What may come next in a story; a kind that has nothing to do gives None."""

    def __init__(self, rng, story):
        self.rng, self.story, self.now = rng, story, 0
        self.delivered, self.all_streams = set(), []
        self.kinds, self.weights = list(WEIGHTS), list(WEIGHTS.values())

    def next(self):
        while True:
            step = getattr(self, self.rng.choices(self.kinds, self.weights)[0])()
            if step is not None:
                return step

    def pick(self, items):
        items = list(items)
        return self.rng.choice(items) if items else None

    # frameworks

    def send(self, call, framework=None):
        step = {"step": "send", "call": call}
        if framework is not None:
            call["framework_id"] = {"value": framework}
            stream = self.story.streams.get(framework)
            if stream is not None and self.rng.random() < 0.97:
                step["stream"] = stream
        return step

    def subscribe(self):
        if len(self.story.streams) >= 3 and self.rng.random() < 0.9:
            return None
        info = {"user": "u", "name": "n", "role": self.rng.choice(ROLES)}
        known = {call["call"]["framework_id"]["value"] for call in self.story.calls.values() if "framework_id" in call["call"]} | set(self.story.streams)
        if known and (len(known) >= 4 or self.rng.random() < 0.5):
            info["id"] = {"value": self.pick(sorted(known))}
        return self.send({"type": "SUBSCRIBE", "subscribe": {"framework_info": info}})

    def offers_of(self, framework):
        mine = [offer for offer in self.story.offers.values() if offer.framework == framework]
        one = self.pick(mine)
        if one is None:
            return []
        chosen = [one] + [offer for offer in mine if offer is not one and offer.agent == one.agent]
        if self.rng.random() < 0.05:
            chosen.append(self.pick(self.story.offers.values()))
        return chosen

    def task(self, offers):
        agent = offers[0].agent if self.rng.random() < 0.95 else self.pick(self.story.agents)
        resources = [scalar(name, self.rng.randint(1, max(1, amount // 2))) for name, amount in offers[0].resources.items()]
        return {"name": "n", "task_id": {"value": f"t{self.rng.randint(1, 6)}"}, "agent_id": {"value": agent}, "resources": resources}

    def accept(self):
        framework = self.pick(self.story.streams)
        offers = self.offers_of(framework)
        if not offers:
            return None
        tasks = [self.task(offers) for _ in range(self.rng.randint(1, 3))]
        body = {"offer_ids": [{"value": offer.id} for offer in offers], "operations": [{"type": "LAUNCH", "launch": {"task_infos": tasks}}]}
        if self.rng.random() < 0.7:
            body["filters"] = {"refuse_seconds": 0}
        return self.send({"type": "ACCEPT", "accept": body}, framework)

    def decline(self):
        framework = self.pick(self.story.streams)
        offers = self.offers_of(framework)
        return offers and self.send({"type": "DECLINE", "decline": {"offer_ids": [{"value": offer.id} for offer in offers]}}, framework) or None

    def task_of(self, framework):
        return self.pick(task for agent in self.story.agents.values() for task in agent.state.tasks.values() if task.framework == framework)

    def kill(self):
        framework = self.pick(self.story.streams)
        task = self.task_of(framework)
        return task and self.send({"type": "KILL", "kill": {"task_id": {"value": task.name}}}, framework)

    def acknowledge(self):
        """Acknowledges what a Take gave, most often the newest; often once more."""
        framework = self.pick(name for name in self.story.streams if self.story.taken.get(name))
        if framework is None:
            return None
        taken = self.story.taken[framework]
        _, status = taken[-1] if self.rng.random() < 0.6 else self.pick(taken)
        body = {"agent_id": status["agent_id"], "task_id": status["task_id"], "uuid": status["uuid"]}
        return self.send({"type": "ACKNOWLEDGE", "acknowledge": body}, framework)

    def reconcile(self):
        framework = self.pick(self.story.streams)
        tasks = [{"task_id": {"value": f"t{self.rng.randint(1, 6)}"}}] if self.rng.random() < 0.5 else []
        return framework and self.send({"type": "RECONCILE", "reconcile": {"tasks": tasks}}, framework)

    def plain(self, kind):
        framework = self.pick(self.story.streams)
        return framework and self.send({"type": kind}, framework)

    def revive(self):
        return self.plain("REVIVE")

    def suppress(self):
        return self.plain("SUPPRESS")

    def teardown(self):
        return self.plain("TEARDOWN")

    def take(self):
        for stream in self.story.streams.values():
            if stream not in self.all_streams:
                self.all_streams.append(stream)
        told = [stream for stream in self.all_streams if self.story.told.get(stream, 0) > 0]
        stream = self.pick(told if self.rng.random() < 0.95 else self.all_streams)
        return stream and {"step": "take", "stream": stream}

    # the net

    def for_master(self):
        return list(self.story.calls) + [number for number, (to, _) in self.story.mails.items() if to == "master"]

    def deliver(self):
        waiting = [number for number in self.for_master() if number not in self.delivered]
        return self.once(waiting, lambda number: {"step": "deliver", "mail": number})

    def deliver_again(self):
        number = self.pick(self.for_master())
        return number and {"step": "deliver", "mail": number}

    def prepare(self):
        waiting = [number for number, (to, _) in self.story.mails.items() if to != "master" and number not in self.delivered and self.story.agents[to].draft is None]
        return self.once(waiting, lambda number: {"step": "prepare", "agent": self.story.mails[number][0], "mail": number})

    def prepare_again(self):
        number = self.pick(number for number, (to, _) in self.story.mails.items() if to != "master")
        return number and {"step": "prepare", "agent": self.story.mails[number][0], "mail": number}

    def once(self, waiting, step_of):
        """A step of the oldest that waits, or, now and then, of another that does."""
        if not waiting:
            return None
        number = waiting[0] if self.rng.random() < 0.7 else self.pick(waiting)
        self.delivered.add(number)
        return step_of(number)

    # agents and the operator

    def executor(self):
        agent = self.pick(agent for agent in self.story.agents.values() if agent.draft is None and agent.state.tasks)
        if agent is None:
            return None
        live = [task.key for task in agent.state.live()]
        key = self.pick(live if live and self.rng.random() < 0.9 else agent.state.tasks)
        return {"step": "prepare", "agent": agent.name, "launch": key, "state": self.rng.choice(STATES)}

    def commit(self):
        agent = self.pick(agent for agent in self.story.agents.values() if agent.draft is not None)
        return agent and {"step": "commit", "agent": agent.name}

    def cause(self):
        return {"step": "prepare", "agent": self.pick(self.story.agents), "cause": self.rng.choice(("start", "again"))}

    def grow(self):
        """An agent starts with a total, most often one that covers what it owns."""
        agent = self.pick(self.story.agents.values())
        total = {name: amount + self.rng.choice((0, 1, 4)) for name, amount in agent.state.total.items()}
        if self.rng.random() < 0.2:
            total["disk"] = 16
        if self.rng.random() < 0.2:
            total.pop(self.pick(total))
        return {"step": "prepare", "agent": agent.name, "cause": "start", "total": total}

    def allocate(self):
        return {"step": "allocate"}

    def tick(self):
        self.now += self.rng.randint(0, 20)
        return {"step": "tick", "now": self.now}

    def lose(self):
        return {"step": "lose", "agent": self.pick(self.story.agents)}

    def hangup(self):
        stream = self.pick(self.story.streams.values())
        return stream and {"step": "hangup", "stream": stream}

    def stop_agent(self):
        agent = self.pick(self.story.agents.values())
        keep = "after" if agent.draft is not None and self.rng.random() < 0.5 else "before"
        return {"step": "stop_agent", "agent": agent.name, "keep": keep}

    def stop_master(self):
        return {"step": "stop_master"}
