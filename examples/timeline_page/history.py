"""A replayed history, and what stood at each of its entries.

Time is the number of an entry: what entry 7 changes stands from 7 on. An offer is current from its OFFERS event to a RESCIND
event, an accepted ACCEPT or DECLINE of its framework that names it, the end of its framework's stream, or a stop of the master.
A task is live from the commit (or the stop that keeps the draft) of the launch that its agent prepared, until a terminal state
or the end of its framework is committed so. What the master has booked and the agent doesn't run (a launch on its way, an end
that wasn't heard of) is booked alone.

No printed line says which offers an ACCEPT or a DECLINE ended, what a draft changes, whether its command was applied before, or
whether a Report opened a session: that is inferred by the rules of docs/DEFINITIONS.md, and the table at the end of the output
checks it for the last moment. What follows a refusal for want of memory isn't known.
"""
import json
import re

TERMINAL = ("TASK_FINISHED", "TASK_FAILED", "TASK_KILLED", "TASK_LOST", "TASK_ERROR")
WITHOUT_MEMORY = "OutOfMemory"


class Unreadable(Exception):
    """A text that is no input or no output of a replay."""


def lines_of(path):
    """The lines of a file that aren't blank."""
    with open(path, encoding="utf-8", errors="replace", newline="\n") as text:
        return [line for line in text.read().split("\n") if line.strip(" \t\r")]


class Entry:
    """An entry of the output: its number, its verdict, and its outputs as (mark, where, what)."""

    def __init__(self, number, verdict):
        self.number, self.verdict, self.outputs = number, verdict, []


def read_output(path):
    """Returns the entries of an output, and the lines of the table at its end."""
    entries, table = [], []
    for line in lines_of(path):
        head, _, rest = line.partition(" ")
        if head.isdigit():
            entries.append(Entry(int(head), rest))
        elif head in ("agent", "task", "entries"):
            table.append(line)
        else:
            found = re.fullmatch(r"(\d+ \S+|\S+) ?(.*)", rest)
            if not entries or not found:
                raise Unreadable(f"{path}: no line of an output: {line[:60]}")
            where, what = found.groups()
            entries[-1].outputs.append((head, where, json.loads(what) if what.startswith("{") else what or "closed"))
    if not entries:
        raise Unreadable(f"{path} has no entry")
    return entries, table


def read_steps(path, count):
    """Returns the configuration of an input, and its first steps."""
    config, *steps = (json.loads(line, strict=False) for line in lines_of(path)[: count + 1])
    if len(steps) < count:
        raise Unreadable(f"{path} has {len(steps)} steps, and the output {count}")
    return config, steps


def kind_of(what):
    """The kind of a call, an event or a mail."""
    return what if isinstance(what, str) else what.get("type") or next(iter(what), "")


def order(name):
    """Orders F1-10 behind F1-9."""
    return [int(it) for it in re.findall(r"\d+", name)]


def amounts(resources):
    return ", ".join(f"{name} {amount:,}" for name, amount in sorted(resources.items())) or "nothing"


def with_ends(rows, end):
    """Each row, which begins with its entry, beside the entry at which the next begins."""
    return zip(rows, [row[0] for row in rows[1:]] + [end])


class Task:
    """A task that was launched: where, what it holds, its states, and what happened to it."""

    def __init__(self, key, agent, job, at):
        self.key, self.agent, self.at, self.end = key, agent, at, None
        self.framework, self.name = job["framework"], job["name"]
        self.resources, self.offers = job["resources"], job.get("offers", [])
        self.updates, self.acknowledged, self.heard = [], 0, 0
        self.marks, self.spans = [(at, "launch", "launched")], []

    def has_ended(self):
        return bool(self.updates) and self.updates[-1] in TERMINAL

    def state(self):
        return self.updates[-1][5:] if self.updates else "LOST" if self.end else "STAGING"

    def note(self, at, symbol, words):
        self.marks.append((at, symbol, words))

    def told(self):
        """What a reader sees who points at the task."""
        marks = self.marks if len(self.marks) < 12 else [*self.marks[:6], ("..", "", "")] + self.marks[-5:]
        offers = ", ".join(self.offers) or "not printed"
        rows = [f"task {self.name} ({self.key}), {self.state()}", f"{self.framework} on {self.agent}: {amounts(self.resources)}"]
        return "\n".join([*rows, f"offers used: {offers}", *(f"{at}  {words}" for at, _, words in marks)])


class Agent:
    """An agent's record and draft, and what the master has of it."""

    def __init__(self, name, total):
        self.name, self.total = name, total
        self.tasks, self.applied, self.draft = {}, {}, None
        self.session, self.booked, self.commands = None, {}, {}
        self.pictures, self.sessions, self.drafts, self.marks, self.unknown = [(0, (), total)], [], [], [], []

    def held(self, history):
        """What stands on the agent: rows (kind, framework, key, resources), the live tasks first, the current offers last."""
        live = [it for it in self.tasks.values() if not it.has_ended()]
        booked = [history.tasks[key] for key, ended in self.booked.items() if not ended]
        alone = [it for it in booked if it not in live]
        rows = [(kind, it.framework, it.key, it.resources) for kind, tasks in (("live", live), ("booked", alone)) for it in tasks]
        offers = [(key, it) for key, it in history.current.items() if it["agent"] == self.name]
        rows += [("offered", it["framework"], key, it["resources"]) for key, it in offers]
        return tuple(sorted(rows, key=lambda row: (("live", "booked", "offered").index(row[0]), order(row[1]), order(row[2]))))

    def look(self, now, history):
        """Notes what stands on the agent from now on, where that is new."""
        picture = (self.held(history), self.total)
        if picture != self.pictures[-1][1:]:
            self.pictures.append((now, *picture))

    def close(self, now, booked, why, tasks):
        """The agent's session ends at the master, which has these bookings from then on."""
        if self.session is not None:
            self.sessions[-1][1], self.session = now, None
        for key, ended in self.booked.items():
            if key not in booked:
                self.leave(now, key, ended, why, tasks)
        self.booked = booked

    def leave(self, now, key, ended, why, tasks):
        if why and not ended:
            tasks[key].note(now, "lost", f"TASK_LOST ({why})")
        if key not in self.tasks:
            tasks[key].end = tasks[key].end or now


class History:
    """The agents, tasks, offers, streams and runs of a history, each with the entries between which it stood."""

    def __init__(self, config, steps, entries):
        totals = {name: {it: int(amount) for it, amount in total.items()} for name, total in config["agents"].items()}
        self.agents = {name: Agent(name, total) for name, total in sorted(totals.items())}
        self.tasks, self.offers, self.current, self.mails, self.streams = {}, {}, {}, {}, {}
        self.runs, self.ticks, self.refused, self.texts, self.touched, self.busy = [0], [], [], [], set(), {0}
        for entry in entries:
            self.enter(steps[entry.number - 1] if entry.number else {"step": "opening"}, entry)
        self.length = self.now + 1
        named = {it["framework"] for it in self.streams.values()} | {it.framework for it in self.tasks.values()}
        self.frameworks = sorted(named, key=order)
        for agent in self.agents.values():
            self.spread(agent)

    def enter(self, step, entry):
        """Takes an entry: what its step does where it was accepted, and its outputs."""
        self.now = entry.number
        if entry.verdict == "ok":
            self.take(step, step["step"], self.touch(step["agent"]) if "agent" in step else None)
        else:
            self.refused.append((self.now, entry.verdict.split(" ")[0]))
        if WITHOUT_MEMORY in entry.verdict:
            for agent in self.agents.values():
                agent.unknown.append(self.now)
        for output in entry.outputs:
            self.put_out(step, *output)
        self.texts.append(self.told(step, entry))
        if self.touched or entry.verdict != "ok" or entry.outputs:
            self.busy.add(self.now)
        while self.touched:
            self.agents[self.touched.pop()].look(self.now, self)

    def touch(self, name):
        """The agent of that name, which the entry may change."""
        self.touched.add(name)
        return self.agents[name]

    def take(self, step, kind, agent):
        if kind == "deliver":
            self.deliver(kind_of(self.mails[step["mail"]]), self.mails[step["mail"]])
        elif kind == "tick":
            self.ticks.append((self.now, int(step["now"])))
        elif kind == "lose" and agent.session is not None:
            agent.marks.append((self.now, "lost", "session lost"))
            agent.close(self.now, {}, "agent lost", self.tasks)
        elif kind == "stop_master":
            self.stop_master()
        elif kind == "prepare":
            agent.draft = (self.now, step)
        elif kind in ("commit", "stop_agent"):
            self.settle(agent, step, kind)

    def stop_master(self):
        self.runs.append(self.now)
        self.end_offers(list(self.current), "master stopped")
        for name in self.agents:
            self.touch(name).close(self.now, {}, "", self.tasks)
        for stream in self.streams.values():
            if stream["end"] is None:
                stream["end"] = self.now

    def settle(self, agent, step, kind):
        """A draft is committed or dropped, by a commit or by a stop of the agent."""
        kept = step.get("keep") != "before"
        if agent.draft:
            agent.drafts.append((agent.draft[0], self.now, "commit" if kept else "drop"))
            self.keep(agent, agent.draft[1] if kept else {})
        agent.draft = None
        if kind == "stop_agent":
            agent.marks.append((self.now, "stop", f"agent stops, keeps what was {step['keep']} its draft"))

    def deliver(self, kind, mail):
        if kind in ("ACCEPT", "DECLINE"):
            named = [it["value"] for it in mail[kind.lower()]["offer_ids"]]
            own = [it for it in named if self.current.get(it, {}).get("framework") == mail["framework_id"]["value"]]
            self.end_offers(own, kind.lower())
        elif "type" not in mail:
            body = mail[kind]
            handle = {"report": self.take_report, "applied": self.take_applied, "update": self.take_update}.get(kind)
            if handle:
                handle(self.touch(body["agent"]), body)

    def take_report(self, agent, report):
        if agent.session == report["session"]:
            return
        for job in report["tasks"]:
            self.tasks.setdefault(job["key"], Task(job["key"], agent.name, job, self.now))
        agent.close(self.now, {job["key"]: job["ended"] for job in report["tasks"]}, "not reported", self.tasks)
        agent.session = report["session"]
        agent.sessions.append([self.now, None])
        agent.marks.append((self.now, "open", f"session {agent.session} opens"))

    def take_applied(self, agent, applied):
        issued = agent.commands.items()
        done = [what for (session, n), what in issued if session == applied["session"] and n <= applied["n"]]
        gone = {it.get("end_framework") for it in done}
        agent.booked = {key: ended for key, ended in agent.booked.items() if self.tasks[key].framework not in gone}

    def take_update(self, agent, update):
        if update["key"] not in agent.booked:
            return
        task = self.tasks[update["key"]]
        agent.booked[task.key] |= update["ended"]
        if update["k"] >= task.heard:
            task.heard = update["k"] + 1
            task.note(self.now, "heard", f"master hears {update['state'][5:]}")

    def keep(self, agent, step):
        """The draft that the agent prepared at this step is its record."""
        command = self.mails.get(step.get("mail"), {}).get("cmd")
        if step.get("cause") == "start":
            agent.total = {it: int(amount) for it, amount in step.get("total", agent.total).items()}
            agent.marks.append((self.now, "start", f"agent starts, owns {amounts(agent.total)}"))
        if command and command["n"] > agent.applied.get(command["session"], 0):
            agent.applied[command["session"]] = command["n"]
            self.apply(agent, *next(iter(command["what"].items())))
        elif step.get("state") and step.get("launch") in agent.tasks:
            self.update(agent.tasks[step["launch"]], step["state"])

    def apply(self, agent, kind, what):
        """A command that the agent applies for the first time."""
        task = agent.tasks.get(what if isinstance(what, str) else what["key"])
        if kind == "launch":
            task = agent.tasks[what["key"]] = self.tasks[what["key"]]
            task.end = None
            task.note(self.now, "has", "in the agent's record")
        elif kind == "ack" and task and task.acknowledged == what["k"] < len(task.updates):
            task.acknowledged += 1
            task.note(self.now, "ack", f"{task.updates[what['k']][5:]} acknowledged")
        for done in [it for it in agent.tasks.values() if it.framework == what or self.is_done(it)]:
            done.note(self.now, "gone" if done.has_ended() else "lost", "leaves the agent's record")
            agent.tasks.pop(done.key).end = self.now
        if kind == "kill" and task:
            self.update(task, "TASK_KILLED")

    @staticmethod
    def is_done(task):
        return task.has_ended() and task.acknowledged == len(task.updates)

    def update(self, task, state):
        if not task.has_ended():
            task.updates.append(state)
            task.note(self.now, "end" if state in TERMINAL else "run", f"{state[5:]} at the agent")

    def end_offers(self, keys, why):
        for offer in [self.current.pop(it) for it in sorted(set(keys) & set(self.current))]:
            offer["why"] = f"to {self.now}: {why}"
            self.touch(offer["agent"])

    def put_out(self, step, mark, where, what):
        kind = kind_of(what)
        if mark == "x" and where in self.streams:
            self.close_stream(where, kind_of(self.mails.get(step.get("mail"), "")) or step["step"])
        elif mark == "#":
            self.mails[int(where.split(" ")[0])] = step["call"] if isinstance(what, str) else what
            if kind == "cmd":
                self.send(what["cmd"])
        elif mark == ">" and kind == "SUBSCRIBED":
            framework = what["subscribed"]["framework_id"]["value"]
            self.streams[where] = {"at": self.now, "end": None, "framework": framework, "why": "stop_master"}
        elif mark == ">" and kind == "RESCIND":
            self.end_offers([what["rescind"]["offer_id"]["value"]], "rescinded")
        elif mark == ">" and kind == "OFFERS":
            for offer in what["offers"]["offers"]:
                self.offer(offer)

    def close_stream(self, name, why):
        stream = self.streams[name]
        stream["end"], stream["why"] = self.now, why
        self.end_offers([key for key, it in self.current.items() if it["framework"] == stream["framework"]], "stream closed")

    def send(self, command):
        """A command is sent to an agent, or sent again."""
        agent, job = self.touch(command["agent"]), command["what"].get("launch")
        agent.commands[command["session"], command["n"]] = command["what"]
        if job and job["key"] not in self.tasks:
            self.tasks[job["key"]] = Task(job["key"], agent.name, job, self.now)
            agent.booked[job["key"]] = False

    def offer(self, offer):
        resources = {it["name"]: it["scalar"]["value"] for it in offer["resources"]}
        made = {"framework": offer["framework_id"]["value"], "agent": self.touch(offer["agent_id"]["value"]).name}
        self.offers[offer["id"]["value"]] = self.current[offer["id"]["value"]] = {
            **made, "at": self.now, "resources": resources, "why": "to the end"}

    def told(self, step, entry):
        """What a reader sees who points at the entry."""
        words = [f"{key} {value}" for key, value in step.items() if key not in ("step", "call", "total")]
        words = [step["step"], kind_of(step.get("call", "")), *words, kind_of(self.mails.get(step.get("mail"), ""))]
        rows = [f"{mark} {where} {kind_of(what)}" for mark, where, what in entry.outputs[:6]]
        more = [f"and {len(entry.outputs) - 6} more"] * (len(entry.outputs) > 6)
        return "\n".join([f"entry {self.now}: {entry.verdict}", " ".join(filter(None, words)), *rows, *more])

    def spread(self, agent):
        """Notes at each task of an agent between which entries it stood there, and how."""
        for (at, rows, _), until in with_ends(agent.pictures, self.length):
            for kind, _, key, _ in rows:
                if kind != "offered":
                    spans = self.tasks[key].spans
                    begins = spans.pop()[1] if spans and (spans[-1][0], spans[-1][2]) == (kind, at) else at
                    spans.append([kind, begins, until])

    def most_taken(self):
        """How many hundredths of what an agent owns are taken at most, of one resource at one entry."""
        taken = [-(-100 * sum(row[3].get(name, 0) for row in rows) // amount)
                 for agent in self.agents.values() for _, rows, total in agent.pictures for name, amount in total.items() if amount]
        return max(taken, default=0)

    def differing(self, table):
        """The agents of which the table says something else than what stands at the end."""
        return [name for name, *told in map(agent_row, filter(lambda it: it.startswith("agent "), table)) if told != self.at_the_end(name)]

    def at_the_end(self, name):
        """What the agent owns, what is offered of it, and what its live tasks hold."""
        sums = {"offered": {}, "live": {}, "booked": {}}
        for kind, _, _, resources in self.agents[name].pictures[-1][1]:
            for it, amount in resources.items():
                sums[kind][it] = sums[kind].get(it, 0) + amount
        return [self.agents[name].total, sums["offered"], sums["live"]]


def agent_row(line):
    """The name, and what the agent owns, what is offered and what is live, of a line of the table."""
    name, *parts = re.split(" owns | offered | live ", line[len("agent "):])
    words = [[it.rpartition(":") for it in part.split(" ") if it != "-"] for part in parts]
    return [name, *({it: int(amount) for it, _, amount in part} for part in words)]
