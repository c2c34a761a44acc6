"""What an agent does at each cause, kept apart from the program: its record, its session, its draft, and the mails that a commit sends."""
import copy

TERMINAL = ("TASK_FINISHED", "TASK_FAILED", "TASK_KILLED", "TASK_LOST", "TASK_ERROR")


class Task:
    """A task of a record: its states in order, and how many of the first are acknowledged."""

    def __init__(self, launch):
        self.key, self.framework, self.name = launch["key"], launch["framework"], launch["name"]
        self.resources, self.updates, self.acked = launch["resources"], [], 0

    def ended(self):
        return any(state in TERMINAL for state in self.updates)

    def front(self):
        """Returns the number of the first update that isn't acknowledged, or None."""
        return self.acked if self.acked < len(self.updates) else None


class State:
    """What an agent is: what a stop keeps (total, run, session, tasks by their keys), and what it loses (whether a session is open, the count of applied commands)."""

    def __init__(self, total):
        self.total, self.run, self.session, self.tasks = total, 0, 0, {}
        self.in_session, self.applied = False, 0

    def live(self):
        return [task for task in self.tasks.values() if not task.ended()]


def covers(total, amounts):
    return all(amount <= total.get(name, 0) for name, amount in amounts.items())


def key_order(key):
    """Returns what launch keys are ordered by: the run, then the number."""
    run, _, number = key[1:].partition("-")
    return int(run), int(number)


class Agent:
    """An agent beside the one that the program runs. `prepare` gives the refusal or None, and leaves a draft; its mails are what the commit has to send."""

    def __init__(self, name, total):
        self.name = name
        self.state, self.draft, self.mails = State(total), None, []
        self.appended = {}

    # mails

    def front_of(self, state, task):
        k = task.front()
        if k is None:
            return []
        said = {"agent": self.name, "ended": task.ended(), "k": k, "key": task.key, "session": state.session, "state": task.updates[k]}
        return [{"update": said}]

    def fronts(self, state):
        if not state.in_session:
            return []
        return [mail for key in sorted(state.tasks, key=key_order) for mail in self.front_of(state, state.tasks[key])]

    def front_at(self, state, key):
        return self.front_of(state, state.tasks[key]) if key in state.tasks else []

    def report(self, state):
        tasks = []
        for key in sorted(state.tasks, key=key_order):
            task = state.tasks[key]
            sent = min(task.acked + 1, len(task.updates))
            last = task.updates[sent - 1] if sent else "TASK_STAGING"
            tasks.append({"ended": task.ended(), "framework": task.framework, "key": key, "name": task.name, "resources": task.resources, "sent": sent, "state": last})
        return {"report": {"agent": self.name, "run": state.run, "session": state.session, "tasks": tasks, "total": state.total}}

    def applied_mail(self, state):
        return {"applied": {"agent": self.name, "n": state.applied, "session": state.session}}

    # causes

    def opens(self, state, last, run):
        state.session, state.run, state.in_session, state.applied = last + 1, run, True, 0
        return [self.report(state)] + self.fronts(state)

    def start(self, state, total):
        if state.run == 0:
            return "A2 OldSession"
        if total is not None:
            if not covers(total, state.total):
                return "A11 TotalLess"
            state.total = total
        return self.opens(state, state.session, state.run)

    def hello(self, state, said):
        run, dead = said["run"], said["dead"]
        if run < state.run:
            return "A2 OldSession"
        if run > state.run or dead >= state.session or not state.in_session:
            return self.opens(state, max(state.session, dead), run)
        return [self.report(state)] + self.fronts(state)

    def has_room(self, state, resources):
        taken = lambda name: sum(task.resources.get(name, 0) for task in state.live())
        return all(amount + taken(name) <= state.total.get(name, 0) for name, amount in resources.items())

    def command(self, state, said):
        if not state.in_session or said["session"] != state.session:
            return "A2 OldSession"
        if said["n"] <= state.applied:
            return [self.applied_mail(state)]
        if said["n"] != state.applied + 1:
            return "A3 NotNext"
        what = said["what"]
        if "launch" in what and not self.has_room(state, what["launch"]["resources"]):
            return "A6 NoRoom"
        state.applied += 1
        return [self.applied_mail(state)] + self.apply(state, what)

    def apply(self, state, what):
        if "launch" in what:
            state.tasks[what["launch"]["key"]] = Task(what["launch"])
        elif "kill" in what:
            self.append(state, what["kill"], "TASK_KILLED")
            return self.front_at(state, what["kill"])
        elif "ack" in what:
            return self.acknowledge(state, what["ack"]["key"], what["ack"]["k"])
        else:
            framework = what["end_framework"]
            state.tasks = {key: task for key, task in state.tasks.items() if task.framework != framework}
        return []

    def append(self, state, key, new):
        if key in state.tasks and not state.tasks[key].ended():
            state.tasks[key].updates.append(new)

    def acknowledge(self, state, key, k):
        task = state.tasks.get(key)
        if task is None or task.front() != k:
            return []
        task.acked += 1
        if task.ended() and task.front() is None:
            del state.tasks[key]
        return self.front_at(state, key)

    def executor(self, state, key, new):
        task = state.tasks.get(key)
        if task is None:
            return "A4 NoSuchTask"
        if task.ended():
            return "A5 Ended"
        task.updates.append(new)
        return self.front_at(state, key) if state.in_session else []

    # steps

    def prepare(self, step, mail):
        """Prepares at a step's cause; the mail is the one that it names. Returns the refusal, or None where there is a draft now."""
        state = copy.deepcopy(self.state)
        if mail is not None:
            to, text = mail
            if to != self.name:
                return "A1 NotForMe"
            answer = self.hello(state, text["hello"]) if "hello" in text else self.command(state, text["cmd"])
        elif "launch" in step:
            answer = self.executor(state, step["launch"], step["state"])
        elif step["cause"] == "again":
            answer = self.fronts(state)
        else:
            answer = self.start(state, step.get("total"))
        if isinstance(answer, str):
            return answer
        self.draft, self.mails = state, answer
        return None

    def take_draft(self):
        """Makes the draft the agent's state. What it has of updates stands in the record from now on."""
        self.state, self.draft = self.draft, None
        for key, task in self.state.tasks.items():
            self.appended[key] = list(task.updates)

    def stop(self, keep):
        if keep == "after":
            self.take_draft()
        self.draft = None
        self.state.in_session, self.state.applied = False, 0
