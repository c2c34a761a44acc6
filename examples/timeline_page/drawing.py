"""The page of a history: what its script draws, as one value of JSON, and the page around it."""
import json
import os
import re
from html import escape

from .history import amounts, order, with_ends

HERE = os.path.dirname(os.path.abspath(__file__))
# From how many entries on a stretch in which nothing changed is drawn short, and how long: in entries.
IDLE, SHORT = 24, 6


class Scale:
    """Where an entry is drawn: entries stand side by side, but for idle stretches, which are drawn short."""

    def __init__(self, busy, length):
        self.points, place, at = [(0, 0)], 0, 0
        for entry in [*sorted(busy), length]:
            if entry - at > IDLE:
                self.points += [(at + 1, place + 1), (entry, place + 1 + SHORT)]
                place, at = place + 1 + SHORT, entry
            else:
                place, at = place + entry - at, entry
        self.points.append((length, place))
        self.length = place

    def place(self, entry):
        """The place of an entry, in entries that are drawn."""
        low, high = 0, len(self.points) - 1
        while high - low > 1:
            middle = (low + high) // 2
            low, high = (middle, high) if self.points[middle][0] <= entry else (low, middle)
        (at, place), (until, end) = self.points[low], self.points[high]
        return place if until == at else round(place + (end - place) * (entry - at) / (until - at), 3)


def stack(history, agent, name):
    """Of one resource of an agent the cells (kind, framework, key, low, high, from, until), what stays the same joined."""
    held, cells = {}, []
    for (at, rows, total), _ in with_ends(agent.pictures, history.length):
        level, now = 0, [("free", 0, "", 0, total.get(name, 0))]
        for kind, framework, key, resources in (it for it in rows if it[3].get(name)):
            now.append((kind, history.frameworks.index(framework), key, level, level + resources[name]))
            level += resources[name]
        kept = set(now)
        cells += [(*cell, since, at) for cell, since in held.items() if cell not in kept]
        held = {cell: held.get(cell, at) for cell in now}
    cells += [(*cell, since, history.length) for cell, since in held.items()]
    return sorted(cells, key=lambda it: (it[0] != "free", it[5]))


def drawn_agent(history, scale, agent):
    place = scale.place
    bands = []
    for name in sorted(agent.total):
        cells = [[*cell[:5], place(cell[5]), place(cell[6])] for cell in stack(history, agent, name)]
        bands.append({"name": name, "most": max(it[name] for *_, it in agent.pictures if name in it), "cells": cells})
    drafts = [[place(at), place(until), how, at, until] for at, until, how in agent.drafts]
    if agent.draft:
        drafts.append([place(agent.draft[0]), scale.length, "", agent.draft[0], history.length])
    return {
        "name": agent.name, "bands": bands, "drafts": drafts,
        "sessions": [[place(at), place(history.length if until is None else until), at] for at, until in agent.sessions],
        "marks": [[place(at), symbol, words, at] for at, symbol, words in agent.marks],
        "unknown": [place(it) for it in agent.unknown],
    }


def drawn_task(history, scale, task):
    end = max([task.end or history.length, *(until for _, _, until in task.spans)])
    return {
        "key": task.key, "name": task.name, "state": task.state(), "from": scale.place(task.at), "until": scale.place(end),
        "spans": [[kind, scale.place(at), scale.place(until)] for kind, at, until in task.spans],
        "marks": [[scale.place(at), symbol, words, at] for at, symbol, words in task.marks],
    }


def drawn_framework(history, scale, framework):
    streams = [(name, it) for name, it in history.streams.items() if it["framework"] == framework]
    tasks = sorted((it for it in history.tasks.values() if it.framework == framework), key=lambda it: (it.at, order(it.key)))
    return {
        "id": framework, "tasks": [drawn_task(history, scale, it) for it in tasks],
        "streams": [[name, scale.place(it["at"]), scale.place(history.length if it["end"] is None else it["end"]),
                     it["why"] if it["end"] is not None else "", it["at"]] for name, it in streams],
    }


def told_offer(key, offer):
    where = f"to {offer['framework']} on {offer['agent']}: {amounts(offer['resources'])}"
    return f"offer {key}\n{where}\nfrom entry {offer['at']} {offer['why']}"


def drawn(history):
    """All that the page's script draws."""
    scale = Scale(history.busy, history.length)
    runs = [[scale.place(at), scale.place(until), at] for (at,), until in with_ends([(it,) for it in history.runs], history.length)]
    told = {key: told_offer(key, it) for key, it in history.offers.items()}
    return {
        "entries": history.length, "length": scale.length, "points": scale.points, "runs": runs, "texts": history.texts,
        "ticks": [[scale.place(at), now, at] for at, now in history.ticks],
        "refused": [[scale.place(at), code, at] for at, code in history.refused],
        "agents": [drawn_agent(history, scale, it) for it in history.agents.values()],
        "frameworks": [drawn_framework(history, scale, it) for it in history.frameworks],
        "told": told | {it.key: it.told() for it in history.tasks.values()},
        "named": {it.key: [it.name, *it.offers] for it in history.tasks.values()},
    }


def badges(history, table):
    """What was checked: (whether it is well, text)."""
    most, differing = history.most_taken(), history.differing(table)
    first = (most <= 100, f"never more than an agent owns: at most {most} %" if most <= 100 else f"more than an agent owns: {most} %")
    if not table:
        return [first, (False, "unchecked: the output has no table at its end")]
    if differing:
        return [first, (False, f"not as the table at the end says: {', '.join(differing)}")]
    return [first, (True, "as the table at the end says")]


def rows_of(table):
    """The table at the end: rows of its agents, and of its tasks with the agent that each is of."""
    agents, tasks = [], []
    for line in table:
        kind, _, rest = line.partition(" ")
        if kind == "agent":
            name, _, rest = rest.partition(" owns ")
            agents.append([name, *rest.replace(" offered ", " live ").split(" live ")])
        elif kind == "task":
            key, framework, name, state, _, acknowledged, _, sent = rest.split(" ")
            tasks.append([state[5:].lower(), name, key, framework, agents[-1][0], f"{acknowledged} of {sent}"])
    return agents, tasks


def table_of(heads, rows):
    cells = [f"<tr>{''.join(f'<th>{escape(it)}</th>' for it in heads)}</tr>"]
    cells += [f"<tr>{''.join(f'<td>{escape(it)}</td>' for it in row)}</tr>" for row in rows]
    return f"<table>{''.join(cells)}</table>" if rows else ""


def facts(history):
    counts = {"agent": history.agents, "framework": history.frameworks, "master run": history.runs, "task": history.tasks,
              "offer": history.offers, "refusal": history.refused}
    return " · ".join([f"{history.length - 1:,} steps", *(f"{len(of):,} {word}{'s' * (len(of) != 1)}" for word, of in counts.items())])


def page(history, table, title):
    """The page, as one text of HTML that names no other file."""
    agents, tasks = rows_of(table)
    said = "".join(f'<span class="badge {"well" if is_well else "ill"}">{escape(text)}</span>' for is_well, text in badges(history, table))
    values = {
        "TITLE": escape(title), "FACTS": escape(facts(history)), "BADGES": said, "STYLE": text_of("page.css"), "SCRIPT": text_of("page.js"),
        "AGENTS": table_of(["agent", "owns", "offered", "live"], agents),
        "TASKS": table_of(["last state", "task", "key", "framework", "agent", "acknowledged"], tasks),
        "DATA": json.dumps(drawn(history), ensure_ascii=False, separators=(",", ":")).replace("<", "\\u003c"),
    }
    return re.sub("%([A-Z]+)%", lambda found: values[found[1]], text_of("page.html"))


def text_of(name):
    with open(os.path.join(HERE, name), encoding="utf-8") as it:
        return it.read()
