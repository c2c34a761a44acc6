"""Stores as SQLite itself makes them: an agent's record and the master's last run (for the scripts here and in other folders of tests/)."""
import json
import sqlite3
from contextlib import closing

# The tables of a store that keeps a record as one text.
FIRST_TABLES = """
CREATE TABLE agent_record(id INTEGER PRIMARY KEY CHECK (id = 1), body TEXT NOT NULL);
CREATE TABLE run_number(id INTEGER PRIMARY KEY CHECK (id = 1), last INTEGER NOT NULL);
"""
# Those of one that keeps its head in a row, with the total, and each task in a row.
SECOND_TABLES = f"""{FIRST_TABLES}
CREATE TABLE agent_head(id INTEGER PRIMARY KEY CHECK (id = 1), name TEXT NOT NULL, run INTEGER NOT NULL, session INTEGER NOT NULL, total TEXT NOT NULL, version INTEGER NOT NULL);
CREATE TABLE agent_task(run INTEGER NOT NULL, n INTEGER NOT NULL, body TEXT NOT NULL, PRIMARY KEY (run, n));
"""
# Those of one that keeps each amount of the total in a row as well.
TABLES = f"""{SECOND_TABLES}
CREATE TABLE agent_total(name TEXT PRIMARY KEY, amount INTEGER NOT NULL);
"""


def task_text(number, name, resources, updates, acked=0):
    """The text of a task that the master of run 1 launched for framework F1-1 on its offer of the same number."""
    parts = {"acked": acked, "framework": "F1-1", "key": f"L1-{number}", "name": name, "offers": [f"O1-{number}"], "resources": resources, "updates": updates}
    return json.dumps(parts, separators=(",", ":"))


# The record of an agent that opened session 5 with the master of run 1, with a task that runs on one of its two cpus.
TASK = task_text(1, "t1", {"cpus": 1}, ["TASK_RUNNING"], acked=1)
RECORD = f'{{"name":"a1","run":1,"session":5,"tasks":[{TASK}],"total":{{"cpus":2}},"version":1}}'
# The statements of a store that has the record as one text.
FIRST_KEPT = f"{FIRST_TABLES} INSERT INTO agent_record VALUES (1, '{RECORD}');"
TASK_KEPT = f" INSERT INTO agent_task VALUES (1, 1, '{TASK}');"
# Of one that has its rows, with the total in the head.
SECOND_KEPT = SECOND_TABLES + """ INSERT INTO agent_head VALUES (1, 'a1', 1, 5, '{"cpus":2}', 1);""" + TASK_KEPT
# And of one that has the total in rows as well.
HEAD_KEPT = " INSERT INTO agent_head VALUES (1, 'a1', 1, 5, '{}', 2);"
TOTAL_KEPT = " INSERT INTO agent_total VALUES ('cpus', 2);"
RECORD_KEPT = TABLES + HEAD_KEPT + TOTAL_KEPT + TASK_KEPT


def run_kept(last, tables=TABLES):
    """The statements of a store in which this run was given out last."""
    return f"{tables} INSERT INTO run_number VALUES (1, {last});"


def made(path, statements):
    """A store at a path that SQLite makes by these statements, as bytes."""
    with closing(sqlite3.connect(path)) as it:
        it.executescript(statements)
        it.commit()
    with open(path, "rb") as it:
        return it.read()


def rows_of(store, table, query):
    """The rows of a query of a table, none where there is no such table."""
    there = store.execute("SELECT 1 FROM sqlite_master WHERE type = 'table' AND name = ?", (table,)).fetchone()
    return store.execute(query).fetchall() if there else []


def record_text(store):
    """The text of the record that a store has, as its rows tell it: None where there is none."""
    heads = rows_of(store, "agent_head", "SELECT name, run, session, total, version FROM agent_head")
    bodies = [body for (body,) in rows_of(store, "agent_task", "SELECT body FROM agent_task ORDER BY run, n")]
    texts = [body for (body,) in rows_of(store, "agent_record", "SELECT body FROM agent_record")]
    if not heads:
        return texts[0] if texts else None
    ((name, run, session, total, version),) = heads
    if version == 2:
        total = json.dumps(dict(rows_of(store, "agent_total", "SELECT name, amount FROM agent_total ORDER BY name")), separators=(",", ":"))
    return f'{{"name":"{name}","run":{run},"session":{session},"tasks":[{",".join(bodies)}],"total":{total},"version":{version}}}'
