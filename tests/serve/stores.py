#!/usr/bin/env python3
"""Records in files that SQLite wrote, cut, overwritten or of another program: a good one is opened again, each other one is refused, and stays as it is.

A record stands in rows, a head's, each task's and each amount's of its total. Stores had it as one text before, and then in rows with the total in the head: such
ones are opened as well, and their first save moves them.
"""
import json
import os
import sqlite3
from contextlib import closing

from cluster import TOLD, Folder, Framework, Server, amounts, check, run_serve, tell
from store_files import (
    FIRST_KEPT, FIRST_TABLES, HEAD_KEPT, RECORD, RECORD_KEPT, SECOND_KEPT, SECOND_TABLES, TABLES, TASK, TASK_KEPT, TOTAL_KEPT, made, record_text, run_kept,
    task_text,
)

AGENTS = {"a1": {"cpus": 2}}
# What a task holds it holds while the script runs.
PACE = ("--task-seconds", "1000")


class Stores:
    """The two stores of a folder: the agent's, as the bytes that it is to have, and the master's, with the last run that was given out."""

    def __init__(self, folder):
        self.folder = folder
        self.agent = os.path.join(folder.state, "agent-a1.db")
        self.master = os.path.join(folder.state, "master.db")

    def clear(self):
        for it in os.scandir(self.folder.state):
            os.remove(it.path)

    def make(self, path, statements):
        """A store that SQLite made by these statements, as bytes."""
        self.clear()
        return made(path, statements)

    def lay(self, data, last=1, tables=TABLES):
        """Puts these bytes as the agent's store beside the master's, in which this run was given out last."""
        master = self.make(self.master, run_kept(last, tables))
        self.clear()
        for path, it in ((self.master, master), (self.agent, data)):
            with open(path, "wb") as file:
                file.write(it)

    def rows(self, query):
        """What SQLite reads of the agent's store, with texts as bytes."""
        with closing(sqlite3.connect(self.agent)) as agent:
            agent.text_factory = bytes
            return agent.execute(query).fetchall()

    def kept(self):
        """The session and the run of the agent's record, and the last run that was given out."""
        with closing(sqlite3.connect(self.agent)) as agent, closing(sqlite3.connect(self.master)) as master:
            record = json.loads(record_text(agent))
            ((last,),) = master.execute("SELECT last FROM run_number").fetchall()
        return record["session"], record["run"], last

    def serve(self, case, run, session, free):
        """A master of this run is served over the stores, the agent opens this session with it, and this is offered of it."""
        with Server(self.folder, *PACE) as server:
            check(server.said.startswith(f"run {run} serves at "), f"{case}: run {run} serves: {server.said}")
            check(Framework(server.port).next_offer(free), f"{case}: a1 is offered")
            server.kill()
        check(self.kept() == (session, run, run), f"{case}: session, run and last run are kept: {self.kept()}")
        check(self.rows("SELECT count(*) FROM agent_record") == [(0,)], f"{case}: no record stands as one text")

    def refuse(self, case, data, code):
        """These bytes are refused, and stay as they are."""
        self.lay(data)
        tell(case, run_serve(self.folder), 3, code)
        with open(self.agent, "rb") as it:
            check(it.read() == data, f"{case}: the file is as it was, byte by byte")

    def refuse_text(self, case, data):
        """A record that stands as one text is refused, and stays as it is: the store has three tables more, which are empty."""
        self.lay(data)
        before = self.rows("SELECT * FROM agent_record")
        tell(case, run_serve(self.folder), 3, "K2 Damaged: ")
        check(self.rows("SELECT * FROM agent_record") == before, f"{case}: the text is as it was")
        for table in ("agent_head", "agent_task", "agent_total"):
            check(self.rows(f"SELECT count(*) FROM {table}") == [(0,)], f"{case}: {table} is empty")

    def refuse_second(self, case, data):
        """A record in rows with the total in the head is refused, and stays as it is: the store has one table more, which is empty."""
        self.lay(data, tables=SECOND_TABLES)
        queries = ("SELECT * FROM agent_head", "SELECT * FROM agent_task")
        before = [self.rows(query) for query in queries]
        tell(case, run_serve(self.folder), 3, "K2 Damaged: ")
        check([self.rows(query) for query in queries] == before, f"{case}: the rows are as they were")
        check(self.rows("SELECT count(*) FROM agent_total") == [(0,)], f"{case}: agent_total is empty")

    def has_moved(self, case, session, run):
        """The record of cpus 2 stands in rows of version 2."""
        head = self.rows("SELECT * FROM agent_head")
        check(head == [(1, b"a1", run, session, b"{}", 2)], f"{case}: the head's row is that of session {session}: {head}")
        total = self.rows("SELECT name, amount FROM agent_total")
        check(total == [(b"cpus", 2)], f"{case}: the total's row is that of the record: {total}")
        check(self.rows("SELECT run, n, body FROM agent_task") == [(1, 1, TASK.encode())], f"{case}: the task's row has what there was")


def overwritten(data, at, others):
    return data[:at] + others + data[at + len(others):]


def try_good(stores, whole):
    """A record that SQLite wrote is opened over, and so is what is made of it: an agent's session and the master's run are counted on."""
    stores.lay(whole)
    stores.serve("a record", run=2, session=6, free={"cpus": 1})
    stores.serve("a record that was saved", run=3, session=7, free={"cpus": 1})
    check(stores.rows("SELECT run, n, body FROM agent_task") == [(1, 1, TASK.encode())], "the task's row is as it was")


def try_first(stores):
    """A record that stands as one text is opened over, and moved: it stands in rows then, whose task is the one that stood in the text."""
    stores.lay(stores.make(stores.agent, FIRST_KEPT), tables=FIRST_TABLES)
    stores.serve("a record of one text", run=2, session=6, free={"cpus": 1})
    stores.has_moved("a record of one text", session=6, run=2)
    stores.serve("a record that was moved", run=3, session=7, free={"cpus": 1})


def try_second(stores):
    """A record in rows with its total in the head is opened over, and moved: the total stands in rows then."""
    stores.lay(stores.make(stores.agent, SECOND_KEPT), tables=SECOND_TABLES)
    stores.serve("a total in the head", run=2, session=6, free={"cpus": 1})
    stores.has_moved("a total in the head", session=6, run=2)
    stores.serve("a total that was moved", run=3, session=7, free={"cpus": 1})


def launched():
    """The statements of stores of each form, in which an agent of cpus 4 and mem 4096 recorded a task of which nothing was told yet."""
    body = task_text(1, "t1", {"cpus": 2, "mem": 1024}, [])
    total = '{"cpus":4,"mem":4096}'
    text = f'{{"name":"a1","run":1,"session":1,"tasks":[{body}],"total":{total},"version":1}}'
    task = f"INSERT INTO agent_task VALUES (1, 1, '{body}');"
    amounts = "INSERT INTO agent_total VALUES ('mem', 4096), ('cpus', 4);"
    return (
        ("one text", f"{FIRST_TABLES} INSERT INTO agent_record VALUES (1, '{text}');"),
        ("rows with the total in the head", f"{SECOND_TABLES} INSERT INTO agent_head VALUES (1, 'a1', 1, 1, '{total}', 1); {task}"),
        ("rows", f"{TABLES} INSERT INTO agent_head VALUES (1, 'a1', 1, 1, '{{}}', 2); {amounts} {task}"),
    )


def try_launched(stores, folder):
    """All but what the task holds is offered, from a store of each form."""
    folder.write({"agents": {"a1": {"cpus": 4, "mem": 4096}}})
    for case, statements in launched():
        stores.lay(stores.make(stores.agent, statements))
        stores.serve(f"a task in {case}", run=2, session=2, free={"cpus": 2, "mem": 3072})
    folder.write({"agents": AGENTS})


def try_grown(stores, folder):
    """From a store of each form the agent comes with what the record says, and then with the larger total that is configured; a smaller one is refused."""
    more = {"cpus": 8, "mem": 8192}
    for case, statements in launched():
        folder.write({"agents": {"a1": more}})
        stores.lay(stores.make(stores.agent, statements))
        with Server(folder, *PACE) as server:
            framework = Framework(server.port)
            while (got := amounts(framework.next("OFFERS")["offers"]["offers"][0]["resources"])) != {"cpus": 6, "mem": 7168}:
                check(got == {"cpus": 2, "mem": 3072}, f"a larger total over {case}: {got} are offered")
            server.kill()
        with closing(sqlite3.connect(stores.agent)) as agent:
            record = json.loads(record_text(agent))
        check((record["total"], [task["name"] for task in record["tasks"]]) == (more, ["t1"]), f"a larger total over {case}: the record is {record}")
        stores.serve(f"a larger total over {case}, again", run=3, session=4, free={"cpus": 6, "mem": 7168})
        folder.write({"agents": {"a1": {"cpus": 2, "mem": 4096}}})
        tell(f"a smaller total over {case}", run_serve(folder), 2, "Z1 TotalDiffers: a1's record has more than is configured")
    folder.write({"agents": AGENTS})


def try_new(stores):
    """A file that isn't there is made, and one of no bytes is as new, so a record that is gone with its whole file isn't missed."""
    whole = {"cpus": 2}
    stores.clear()
    stores.serve("no file", run=1, session=1, free=whole)
    stores.lay(b"")
    stores.serve("an agent's file of no bytes", run=2, session=1, free=whole)
    stores.serve("a record in it", run=3, session=2, free=whole)
    stores.clear()
    with open(stores.master, "wb"), open(stores.agent, "wb"):
        pass
    stores.serve("two files of no bytes", run=1, session=1, free=whole)


def try_others(stores):
    stores.refuse("a text", b"no database, but a text of somebody else", "K1 Store ")
    stores.refuse("other tables", stores.make(stores.agent, "CREATE TABLE note (id INTEGER PRIMARY KEY, words TEXT);"), "K2 Damaged: ")
    loose = "CREATE TABLE agent_record (id INTEGER PRIMARY KEY, body TEXT); CREATE TABLE run_number (id INTEGER PRIMARY KEY, last INTEGER);"
    stores.refuse("tables without their limits", stores.make(stores.agent, loose), "K2 Damaged: ")
    three = FIRST_TABLES + "CREATE TABLE agent_task(run INTEGER NOT NULL, n INTEGER NOT NULL, body TEXT NOT NULL, PRIMARY KEY (run, n));"
    stores.refuse("three tables of the five", stores.make(stores.agent, three), "K2 Damaged: ")
    strict = f"{SECOND_TABLES} CREATE TABLE agent_total(name TEXT PRIMARY KEY NOT NULL, amount INTEGER NOT NULL);"
    stores.refuse("a total's table of another kind", stores.make(stores.agent, strict), "K2 Damaged: ")
    stores.refuse("a table more", stores.make(stores.agent, f"{TABLES} CREATE TABLE note (id INTEGER PRIMARY KEY);"), "K2 Damaged: ")


def try_cuts(stores, whole, page):
    """The header tells how many pages there are."""
    for length in range(page // 2, len(whole), page // 2):
        stores.refuse(f"cut to {length} bytes", whole[:length], "K1 Store ")


def try_overwritten(stores, whole, page):
    # The text that each database begins with, the length of a page, a fraction that is 64, and the kind of the first page.
    for at in (0, 16, 21, 100):
        stores.refuse(f"byte {at} overwritten", overwritten(whole, at, b"\x03"), "K1 Store ")
    stores.refuse("no header", overwritten(whole, 0, bytes(100)), "K1 Store ")
    for table, words in (("head", b"{}"), ("task", TASK.encode())):
        text = whole.index(words)
        start = text - text % page
        # No page is of the kind 3.
        stores.refuse(f"a {table}'s page of no kind", overwritten(whole, start, b"\x03"), "K1 Store ")
        stores.refuse(f"a {table}'s page of zeros", overwritten(whole, start, bytes(page)), "K1 Store ")
        stores.refuse(f"a list in the {table}", overwritten(whole, text, b"["), "K2 Damaged: ")
        stores.refuse(f"a {table} that isn't UTF-8", overwritten(whole, text, b"\xff\xff"), "K2 Damaged: ")
    name = whole.index(b"cpus\x02")
    start = name - name % page
    stores.refuse("a total's page of no kind", overwritten(whole, start, b"\x03"), "K1 Store ")
    stores.refuse("a total's page of zeros", overwritten(whole, start, bytes(page)), "K1 Store ")
    # (the table and the index of its key name other resources then)
    stores.refuse("a resource that isn't UTF-8", overwritten(whole, name, b"\xff\xff"), "K1 Store ")


def try_damaged_text(stores, first, page):
    """The file of a record that stands as one text: where it is cut, or its header is overwritten, it stays byte by byte. A page that can't be read is told of at
    each start; the two other tables may stand in the file by then."""
    try_cuts(stores, first, page)
    for at in (0, 16, 21, 100):
        stores.refuse(f"byte {at} overwritten beside a text", overwritten(first, at, b"\x03"), "K1 Store ")
    stores.refuse("no header beside a text", overwritten(first, 0, bytes(100)), "K1 Store ")
    text = first.index(RECORD.encode())
    start = text - text % page
    for case, others in (("a text's page of no kind", b"\x03"), ("a text's page of zeros", bytes(page))):
        stores.lay(overwritten(first, start, others))
        for time in ("first", "second"):
            tell(f"{case}, {time} start", run_serve(stores.folder), 3, "K1 Store ")
    stores.refuse_text("a text that isn't UTF-8", overwritten(first, text, b"\xff\xff"))


def try_texts(stores):
    """A record of one text is written in one form, and has no session where its agent had no run."""
    for case, text in (
        ("a record with a blank", RECORD.replace('"name":', '"name": ')),
        ("a session of run 0", RECORD.replace('"run":1', '"run":0')),
        ("a record of another version", RECORD.replace('"version":1', '"version":3')),
        ("a record without its end", RECORD[:-1]),
        ("a list for a record", f"[{RECORD[1:]}"),
    ):
        check(text != RECORD, f"{case} is another")
        stores.refuse_text(case, stores.make(stores.agent, FIRST_KEPT.replace(RECORD, text)))


def try_rows(stores):
    """A record stands in one form; the head's row has no total, a total's row an amount of a resource, and a task's row the written form of the task of its
    key."""
    text = f"INSERT INTO agent_record VALUES (1, '{RECORD}');"
    for case, statements in (
        ("rows of both forms", RECORD_KEPT + text),
        ("tasks without a head", TABLES + TASK_KEPT),
        ("amounts without a head", TABLES + TOTAL_KEPT),
        ("a text beside amounts", TABLES + TOTAL_KEPT + text),
        ("a total in the head beside amounts", RECORD_KEPT.replace("'{}', 2)", """'{"cpus":2}', 2)""")),
        ("a head of version 1 beside amounts", RECORD_KEPT.replace("'{}', 2)", """'{"cpus":2}', 1)""")),
        ("an amount of 0", RECORD_KEPT + " INSERT INTO agent_total VALUES ('mem', 0);"),
        ("an amount below 0", RECORD_KEPT + " INSERT INTO agent_total VALUES ('mem', -1);"),
        ("an amount over 2^40", RECORD_KEPT + " INSERT INTO agent_total VALUES ('mem', 1099511627777);"),
        ("an amount that is a text", RECORD_KEPT + " INSERT INTO agent_total VALUES ('mem', 'much');"),
        ("a name with a blank", RECORD_KEPT + " INSERT INTO agent_total VALUES ('a b', 1);"),
        ("no name", RECORD_KEPT + " INSERT INTO agent_total VALUES (NULL, 1);"),
        ("nine names", RECORD_KEPT + "".join(f" INSERT INTO agent_total VALUES ('r{i}', 1);" for i in range(8))),
        ("a total that is less than its tasks hold", RECORD_KEPT.replace(TOTAL_KEPT, " INSERT INTO agent_total VALUES ('mem', 2);")),
        ("a text beside tasks", TABLES + TASK_KEPT + text),
        ("a body of another key", RECORD_KEPT.replace("agent_task VALUES (1, 1,", "agent_task VALUES (1, 2,")),
        ("a body of another run", RECORD_KEPT.replace("agent_task VALUES (1, 1,", "agent_task VALUES (2, 1,")),
        ("a key past 32 bits", RECORD_KEPT.replace("agent_task VALUES (1, 1,", "agent_task VALUES (1, 4294967297,")),
        ("a body with a blank", RECORD_KEPT.replace('"name":"t1"', '"name": "t1"')),
        ("a body that is no text", TABLES + HEAD_KEPT + TOTAL_KEPT + f"INSERT INTO agent_task VALUES (1, 1, CAST('{TASK}' AS BLOB));"),
        ("a task that is settled", RECORD_KEPT.replace('["TASK_RUNNING"]', '["TASK_FINISHED"]')),
        ("tasks that hold more than there is", RECORD_KEPT.replace('"resources":{"cpus":1}', '"resources":{"cpus":3}')),
        ("a head of another version", RECORD_KEPT.replace("'{}', 2)", "'{}', 3)")),
        ("a total with a blank in it", RECORD_KEPT.replace("'{}', 2)", "'{ }', 2)")),
        ("a session past 32 bits", RECORD_KEPT.replace("'a1', 1, 5,", "'a1', 1, 4294967296,")),
        ("a session of run 0 in rows", RECORD_KEPT.replace("'a1', 1, 5,", "'a1', 0, 5,")),
    ):
        check(statements != RECORD_KEPT, f"{case} is another")
        stores.refuse(case, stores.make(stores.agent, statements), "K2 Damaged: ")
    for case, statements in (
        ("a total with a blank in a head of version 1", SECOND_KEPT.replace('{"cpus":2}', '{"cpus": 2}')),
        ("a head of version 2 with its total in it", SECOND_KEPT.replace("""'{"cpus":2}', 1)""", """'{"cpus":2}', 2)""")),
        ("tasks without a head of version 1", SECOND_TABLES + TASK_KEPT),
    ):
        check(statements != SECOND_KEPT, f"{case} is another")
        stores.refuse_second(case, stores.make(stores.agent, statements))


def try_runs(stores, whole):
    """The master's runs go up to 65,535; a number that no keeper writes is none."""
    for last, status, code in (
        (65_535, 3, "K3 RunsSpent: "),
        (4_294_967_295, 3, "K3 RunsSpent: "),
        (4_294_967_296, 3, "K2 Damaged: "),
        (-1, 3, "K2 Damaged: "),
    ):
        stores.lay(whole, last)
        tell(f"run {last} was given out", run_serve(stores.folder), status, code)
    stores.lay(whole, 65_534)
    stores.serve("the last run", run=65_535, session=6, free={"cpus": 1})
    tell("no run behind the last", run_serve(stores.folder), 3, "K3 RunsSpent: ")


def main():
    with Folder(AGENTS) as folder:
        stores = Stores(folder)
        whole = stores.make(stores.agent, RECORD_KEPT)
        page = int.from_bytes(whole[16:18], "big")
        try_good(stores, whole)
        try_first(stores)
        try_second(stores)
        try_launched(stores, folder)
        try_grown(stores, folder)
        try_new(stores)
        try_others(stores)
        try_texts(stores)
        try_damaged_text(stores, stores.make(stores.agent, FIRST_KEPT), page)
        try_rows(stores)
        try_runs(stores, whole)
        try_cuts(stores, whole, page)
        try_overwritten(stores, whole, page)
        print("a store that SQLite wrote is opened again, in rows, with its total in the head or with its record as one text, which are moved; one that isn't there or has no bytes is new; "
              f"{len(TOLD)} others are refused, and stay as they are")


main()
