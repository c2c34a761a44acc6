#!/usr/bin/env python3
"""A wrong folder at the start is told by one line on standard error with its status, or two, and what stands in it stays as it is."""
import os
import shutil
import sqlite3
from contextlib import closing

from cluster import TOLD, Folder, Framework, Server, check, run_serve, tell

AGENTS = {"a1": {"cpus": 2}}


def files(path):
    """What each file of a folder holds."""
    return {it.name: open(it.path, "rb").read() for it in os.scandir(path)}


def kept(path):
    """What each agent's store of a folder keeps, read in a copy, so that nothing of it changes."""
    copy = shutil.copytree(path, f"{path}-copy")
    found = {}
    for name in sorted(os.listdir(copy)):
        if name.startswith("agent-") and name.endswith(".db"):
            with closing(sqlite3.connect(os.path.join(copy, name))) as it:
                found[name] = list(it.iterdump())
    shutil.rmtree(copy)
    return found


def try_no_folders(folder):
    tell("no folder", run_serve(folder, state=os.path.join(folder.path, "nowhere")), 3, "K1 Store ", ["the folder isn't there"])
    tell("a file in the folder's place", run_serve(folder, state=folder.agents), 3, "K1 Store ", ["what is there in the folder's place is no folder"])
    tell("a folder that can't be written", run_serve(folder, state="/proc"), 3, "K1 Store ")


def try_foreign_store(folder):
    foreign = os.path.join(folder.path, "foreign")
    os.mkdir(foreign)
    path = os.path.join(foreign, "agent-a1.db")
    with closing(sqlite3.connect(path)) as it:
        it.execute("CREATE TABLE notes (text TEXT)")
        it.execute("INSERT INTO notes VALUES ('mine')")
        it.commit()
    before = files(foreign)
    tell("a store of another program", run_serve(folder, state=foreign), 3, f"K2 Damaged: {path}")
    check(files(foreign)["agent-a1.db"] == before["agent-a1.db"], "the other program's store is as it was, byte by byte")
    with closing(sqlite3.connect(path)) as it:
        check(it.execute("SELECT text FROM notes").fetchall() == [("mine",)], "and can be read as before")


def try_foreign_record(folder):
    """A copy of a1's record stands as that of a2."""
    twice = shutil.copytree(folder.state, os.path.join(folder.path, "twice"))
    for name in list(files(twice)):
        if name.startswith("agent-a1"):
            shutil.copy(os.path.join(twice, name), os.path.join(twice, name.replace("a1", "a2", 1)))
    folder.write({"agents": {**AGENTS, "a2": AGENTS["a1"]}})
    before = kept(twice)
    tell("a record of another agent", run_serve(folder, state=twice), 3, "K2 Damaged: the records are of no one cluster")
    check(before and kept(twice) == before, "the stores keep what they kept")


def try_lost_record(folder):
    """A record whose files are gone is named where its agent starts fresh, in a run that isn't the folder's first; one that is there isn't."""
    folder.write({"agents": AGENTS})
    with Server(folder) as server:
        check(server.noted == [], f"nothing is noted of a record that is there: {server.noted}")
        server.kill()
    for name in files(folder.state):
        if name.startswith("agent-a1"):
            os.remove(os.path.join(folder.state, name))
    with Server(folder) as server:
        check(server.noted == [f"agent a1 has no record in {folder.state}, and starts fresh"], f"a lost record is named: {server.noted}")


def main():
    with Folder(AGENTS) as folder:
        try_no_folders(folder)
        try_foreign_store(folder)
        with Server(folder) as server:
            check(server.noted == [], f"nothing is noted in a folder's first run: {server.noted}")
            check(Framework(server.port).next_offer({"cpus": 2}), "a1 has a record")
            tell("a folder in use", run_serve(folder), 3, "K1 Store ", ["another server uses the folder"])
        try_foreign_record(folder)
        try_lost_record(folder)
        print(f"{len(TOLD)} faults, each told by a line or two, with its status; the other program's store is as it was, byte by byte, and the records are kept: {', '.join(TOLD)}")


main()
