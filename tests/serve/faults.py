#!/usr/bin/env python3
"""A wrong port, file or word at the start is told on standard error with its status, and nothing is lost."""
import os
import socket

from cluster import TOLD, Folder, Framework, Server, check, run, run_serve, tell

AGENTS = {"a1": {"cpus": 2}}
CONFIGURATION = "X3 BadConfig: the line of the file of the agents is to be as {"


def try_ports_and_files(folder):
    with socket.socket() as taken:
        taken.bind(("127.0.0.1", 0))
        taken.listen()
        tell("a port in use", run_serve(folder, port=taken.getsockname()[1]), 3, "Z2 DeviceFault: port ")
    less_than_recorded = "Z1 TotalDiffers: a1's record has more than is configured"
    for less in ({"cpus": 1}, {"mem": 64}):
        folder.write({"agents": {"a1": less}})
        tell(f"a total of {less}", run_serve(folder), 2, less_than_recorded)
    folder.write({"agents": {"a1": {}}})
    tell("a total of nothing, which is noted too", run_serve(folder), 2, f"{folder.agents}: agents.a1 owns nothing", [less_than_recorded])
    folder.write('{"agents":{"a1":{"cpus":2}}}\n{"agents":{"a1":{"cpus":2}}}\n')
    tell("two lines", run_serve(folder), 2, "X3 BadConfig: the file of the agents is to be one line", [folder.agents])
    for case, text in {"no line": "", "no JSON": "a1\n", "no amount": '{"agents":{"a1":{"cpus":0}}}\n', "no agent": '{"agents":{}}\n'}.items():
        folder.write(text)
        tell(case, run_serve(folder), 2, CONFIGURATION, [folder.agents])
    folder.write({"agents": AGENTS})
    os.rename(folder.agents, folder.agents + "-")
    tell("no file", run_serve(folder), 3, "Z2 DeviceFault: the file of the agents")
    os.rename(folder.agents + "-", folder.agents)


def try_words(folder):
    for words in ([], ["calls"], ["replay"], ["serve"]):
        status, out, err = run(*words, "--help")
        check(status == 0 and err == "" and "Usage:" in out, f"{words} --help has status {status}, and says {out!r} {err!r}")
    version = run("--version")
    check(version[0] == 0 and version[1].startswith("mesos_node ") and "logic " in version[1] and version[2] == "", f"--version says {version}")
    for words, answer in (
        (["--speed", "9"], "error: unexpected argument '--speed' found"),
        (["--interval", "3601"], "error: invalid value '3601' for '--interval <N>'"),
        (["--task-seconds", "-1"], "error: "),
    ):
        status, out, err = run_serve(folder, *words)
        check(status == 2 and out == "", f"{words} has status {status}, and writes {out!r}")
        check(err.startswith(answer) and err.count("error: ") == 1, f"{words} is told {err!r}")
    tell("a word that isn't UTF-8", run(b"calls", b"\xff"), 2, "error: a word of the command line isn't UTF-8")


def main():
    with Folder(AGENTS) as folder:
        with Server(folder, "--task-seconds", "0") as server:
            framework = Framework(server.port)
            framework.accept(framework.next_offer({"cpus": 2}), [("t1", {"cpus": 1})])
            check(framework.next_state() == "TASK_RUNNING", "t1 runs")
            server.kill()
        try_ports_and_files(folder)
        try_words(folder)
        with Server(folder, "--task-seconds", "0") as server:
            with socket.socket() as it:
                check(it.connect_ex(("127.0.0.2", server.port)) != 0, "another address than 127.0.0.1 isn't served")
            Framework(server.port, framework=framework.id).next_offer({"cpus": 1})
        print(f"{len(TOLD)} faults, each told by a line or two, with its status; t1 has its cpu after them: {', '.join(TOLD)}")
        print("--help of the program and of each command has status 0; an option that isn't there, or is out of range, has status 2")


main()
