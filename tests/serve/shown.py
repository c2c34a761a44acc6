"""What `./demo` prints with the program built is examples/demo.out, which README shows too; the tasks' lines come in any order."""
import os
import re
import subprocess

from cluster import HERE, PROGRAM, check

TOP = os.path.join(HERE, "..", "..")


def told(text):
    """The lines, with the port that they name as 5050, and those of the tasks in order of their names."""
    lines = re.sub(r"127\.0\.0\.1:\d+", "127.0.0.1:5050", text).splitlines()
    tasks = sorted(line for line in lines if line.startswith("task-"))
    return [line for line in lines if not line.startswith("task-")], tasks


def main():
    built = os.path.join(TOP, "crates", "mesos_node", "out", "mesos_node")
    if not os.path.exists(built) or not os.path.samefile(built, PROGRAM):
        print("not tried: ./demo takes the program that is built in crates/mesos_node")
        return
    ran = subprocess.run([os.path.join(TOP, "demo")], stdin=subprocess.DEVNULL, capture_output=True, text=True, timeout=60)
    with open(os.path.join(TOP, "examples", "demo.out"), encoding="utf-8") as it:
        due = it.read()
    check(ran.returncode == 0, f"./demo ends with status {ran.returncode}: {ran.stderr}")
    check(told(ran.stdout) == told(due), f"./demo prints {ran.stdout}")
    print("./demo prints what examples/demo.out has")


main()
