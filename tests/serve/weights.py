"""Two frameworks of different roles, of which one counts twice, get offers as the worked example of weights has it, over a server that is started again between."""
import os
import subprocess
import sys

from cluster import HERE, Folder, Framework, Server, check

EXAMPLES = os.path.join(HERE, "..", "..", "examples")

# One agent of 9 cpus, and prod counts twice. Each offer is the whole free part, of which a task takes 1. So of what they hold, prod's by its weight, there is
# before each offer: 0 and 0, prod, which comes first by name; 1/2 and 0, test; 1/2 and 1, prod; 1 and 1, prod; 3/2 and 1, test; and so on.
DUE = "offers go to prod test prod prod test prod prod test prod\nprod runs 6 tasks, test runs 3 tasks\n"


def main():
    with open(os.path.join(EXAMPLES, "weights.json"), encoding="utf-8") as it:
        configuration = it.read()
    with Folder({}) as folder:
        folder.write(configuration)
        for _ in range(2):
            with Server(folder, "--task-seconds", "0") as server:
                words = [sys.executable, os.path.join(EXAMPLES, "weights.py"), str(server.port)]
                ran = subprocess.run(words, stdin=subprocess.DEVNULL, capture_output=True, text=True, timeout=100)
                check((ran.returncode, ran.stdout) == (0, DUE), f"examples/weights.py ends with status {ran.returncode}: {ran.stdout}{ran.stderr}")
                # Its tasks have ended, and the agent's record says so, once all is offered again.
                Framework(server.port).next_offer({"cpus": 9})
    print("of 9 tasks 6 are those of the role that counts twice, and so they are when the server is started again")


main()
