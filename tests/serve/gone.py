#!/usr/bin/env python3
"""A client that goes away is noticed by its second heartbeat, and its offers come back; after the last of `--conns` connections the table is written."""
import time

from cluster import Folder, Framework, Server, amounts, check

# The first framework's stream, ACCEPT and ACKNOWLEDGE, and the second's stream and TEARDOWN.
CONNECTIONS = "5"


def main():
    with Folder({"a1": {"cpus": 2}}) as folder, Server(folder, "--task-seconds", "0", "--conns", CONNECTIONS) as server:
        first = Framework(server.port)
        first.accept(first.next("OFFERS")["offers"]["offers"][0], [("t1", {"cpus": 1})])
        first.acknowledge(first.next("UPDATE"))
        check(first.next("OFFERS"), "the rest is offered to the first framework again")
        first.close()
        gone = time.monotonic()
        second = Framework(server.port)
        offer = second.next("OFFERS", seconds=45)
        seconds = time.monotonic() - gone
        check(offer, "the second framework gets the first one's offer")
        check(amounts(offer["offers"]["offers"][0]["resources"]) == {"cpus": 1}, "of what t1 doesn't hold")
        check(seconds < 40, f"after {seconds:.0f} seconds")
        status, _ = second.call("TEARDOWN")
        check(status == 202, "TEARDOWN is taken")
        out, err = server.process.communicate(timeout=15)
        check(server.process.returncode == 0, f"the status is {server.process.returncode}: {err.decode()}")
        lines = out.decode().splitlines()
        check(lines[0] == "agent a1 owns cpus:2 offered - live cpus:1", f"the table begins {lines[0]!r}")
        check(lines[-1].startswith("entries "), f"and ends {lines[-1]!r}")
        print(f"the offers of a client that went away came back after {seconds:.0f} s; behind the last connection stands the table:")
        print(out.decode().rstrip())


main()
