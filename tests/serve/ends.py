#!/usr/bin/env python3
"""Where a server ends, it ends: at a store that can't be opened again it says why at once, ends its streams and the connections that wait, and is gone. A connection
that the system can't make doesn't end it: it is told once, and the server goes on."""
import os
import resource
import socket
import time

from cluster import Folder, Framework, Server, check

CLOSED = b""


def limit(server, what, size):
    """Sets a limit of the server's, and leaves how far it may be raised again."""
    _, most = resource.prlimit(server.process.pid, what)
    resource.prlimit(server.process.pid, what, (size, most))


def descriptors(server):
    return len(os.listdir(f"/proc/{server.process.pid}/fd"))


def fail_accepts(server, framework):
    """Without descriptors no connection is made; with them again it is."""
    limit(server, resource.RLIMIT_NOFILE, descriptors(server))
    clients = [socket.create_connection(("127.0.0.1", server.port), 10) for _ in range(3)]
    said = server.process.stderr.readline().decode()
    check(said.startswith("Z2 DeviceFault: a connection can't be taken: "), f"a failed connection is told: {said!r}")
    time.sleep(4)
    check(server.process.poll() is None, "the server goes on")
    limit(server, resource.RLIMIT_NOFILE, 4_096)
    for it in clients:
        it.close()
    status, text = framework.call("REVIVE")
    check(status == 202, f"a call is answered once there are descriptors again: {status} {text}")


def end(folder, server, framework):
    """The agent's store fails for good while a stream is open, and a connection waits between requests."""
    idle = socket.create_connection(("127.0.0.1", server.port), 10)
    offer = framework.next_offer({"cpus": 2})
    limit(server, resource.RLIMIT_FSIZE, 0)
    os.rename(folder.state, folder.state + "-")
    framework.accept(offer, [("t1", {"cpus": 1})])
    said = server.process.stderr.readline().decode()
    began = time.monotonic()
    check(said.startswith("K1 Store ") and said.endswith(": the record of a1\n"), f"why it ends is told: {said!r}")
    check(framework.ends(), "the stream ends by its last chunk")
    check(idle.recv(1) == CLOSED, "a connection that waits ends without a word")
    out, err = server.process.communicate(timeout=10)
    seconds = time.monotonic() - began
    check((server.process.returncode, out, err) == (3, b"", b""), f"it ends with 3, and says no more: {server.process.returncode} {out} {err}")
    check(seconds < 3, f"it is gone within two seconds or so: {seconds:.1f}")
    os.rename(folder.state + "-", folder.state)
    return seconds


def main():
    with Folder({"a1": {"cpus": 2}}) as folder, Server(folder, "--idle-seconds", "0") as server:
        framework = Framework(server.port)
        fail_accepts(server, framework)
        seconds = end(folder, server, framework)
    print(f"three connections that couldn't be made were told once, and the server went on; a store that failed for good ended it {seconds:.1f} s after it had said why, with its stream and a connection that waited")


main()
