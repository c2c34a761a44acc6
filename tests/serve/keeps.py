#!/usr/bin/env python3
"""With --keep-serving a refused thread doesn't end the server: a connection for which none starts is closed unanswered, that is told once, the streams that are open go on, and it serves as
before once there are threads again. Without the option it ends, with status 3 (H9)."""
import resource
import socket
import time

from cluster import Folder, Framework, Server, check

TOLD = "H9 NoThread"
# So many MiB more than it has may be mapped: less than a thread's stack.
MORE = 2


def mapped(server):
    with open(f"/proc/{server.process.pid}/statm", encoding="ascii") as it:
        return int(it.read().split()[0]) * resource.getpagesize()


def limit(server, size):
    resource.prlimit(server.process.pid, resource.RLIMIT_AS, (size, resource.RLIM_INFINITY))


def refuse_threads(server):
    limit(server, mapped(server) + (MORE << 20))


def until_refused(server):
    """Connects until a connection is closed unanswered: threads that have ended may leave their stacks to a few others."""
    held = []
    for _ in range(60):
        it = socket.create_connection(("127.0.0.1", server.port), 10)
        it.settimeout(0.3)
        try:
            check(it.recv(1) == b"", "nothing is answered")
            it.close()
            return held
        except ConnectionError:
            return held
        except TimeoutError:
            held.append(it)
    raise SystemExit("failed: sixty threads start where none is to")


def closed_unanswered(server):
    """Whether a connection is closed before anything was sent on it."""
    with socket.create_connection(("127.0.0.1", server.port), 10) as it:
        try:
            return it.recv(1) == b""
        except ConnectionError:
            return True


def keep_serving(folder):
    with Server(folder, "--keep-serving", "--workers", "128") as server:
        framework = Framework(server.port)
        refuse_threads(server)
        held = until_refused(server)
        for _ in range(5):
            check(closed_unanswered(server), "a connection without a thread is closed")
        said = server.process.stderr.readline().decode()
        check(said == f"{TOLD}: a connection isn't served\n", f"it is told: {said!r}")
        check(framework.next("OFFERS") and framework.next("HEARTBEAT", seconds=20), "a stream that is open goes on")
        limit(server, resource.RLIM_INFINITY)
        for it in held:
            it.close()
        check(framework.call("REVIVE") == (202, ""), "a call is answered once there are threads again")
        Framework(server.port).close()
        check(server.process.poll() is None, "the server goes on")
        server.kill()
        left = server.process.stderr.read()
        check(left == b"", f"no more is told: {left!r}")


def end(folder):
    with Server(folder, "--workers", "128") as server:
        framework = Framework(server.port)
        refuse_threads(server)
        began = time.monotonic()
        held = until_refused(server)
        check(framework.ends(), "the stream ends by its last chunk")
        out, err = server.process.communicate(timeout=10)
        check((server.process.returncode, out, err) == (3, b"", f"{TOLD}\n".encode()), f"it ends with 3: {server.process.returncode} {out!r} {err!r}")
        for it in held:
            it.close()
        return time.monotonic() - began


def main():
    with Folder({"a1": {"cpus": 2}}) as folder:
        keep_serving(folder)
        seconds = end(folder)
    print(f"six connections without a thread were closed, told once, and the server went on beside an open stream; without --keep-serving one ended it, within {seconds:.1f} s")


main()
