#!/usr/bin/env python3
"""Sixty connections send a body of 1 MiB each at once, of 350,000 numbers: all are answered, and the server never has memory for more than some of them. While eight large bodies are
read, a ninth waits for its turn, and is refused (H6) once it waited as long as a connection may be without a byte; smaller ones don't wait."""
import json
import os
import socket
import threading
import time

from cluster import Folder, Framework, Server, check, request, send_raw

MOST, PLACES, CONNECTIONS, IDLE = 1_048_576, 8, 60, 4
ACCEPTED = b"HTTP/1.1 202 Accepted\r\n"
# So many MiB more than before the server may have had at most: sixty bodies, and of eight the JSON, some twelve times as much each. The C library is told to keep one heap for
# all threads: each that it has besides keeps what its largest body took.
MORE, ONE_HEAP = 250, {"MALLOC_ARENA_MAX": "1"}


def mebibytes(server, word):
    """What the system tells of the server's memory: the most that it had, or what it has."""
    with open(f"/proc/{server.process.pid}/status", encoding="ascii") as it:
        return next(int(line.split()[1]) >> 10 for line in it if line.startswith(word))


def large(framework):
    """A SUPPRESS of just 1 MiB, most of it numbers that nobody asked for."""
    body = {"type": "SUPPRESS", "framework_id": {"value": framework.id}, "x": []}
    front = json.dumps(body)[:-2]
    numbers = (MOST - len(front) - 3) // 3
    text = front + "10," * numbers + "1]}"
    return text.encode() + b" " * (MOST - len(text))


def send_all(port, call):
    """How many of the connections that send this at once are answered 202."""
    accepted, lock = [], threading.Lock()

    def send():
        answer = send_raw(port, call, 60)
        with lock:
            accepted.append(answer.startswith(ACCEPTED))

    threads = [threading.Thread(target=send) for _ in range(CONNECTIONS)]
    for it in threads:
        it.start()
    for it in threads:
        it.join()
    return sum(accepted)


def hold(server, call):
    """A connection that has sent half of a large body."""
    it = socket.create_connection(("127.0.0.1", server.port), 20)
    it.sendall(call[: len(call) // 2])
    return it


def keep_alive(holders, call, stop):
    """Sends a byte more on each, twice a second, so that none is without a byte for long."""
    at = len(call) // 2
    while not stop.wait(0.5):
        for it in holders:
            it.sendall(call[at : at + 1])
        at += 1


def wait_for_turns(server, framework, call):
    """The ninth large body waits, and is refused; small ones don't wait; once one of the eight is there whole, the next one is answered."""
    holders = [hold(server, call) for _ in range(PLACES)]
    stop = threading.Event()
    keeping = threading.Thread(target=keep_alive, args=(holders, call, stop))
    keeping.start()
    time.sleep(1)
    try:
        began = time.monotonic()
        check(framework.call("REVIVE") == (202, ""), "a small call is answered")
        check(time.monotonic() - began < 1, "it doesn't wait")
        answer = refused_after(server.port, call)
        seconds = time.monotonic() - began
        check(b"H6 BadBody\n" in answer or answer == b"", f"the ninth is refused: {answer!r}")
        check(IDLE - 1 < seconds < IDLE + 3, f"it is refused after {seconds:.1f} s")
    finally:
        stop.set()
        keeping.join()
    holders.pop().close()
    check(send_raw(server.port, call, 20).startswith(ACCEPTED), "one that comes when a place is left is answered")
    for it in holders:
        it.close()
    return seconds


def refused_after(port, call):
    """What is answered, as far as it comes, where not all is taken."""
    with socket.create_connection(("127.0.0.1", port), 30) as it:
        answer = b""
        try:
            it.sendall(call)
            while piece := it.recv(65536):
                answer += piece
        except ConnectionError:
            pass
        return answer


def main():
    with Folder({"a1": {"cpus": 1}}) as folder, Server(folder, "--idle-seconds", str(IDLE), env={**os.environ, **ONE_HEAP}) as server:
        framework = Framework(server.port)
        body = large(framework)
        check(len(body) == MOST, f"the body has {len(body)} bytes")
        call = request(body, "Connection: close", f"Mesos-Stream-Id: {framework.stream}")
        before = mebibytes(server, "VmRSS")
        began = time.monotonic()
        accepted = send_all(server.port, call)
        seconds = time.monotonic() - began
        check(accepted == CONNECTIONS, f"{accepted} of {CONNECTIONS} are accepted")
        most, after = mebibytes(server, "VmHWM"), mebibytes(server, "VmRSS")
        check(most - before < MORE, f"it had {before} MiB, and {most} at most")
        waited = wait_for_turns(server, framework, call)
        print(f"{CONNECTIONS} bodies of 1 MiB were taken in {seconds:.1f} s, with {before} MiB before, {most} at most and {after} behind; a ninth beside eight was refused after {waited:.1f} s")


main()
