#!/usr/bin/env python3
"""Clients that send or take a byte now and then: a head takes at most 10 times --idle-seconds in all, and so does what is left of a body once 64 KiB of it were read; a chunk to a
client that takes a byte now and then has 30 seconds, and its stream is hung up then."""
import json
import socket
import threading
import time

from cluster import Folder, Framework, Server, check, request

SECONDS, IN_ALL = 1, 10
# A chunk has so many seconds, and a framework whose stream is hung up gives its offers back at the next round. The offer of all these agents is a chunk of
# some 300 KiB, of which the slow client takes so many bytes a second.
CHUNK_SECONDS, PIECE = 30, 2_048
AGENTS = {f"{number:03}-".ljust(64, "a"): {f"{name}-".ljust(64, "r"): 1 for name in range(8)} for number in range(256)}
WHOLE = request(b'{"type":"TEARDOWN"}', "X: " + "y" * 200)
LARGE = request(b" " * 200_000)
# What is sent at once and what then drips, and how what is answered ends.
CASES = {
    "a head": (b"", WHOLE, b"H1 BadHead\n"),
    "empty lines": (b"", b"\n" * 400, b""),
    "a second head": (request(b"{}").replace(b"/scheduler", b"/none"), b"", b"H2 NoSuchPath\n"),
    "the rest of a large body": (LARGE[:100_000], LARGE[100_000:], b"H6 BadBody\n"),
}


def drip(it, data, stop):
    """Sends a byte five times a second, until told to stop or there is nobody to take it."""
    try:
        for at in range(len(data)):
            if stop.wait(0.2):
                return
            it.sendall(data[at : at + 1])
    except OSError:
        pass


def answered(port, first, rest):
    """What is answered until the connection ends, and after how many seconds it does."""
    stop = threading.Event()
    with socket.create_connection(("127.0.0.1", port), 60) as it:
        it.sendall(first)
        dripping = threading.Thread(target=drip, args=(it, rest, stop))
        began, answer = time.monotonic(), b""
        dripping.start()
        try:
            while piece := it.recv(65536):
                answer += piece
        except ConnectionError:
            pass
        seconds = time.monotonic() - began
        stop.set()
        dripping.join()
        return answer, seconds


def try_case(port, case, failures):
    first, rest, end = CASES[case]
    answer, seconds = answered(port, first, rest)
    due = SECONDS * IN_ALL if rest else 0
    if not answer.endswith(end) or bool(answer) != bool(end):
        failures.append(f"{case}: {answer!r}")
    if not due - 1 < seconds < due + 4:
        failures.append(f"{case}: it ends after {seconds:.1f} s, and {due} are due")


def try_inputs(folder):
    """All cases at once."""
    failures = []
    with Server(folder, "--idle-seconds", str(SECONDS)) as server:
        threads = [threading.Thread(target=try_case, args=(server.port, case, failures)) for case in CASES]
        for it in threads:
            it.start()
        for it in threads:
            it.join()
    check(not failures, failures)


class Slow:
    """A framework that takes some KiB of its stream a second, and whose system keeps no more than some KiB for it meanwhile: small segments let the server's keep little too."""

    def __init__(self, port):
        self.socket = socket.socket()
        self.socket.setsockopt(socket.SOL_SOCKET, socket.SO_RCVBUF, 4_096)
        self.socket.setsockopt(socket.IPPROTO_TCP, socket.TCP_MAXSEG, 536)
        self.socket.connect(("127.0.0.1", port))
        body = {"type": "SUBSCRIBE", "subscribe": {"framework_info": {"user": "tests", "name": "slow"}}}
        self.socket.sendall(request(json.dumps(body).encode()))
        self.count, self.stop = 0, threading.Event()
        self.reader = threading.Thread(target=self.read, daemon=True)
        self.reader.start()

    def read(self):
        try:
            while not self.stop.wait(1) and (piece := self.socket.recv(PIECE)):
                self.count += len(piece)
        except OSError:
            pass

    def close(self):
        self.stop.set()
        self.reader.join()
        self.socket.close()


def await_agents(port):
    """Waits until each agent was offered, to a framework that is torn down then."""
    framework, offered = Framework(port), 0
    while offered < len(AGENTS):
        event = framework.next("OFFERS")
        check(event, f"each agent is offered, and {offered} were")
        offered += len(event["offers"]["offers"])
    check(framework.call("TEARDOWN") == (202, ""), "it is torn down")


def try_stream(folder):
    """How long a stream stays whose client takes some KiB a second of a chunk of some hundred: its framework's offers come to another one then."""
    with Server(folder) as server:
        await_agents(server.port)
        slow, began = Slow(server.port), time.monotonic()
        time.sleep(3)
        other = Framework(server.port)
        event = other.next("OFFERS", seconds=4 * CHUNK_SECONDS)
        seconds = time.monotonic() - began
        slow.close()
        check(event and len(event["offers"]["offers"]) == len(AGENTS), f"the slow one is hung up, and its offers come; it has taken {slow.count} bytes")
        check(CHUNK_SECONDS <= seconds < CHUNK_SECONDS + 10, f"it is hung up after {seconds:.1f} s, and {CHUNK_SECONDS} are due")
        check(slow.count < CHUNK_SECONDS * PIECE * 2, f"it has taken {slow.count} bytes")
        return seconds, slow.count


def main():
    with Folder({"a1": {"cpus": 1}}) as folder, Folder(AGENTS) as other:
        inputs = threading.Thread(target=try_inputs, args=(folder,))
        inputs.start()
        seconds, count = try_stream(other)
        inputs.join()
    print(
        f"heads and the rest of a large body that dripped ended after {SECONDS * IN_ALL} s with --idle-seconds {SECONDS}; "
        f"a stream whose client took {count >> 10} KiB of a chunk, some a second, was hung up after {seconds:.0f} s"
    )


main()
