#!/usr/bin/env python3
"""A connection from which no byte came for --idle-seconds is at the end of its input: between requests it ends without a word, in a head it is H1, in a body H6. A stream
isn't read, and stays. Another framework's ACKNOWLEDGE, sent again and again, keeps no agent from its turns."""
import socket
import threading
import time

from cluster import Folder, Framework, Server, check, request

SECONDS = 2


def until_end(port, data):
    """What is answered to these bytes until the connection ends, and after how many seconds it does."""
    with socket.create_connection(("127.0.0.1", port), 20) as it:
        it.sendall(data)
        began, answer = time.monotonic(), b""
        while piece := it.recv(65536):
            answer += piece
        return answer, time.monotonic() - began


def try_idle(port):
    whole = request(b'{"type":"TEARDOWN"}')
    cases = {"nothing": (b"", b""), "a head that is cut": (whole[:30], b"H1 BadHead\n"), "a body that is cut": (whole[:-3], b"H6 BadBody\n")}
    for case, (data, end) in cases.items():
        answer, seconds = until_end(port, data)
        check(answer.endswith(end) and bool(answer) == bool(end), f"{case}: {answer!r}")
        check(SECONDS - 0.5 < seconds < SECONDS + 3, f"{case}: it ends after {seconds:.1f} s")


def acknowledge_often(framework, update, stop):
    """Acknowledges an update again, three times a second."""
    while not stop.is_set():
        framework.acknowledge(update)
        time.sleep(0.3)


def try_turns(server):
    """A task of another framework runs, and finishes, while an agent has a mail three times a second."""
    first, stop = Framework(server.port), threading.Event()
    first.accept(first.next_offer({"cpus": 4}), [("t1", {"cpus": 1})])
    update = first.next("UPDATE")
    first.acknowledge(update)
    thread = threading.Thread(target=acknowledge_often, args=(first, update, stop))
    thread.start()
    try:
        second = Framework(server.port)
        offer = second.next("OFFERS", seconds=20)["offers"]["offers"][0]
        began = time.monotonic()
        second.accept(offer, [("t2", {"cpus": 1})])
        for due in ("TASK_RUNNING", "TASK_FINISHED"):
            state = second.next_state()
            check(state == due, f"t2 is {state}, and {due} is due")
        return time.monotonic() - began
    finally:
        stop.set()
        thread.join()


def main():
    with Folder({"a1": {"cpus": 4}}) as folder, Server(folder, "--idle-seconds", str(SECONDS), "--task-seconds", "2") as server:
        seconds = try_turns(server)
        check(seconds < 8, f"t2 runs for two seconds, and is told to have finished after {seconds:.1f}")
        stream = Framework(server.port)
        try_idle(server.port)
        check(not stream.ends(seconds=0), "a stream stays")
        print(f"connections without a byte for {SECONDS} s ended, as their input does; a task beside an ACKNOWLEDGE three times a second finished after {seconds:.1f} s of two")


main()
