#!/usr/bin/env python3
"""A SUBSCRIBE over HTTP with each allocation refused in turn that the server makes for it: tests/failing_calls/memory.py

What comes is a beginning of the answer that is due, or of a 503 that tells of memory, and unless it is the whole answer the connection then ends. Where the call
wasn't taken, its framework is unknown, and the next one gets the number that it would have had; where it was taken and the connection broke off, its stream is hung
up. Behind each refusal an honest framework subscribes and is torn down, byte by byte. There are two exceptions. Where the master's memory was refused (M5) it is
down: calls are answered 503 C2, other requests as before, and a server that is started again on the folder serves. Where the refusal met the thread that takes
connections, the server ends by itself once they have ended, with status 3 and H8 or H9; with --keep-serving it goes on. A C compiler is asked for. It prints what it checked, and ends within a
minute.
"""
import collections
import sys
import tempfile
import time

from failing import LAST_CHUNK, NO_SUCH_PATH, SUBSCRIBE, TAKEN, SECONDS, Caller, Control, Served, answer_to, connect, receive, refusal, rest, send, tear_down
from cluster import Folder, check

REFUSALS = {refusal(503, text): text for text in ("J10 OutOfMemory", "M5 OutOfMemory", "H8 OutOfMemory")}
DOWN = (503, "C2 MasterDown")
NOT_FOUND = refusal(404, "H2 NoSuchPath")


def opened(served, caller, it):
    """The stream was opened: it is served until the framework is torn down, or it broke off behind its first event."""
    stream, framework = served.take_next()
    answer = caller.call(tear_down(framework), stream)
    left = rest(it)
    if answer[0] == 202:
        check(left == LAST_CHUNK, f"a stream that is open ends by {left!r}")
        return "answered"
    check(answer == (403, "M1 NotSubscribed") and left == b"", f"TEARDOWN is answered {answer}, and the stream goes on with {left!r}")
    return "hung up behind its first event"


def broken_off(served, caller, due, got):
    """The connection ended before the stream was open: the call was refused or not taken, or its stream is hung up."""
    check(due.startswith(got) or any(answer.startswith(got) for answer in REFUSALS), f"{got!r} is no beginning of what is due")
    answer = caller.call(tear_down(f"F{served.run}-{served.frameworks + 1}"))
    if answer == DOWN:
        check(got == refusal(503, "M5 OutOfMemory"), f"the master is down behind {got!r}")
        return "M5 OutOfMemory"
    if answer == (403, "M1 NotSubscribed"):
        check(due.startswith(got), f"the call was taken, and is answered {got!r}")
        served.take_next()
        return "hung up"
    check(answer == (400, "M3 NoSuchFramework"), f"TEARDOWN is answered {answer} behind {got!r}")
    check(not got or not due.startswith(got), f"the call wasn't taken, and is answered {got!r}")
    told = REFUSALS.get(got, "closed unanswered")
    check(told != "M5 OutOfMemory", "the master lacked memory, and is up")
    return told


def exchange(served, number):
    """What comes of a SUBSCRIBE whose allocation of this number is refused, how many allocations were made, and whether one was refused."""
    caller, due = served.caller(), served.next()
    time.sleep(TAKEN)
    served.control.arm(Control.MEMORY, number)
    with connect(served.port) as it:
        send(it, SUBSCRIBE)
        got = receive(it, len(due))
        if got == due:
            time.sleep(TAKEN)
        count, failed = served.control.disarm()
        kind = opened(served, caller, it) if got == due else broken_off(served, caller, due, got)
    caller.close()
    return kind, count, failed


def check_down(served):
    """A master that is down refuses each call, and the server goes on."""
    got = answer_to(served.port, SUBSCRIBE)
    check(got == refusal(*DOWN), f"a SUBSCRIBE is answered {got!r} where the master is down")
    got = answer_to(served.port, NO_SUCH_PATH)
    check(got == NOT_FOUND, f"another path is answered {got!r} where the master is down")
    caller = Caller(served.port)
    answer = caller.call(tear_down(f"F{served.run}-1"))
    check(answer == DOWN, f"TEARDOWN is answered {answer} where the master is down")
    caller.close()


def has_ended(served):
    """Whether the server takes no more connections; then it ends, and tells why."""
    try:
        got = answer_to(served.port, NO_SUCH_PATH)
    except ConnectionError:
        got = b""
    if got == NOT_FOUND:
        return False
    check(got == b"", f"another path is answered {got!r}")
    out, err = served.server.process.communicate(timeout=SECONDS)
    check(served.server.process.returncode == 3 and out == b"", f"the server ends with {served.server.process.returncode}, and writes {out!r}")
    check(err in (b"H8 OutOfMemory\n", b"H9 NoThread\n"), f"the server ends and tells {err!r}")
    return True


def go_on(served, kind):
    """The server goes on behind what came of a SUBSCRIBE, or is started again where it can't."""
    if kind == "M5 OutOfMemory":
        check_down(served)
        served.start_again()
        return kind
    if has_ended(served):
        served.start()
        return f"{kind}, and the server ends"
    return kind


def take_first(folder, control, *options):
    """What comes of the first connection of a server whose first thread, which takes it, is refused memory: one allocation after another, each with a server of its own."""
    tally = collections.Counter()
    for number in range(1, 1_000):
        with Served(folder, control, options=options) as served:
            control.arm(Control.MEMORY, number, scope=Control.FIRST)
            got = answer_to(served.port, NO_SUCH_PATH)
            time.sleep(TAKEN)
            _, failed = control.disarm()
            check(got in (NOT_FOUND, b""), f"another path is answered {got!r}")
            if not failed:
                return tally
            ends = has_ended(served)
            if not ends:
                served.caller().close()
            tally["the server ends" if ends else "the server goes on"] += 1
    raise SystemExit("failed: the first thread allocates a thousand times for a connection")


def sweep(folder, control):
    """What comes of a SUBSCRIBE with each of its allocations refused."""
    with Served(folder, control) as served:
        kind, total, _ = exchange(served, 0)
        check(kind == "answered" and total > 0, f"with ample memory a SUBSCRIBE is {kind}, over {total} allocations")
        tally = collections.Counter()
        for number in range(1, total + 1):
            kind, _, failed = exchange(served, number)
            check(failed or kind == "answered", f"no memory was refused, and a SUBSCRIBE is {kind}")
            tally[go_on(served, kind) if failed else "not reached"] += 1
        served.caller().close()
    check(tally["M5 OutOfMemory"] and tally["J10 OutOfMemory"], f"the master's memory was refused, and that of the call: {dict(tally)}")
    return tally


def told(tally):
    return ", ".join(f"{it} {n}" for it, n in sorted(tally.items()))


def main():
    with tempfile.TemporaryDirectory() as work, Folder({"a1": {"cpus": 1}}) as folder:
        control = Control(work)
        print(f"a SUBSCRIBE over HTTP, with each of its allocations refused: {told(sweep(folder, control))}")
        print(f"the first connection of a server, with each allocation of the thread that takes it refused: {told(take_first(folder, control))}")
        kept = take_first(folder, control, "--keep-serving")
        check(list(kept) == ["the server goes on"], f"with --keep-serving {told(kept)}")
        print(f"the same with --keep-serving: {told(kept)}")


if __name__ == "__main__":
    sys.exit(main())
