#!/usr/bin/env python3
"""Reads and writes of a served connection that fail, each in its turn, and what is read where a request is refused: tests/failing_calls/links.py

Each read and each write of a connection moves one byte, so that the k-th one fails behind k - 1 bytes. Of a SUBSCRIBE and of a connection with two calls: where the
k-th read fails, what is sent is the answer to the calls that were read whole, and no other call is taken; where the k-th write fails, what came are the first k - 1
bytes of what is due, and then the connection ends. A stream that was opened is hung up, and an honest framework is served, whose number shows that nobody else
subscribed. And the reads are counted of a request that is refused for its length: none goes past its head, or past the chunk line with which the body is too long. A
C compiler is asked for. It prints what it checked, and ends within a minute.
"""
import sys
import tempfile

from failing import ACCEPTED, CALL, EVENT, HANG_UP, LAST_CHUNK, SUBSCRIBE
from failing import Caller, Control, Served, chunk, connect, receive, refusal, rest, send, tear_down
from cluster import PATH, Folder, check, request

CONNECTIONS = 2_000
HEAD = f"POST {PATH} HTTP/1.1\r\nContent-Type: application/json\r\n".encode()
TOO_LONG, BAD_HEAD = refusal(413, "H5 TooLong"), refusal(400, "H1 BadHead")
# A task that isn't there, of an agent that isn't: it is told lost on the framework's stream.
LOST = chunk('{"type":"UPDATE","update":{"status":{"agent_id":{"value":"zz"},"state":"TASK_LOST","task_id":{"value":"y"}}}}')


def reconcile(stream, framework):
    body = f'{{"type":"RECONCILE","framework_id":{{"value":"{framework}"}},"reconcile":{{"tasks":[{{"task_id":{{"value":"y"}},"agent_id":{{"value":"zz"}}}}]}}}}'
    return request(body.encode(), f"Mesos-Stream-Id: {stream}")


def try_failing(served, kind, number, data, most):
    """What a connection is sent back on which this is sent, and whose read or write of this number fails. It has to end where one does."""
    served.control.arm(kind, number, most=1)
    with connect(served.port) as it:
        send(it, data)
        got = receive(it, most)
        count, failed = served.control.disarm()
    check(failed and count == number, f"of the reads or writes number {number} fails, and {count} are made")
    return got


def subscribe_reads(served):
    """A SUBSCRIBE that isn't read whole isn't taken, and nothing is answered."""
    for number in range(1, len(SUBSCRIBE) + 1):
        got = try_failing(served, Control.READS, number, SUBSCRIBE, 1 << 20)
        check(got == b"", f"a SUBSCRIBE of which {number - 1} bytes were read is answered {got!r}")
    served.caller().close()
    return len(SUBSCRIBE)


def subscribe_writes(served):
    """A stream whose client isn't reached is hung up."""
    number = 0
    while (number := number + 1) <= len(due := served.next()):
        got = try_failing(served, Control.WRITES, number, SUBSCRIBE, 1 << 20)
        check(got == due[: number - 1], f"write {number} fails, and {got!r} comes of {due!r}")
        # The event is taken once the head was written.
        served.entries += CALL + (EVENT if number > due.index(b"\r\n\r\n") + 4 else 0) + HANG_UP + CALL
        _, framework = served.take_next()
        caller = Caller(served.port)
        answer = caller.call(tear_down(framework))
        check(answer == (403, "M1 NotSubscribed"), f"write {number} fails, and TEARDOWN is answered {answer}: the stream isn't hung up")
        caller.close()
    served.caller().close()
    return number - 1


def two_calls(served, kind, size, answered):
    """Two calls on a connection, whose read or write of each number up to a size fails. `answered` tells of a number what is answered, and how many calls are taken: the
    stream has so many events, and no more."""
    stream, name, framework = served.subscribe()
    data = reconcile(name, framework) * 2
    for number in range(1, size(data) + 1):
        due, taken = answered(number, data)
        got = try_failing(served, kind, number, data, 1 << 20)
        check(got == due, f"two calls, of which {kind} number {number} fails, are answered {got!r}, and {due!r} is due")
        told = receive(stream, len(LOST * taken))
        check(told == LOST * taken, f"{taken} calls are taken, and {told!r} is told")
        served.entries += taken * (CALL + EVENT)
    caller = Caller(served.port)
    answer = caller.call(tear_down(framework), name)
    check(answer[0] == 202 and rest(stream) == LAST_CHUNK, f"TEARDOWN is answered {answer}; no other event was told, and the stream ends")
    served.entries += CALL
    caller.close()
    stream.close()
    return size(data)


def reads_of_two_calls(served):
    def answered(number, data):
        whole = (number - 1) // (len(data) // 2)
        return ACCEPTED * whole, whole

    return two_calls(served, Control.READS, len, answered)


def writes_of_two_calls(served):
    return two_calls(
        served, Control.WRITES, lambda _: 2 * len(ACCEPTED), lambda number, _: ((ACCEPTED * 2)[: number - 1], 1 if number <= len(ACCEPTED) else 2)
    )


# What is refused, its answer, and how many bytes of it are read. Behind each stand further bytes.
LONG_HEAD = b"X: " + b"y" * 20_000
UNREAD = {
    "a body that is too long": (HEAD + b"Content-Length: 1048577\r\n\r\n", TOO_LONG),
    "one that would be waited for": (HEAD + b"Expect: 100-continue\r\nContent-Length: 1048577\r\n\r\n", TOO_LONG),
    "a length of 5,000 digits": (HEAD + b"Content-Length: 1" + b"0" * 4_999 + b"\r\n\r\n", TOO_LONG),
    "a chunk that is too long": (HEAD + b"Transfer-Encoding: chunked\r\n\r\n100001\r\n", TOO_LONG),
    "a chunk with which a body is too long": (HEAD + b"Transfer-Encoding: chunked\r\n\r\n5\r\nhello\r\nffffc\r\n", TOO_LONG),
    "a head of over 16,384 bytes": ((HEAD + LONG_HEAD)[:16_385], BAD_HEAD),
    "65 fields": (HEAD + b"X: y\r\n" * 64 + b"\r\n", BAD_HEAD),
    "another path": (HEAD.replace(PATH.encode(), b"/x") + b"Content-Length: 9\r\n\r\n", refusal(404, "H2 NoSuchPath")),
    "another method": (HEAD.replace(b"POST", b"PUT") + b"Content-Length: 9\r\n\r\n", refusal(405, "H3 NotPost")),
    "another media type": (HEAD.replace(b"json", b"xml") + b"Content-Length: 9\r\n\r\n", refusal(415, "H4 WrongMedia")),
    "two lengths": (HEAD + b"Content-Length: 9\r\nContent-Length: 9\r\n\r\n", refusal(400, "H6 BadBody")),
}


def unread(served):
    """Nothing is read past what has to be for an answer, though it has come."""
    for name, (data, due) in UNREAD.items():
        served.control.arm(Control.READS, 0, most=1)
        with connect(served.port) as it:
            send(it, data + b"z" * 5_000)
            got = rest(it)
            count, _ = served.control.disarm()
        check(got == due, f"{name} is answered {got!r}, and {due!r} is due")
        check(count == len(data), f"of {name} {count} bytes are read, and {len(data)} are due")
    served.caller().close()
    return len(UNREAD)


def main():
    with tempfile.TemporaryDirectory() as work, Folder({"a1": {"cpus": 1}}) as folder, Served(folder, Control(work), CONNECTIONS) as served:
        reads, writes = subscribe_reads(served), subscribe_writes(served)
        print(f"SUBSCRIBE: each of {reads} reads and {writes} writes fails in turn: a beginning of the answer, and the stream is hung up where there is one")
        reads, writes = reads_of_two_calls(served), writes_of_two_calls(served)
        print(f"two calls on a connection: each of {reads} reads and {writes} writes fails in turn: a beginning of the answers, and each call that was read is taken, once")
        print(f"{unread(served)} requests are refused without a byte read past their head or chunk line")
        print(f"behind {CONNECTIONS} connections the server ends, and its history has {served.finish()} entries: each call, event and hang-up is one of them, and no other")


if __name__ == "__main__":
    sys.exit(main())
