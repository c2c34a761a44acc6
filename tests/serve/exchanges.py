#!/usr/bin/env python3
"""Connections to a served cluster, each answer to the byte: another path, a failover, calls without their stream, and offers of a client that is gone."""
import socket
import time

from cluster import Folder, Server, check

AGENTS = {"a1": {"cpus": 4, "mem": 4096}}
# The master ticks and makes a round of offers at its start alone, so that no offer and no heartbeat comes between what is compared.
STILL = ("--interval", "3600")
# After so long the agent has reported, and the first round of offers is over.
SECONDS = 2

# What is sent: a SUBSCRIBE of a new framework and of framework F1-1, and its TEARDOWN without a stream.
SUBSCRIBE = (
    "POST /api/v1/scheduler HTTP/1.1\r\nHost: 127.0.0.1\r\nContent-Type: application/json\r\nContent-Length: 75\r\n\r\n"
    '{"type":"SUBSCRIBE","subscribe":{"framework_info":{"user":"u","name":"n"}}}'
)
SUBSCRIBE_AGAIN = (
    "POST /api/v1/scheduler HTTP/1.1\r\nHost: 127.0.0.1\r\nContent-Type: application/json\r\nContent-Length: 97\r\n\r\n"
    '{"type":"SUBSCRIBE","subscribe":{"framework_info":{"user":"u","name":"n","id":{"value":"F1-1"}}}}'
)
TEARDOWN = (
    "POST /api/v1/scheduler HTTP/1.1\r\nContent-Type: application/json\r\nContent-Length: 51\r\n\r\n"
    '{"framework_id":{"value":"F1-1"},"type":"TEARDOWN"}'
)
TEARDOWN_ON_SECOND = TEARDOWN.replace("\r\n\r\n", "\r\nMesos-Stream-Id: S1-2\r\n\r\n")
# A task that isn't there, on agent a1: TASK_LOST goes out on the framework's stream.
RECONCILE = (
    "POST /api/v1/scheduler HTTP/1.1\r\nContent-Type: application/json\r\nMesos-Stream-Id: S1-1\r\nContent-Length: 129\r\n\r\n"
    '{"type":"RECONCILE","framework_id":{"value":"F1-1"},"reconcile":{"tasks":[{"task_id":{"value":"t9"},"agent_id":{"value":"a1"}}]}}'
)
NO_SUCH_PATH = "GET /x HTTP/1.1\r\n\r\n"

# What is answered.
SUBSCRIBED = '68\r\n100\n{"subscribed":{"framework_id":{"value":"F1-1"},"heartbeat_interval_seconds":15},"type":"SUBSCRIBED"}\r\n'
OTHER_SUBSCRIBED = SUBSCRIBED.replace("F1-1", "F1-2")
FAILED_OVER = '3f\r\n60\n{"error":{"message":"Framework failed over"},"type":"ERROR"}\r\n'
# Offer O1-1 of agent a1 whole.
OFFERS = (
    '11d\r\n281\n{"offers":{"offers":[{"agent_id":{"value":"a1"},"framework_id":{"value":"F1-1"},"hostname":"a1","id":{"value":"O1-1"},'
    '"resources":[{"name":"cpus","role":"*","scalar":{"value":4},"type":"SCALAR"},{"name":"mem","role":"*","scalar":{"value":4096},"type":"SCALAR"}]}]},'
    '"type":"OFFERS"}\r\n'
)
OFFERED_AGAIN = OFFERS.replace("F1-1", "F1-2").replace("O1-1", "O1-2")
LAST_CHUNK = "0\r\n\r\n"
ACCEPTED = "HTTP/1.1 202 Accepted\r\nContent-Length: 0\r\n\r\n"
NOT_FOUND = "HTTP/1.1 404 Not Found\r\nContent-Type: text/plain\r\nContent-Length: 14\r\nConnection: close\r\n\r\nH2 NoSuchPath\n"
WRONG_STREAM = "HTTP/1.1 400 Bad Request\r\nContent-Type: text/plain\r\nContent-Length: 15\r\nConnection: close\r\n\r\nM2 WrongStream\n"
NOT_SUBSCRIBED = "HTTP/1.1 403 Forbidden\r\nContent-Type: text/plain\r\nContent-Length: 17\r\nConnection: close\r\n\r\nM1 NotSubscribed\n"

# Entries of the history before the first connection: the opening, the master's tick and round, and for each greeting the agent's draft, its commit and its
# Report. The tick greets the agent once more where it comes before the first Report.
BEGINNINGS = (1 + 2 + 3, 1 + 2 + 3 + 3)
# Entries of a call, which is sent and delivered, and of an event, which is taken from its stream.
CALL, EVENT = 2, 1


def stream_head(stream):
    return f"HTTP/1.1 200 OK\r\nContent-Type: application/json\r\nTransfer-Encoding: chunked\r\nMesos-Stream-Id: {stream}\r\n\r\n"


class Connection:
    """A connection, of which each byte that is read has to be the one that is due. A read waits for 20 seconds at most."""

    def __init__(self, server, text):
        self.socket = socket.create_connection(("127.0.0.1", server.port), 20)
        self.send(text)

    def send(self, text):
        self.socket.sendall(text.encode())

    def expect(self, case, text):
        """Just this comes next."""
        due, got = text.encode(), b""
        while len(got) < len(due) and (piece := self.socket.recv(len(due) - len(got))):
            got += piece
        check(got == due, f"{case}: {got!r} comes, and {due!r} is due")

    def expect_last(self, case, text):
        """This comes next, and then the connection ends."""
        self.expect(case, text)
        rest = self.socket.recv(65536)
        check(rest == b"", f"{case}: {rest!r} comes where the connection is to end")
        self.socket.close()

    def head(self):
        """The head of an answer."""
        head = b""
        while not head.endswith(b"\r\n\r\n") and (piece := self.socket.recv(1)):
            head += piece
        return head.decode()


def subscribe(server):
    first = Connection(server, SUBSCRIBE)
    first.expect("SUBSCRIBE", stream_head("S1-1") + SUBSCRIBED)
    return first


def serve(folder, *options):
    """A server, once its agent has reported and its first round of offers is over."""
    server = Server(folder, *options)
    time.sleep(SECONDS)
    return server


def entries_at_the_end(case, server):
    """The number of entries in the table that the program writes at its end, once its last connection has ended."""
    out, err = server.process.communicate(timeout=15)
    check(server.process.returncode == 0 and err == b"", f"{case}: the status is {server.process.returncode}: {err.decode()}")
    agent, entries = out.decode().splitlines()
    check(agent == "agent a1 owns cpus:4 mem:4096 offered - live -", f"{case}: the table begins {agent!r}")
    word, _, count = entries.partition(" ")
    check(word == "entries", f"{case}: the table ends {entries!r}")
    return int(count)


def check_entries(case, server, due):
    """So many entries came of the connections."""
    entries = entries_at_the_end(case, server)
    check(entries - due in BEGINNINGS, f"{case}: {entries} entries, and {due} are due behind one of {BEGINNINGS}")


def ask_twice():
    """Another path is refused, on each of two connections, and no more are taken."""
    case = "another path"
    with Folder(AGENTS) as folder, serve(folder, *STILL, "--conns", "2") as server:
        for _ in range(2):
            Connection(server, NO_SUCH_PATH).expect_last(case, NOT_FOUND)
        check_entries(case, server, 0)


def fail_over():
    """A framework that subscribes again has a new stream; the old one tells of it, and ends. Nothing is hung up."""
    case = "a failover"
    with Folder(AGENTS) as folder, serve(folder, *STILL, "--conns", "3") as server:
        first = subscribe(server)
        second = Connection(server, SUBSCRIBE_AGAIN)
        second.expect(case, stream_head("S1-2") + SUBSCRIBED)
        first.expect_last(case, FAILED_OVER + LAST_CHUNK)
        caller = Connection(server, TEARDOWN_ON_SECOND)
        caller.expect(case, ACCEPTED)
        caller.socket.close()
        second.expect_last(case, LAST_CHUNK)
        check_entries(case, server, 3 * CALL + 3 * EVENT)


def hang_up(case, server):
    """Makes events for a stream whose client went away until it is hung up, and gives the number of the calls that were taken before."""
    caller = Connection(server, RECONCILE)
    for taken in range(100):
        head = caller.head()
        if head != ACCEPTED:
            check(head + "M1 NotSubscribed\n" == NOT_SUBSCRIBED, f"{case}: {head!r}")
            caller.expect_last(case, "M1 NotSubscribed\n")
            return taken
        time.sleep(0.2)
        caller.send(RECONCILE)
    raise SystemExit(f"failed: {case}: the stream isn't hung up")


def tear_down():
    """TEARDOWN without its stream while that is open, and once its client went away and it was hung up."""
    case = "TEARDOWN without its stream"
    with Folder(AGENTS) as folder, serve(folder, *STILL, "--conns", "4") as server:
        first = subscribe(server)
        Connection(server, TEARDOWN).expect_last(case, WRONG_STREAM)
        first.socket.close()
        reconciled = hang_up(case, server)
        Connection(server, TEARDOWN).expect_last(case, NOT_SUBSCRIBED)
        # One hang-up, the call that found it done, and of the events before it those that the connection took.
        others = entries_at_the_end(case, server) - ((4 + reconciled) * CALL + EVENT + 1)
        check(any(1 <= others - it <= reconciled for it in BEGINNINGS), f"{case}: {others} other entries at {reconciled} events")


def be_gone():
    """A client is offered an agent and goes away: once that is noticed, the next framework is offered it, in an offer of its own."""
    case = "a client that is gone"
    with Folder(AGENTS) as folder, serve(folder) as server:
        first = subscribe(server)
        first.expect(case, OFFERS)
        first.socket.close()
        second = Connection(server, SUBSCRIBE)
        second.expect(case, stream_head("S1-2") + OTHER_SUBSCRIBED)
        hang_up(case, server)
        second.expect(case, OFFERED_AGAIN)


def main():
    ask_twice()
    fail_over()
    tear_down()
    be_gone()
    print("another path twice, a failover, TEARDOWN without its stream, and the offer of a client that went away: each answer is as is due, byte by byte")


main()
