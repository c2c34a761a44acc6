#!/usr/bin/env python3
"""Clients that break off: after each byte of a SUBSCRIBE and after each byte of its answer the server goes on, and a stream that was opened is hung up.

An end of input in the request is answered as it is due there; behind a reset nothing is taken. A client that is reset while its stream is open is noticed at the next event: its
framework isn't subscribed any more, and what it was offered goes to another. Whoever subscribes next has the number that it would have had without the others.
"""
import random
import select
import socket
import struct
import time

from cluster import Folder, Framework, Server, check, request, send_raw

BODY = b'{"type":"SUBSCRIBE","subscribe":{"framework_info":{"user":"u","name":"n"}}}'
SUBSCRIBE = request(BODY)
HEAD = len(SUBSCRIBE) - len(BODY)
ACCEPTED = b"HTTP/1.1 202 Accepted\r\nContent-Length: 0\r\n\r\n"
# Offers are broken off at so many bytes.
OFFERS, SEED = 4, 1


def refusal(status, text):
    return f"HTTP/1.1 {status}\r\nContent-Type: text/plain\r\nContent-Length: {len(text) + 1}\r\nConnection: close\r\n\r\n{text}\n".encode()


BAD_HEAD, BAD_BODY, NOT_SUBSCRIBED = refusal("400 Bad Request", "H1 BadHead"), refusal("400 Bad Request", "H6 BadBody"), refusal("403 Forbidden", "M1 NotSubscribed")


def subscribed(number):
    """What the SUBSCRIBE is answered that makes this framework, with a stream of the same number."""
    event = f'{{"subscribed":{{"framework_id":{{"value":"F1-{number}"}},"heartbeat_interval_seconds":15}},"type":"SUBSCRIBED"}}'
    frame = f"{len(event)}\n{event}"
    head = f"HTTP/1.1 200 OK\r\nContent-Type: application/json\r\nTransfer-Encoding: chunked\r\nMesos-Stream-Id: S1-{number}\r\n\r\n"
    return f"{head}{len(frame):x}\r\n{frame}\r\n".encode()


def connect(server):
    it = socket.create_connection(("127.0.0.1", server.port), 10)
    it.setsockopt(socket.IPPROTO_TCP, socket.TCP_NODELAY, 1)
    return it


def receive(it, size):
    data = b""
    while len(data) < size and (piece := it.recv(size - len(data))):
        data += piece
    return data


def reset(it):
    """Breaks a connection off: its other end is told by a reset."""
    it.setsockopt(socket.SOL_SOCKET, socket.SO_LINGER, struct.pack("ii", 1, 0))
    it.close()


def end_each(server):
    """The input ends behind each byte of the request."""
    for size in range(len(SUBSCRIBE)):
        due = BAD_BODY if size >= HEAD else BAD_HEAD if size else b""
        got = send_raw(server.port, SUBSCRIBE[:size], end=True)
        check(got == due, f"an end behind {size} bytes is answered {got!r}, and {due!r} is due")


def reset_each(server):
    """The client breaks off behind each byte of the request."""
    for size in range(len(SUBSCRIBE)):
        it = connect(server)
        it.sendall(SUBSCRIBE[:size])
        reset(it)


def drip(server):
    """Each byte of the request comes by itself, and all is answered."""
    due = subscribed(1)
    with connect(server) as it:
        for byte in SUBSCRIBE:
            it.sendall(bytes([byte]))
            time.sleep(0.001)
        got = receive(it, len(due))
        check(got == due, f"a SUBSCRIBE byte by byte is answered {got!r}, and {due!r} is due")
        reset(it)
    hang_up(server, 1)


def hang_up(server, number):
    """Makes events for a stream whose client is gone, until it is hung up."""
    body = f'{{"type":"RECONCILE","framework_id":{{"value":"F1-{number}"}},"reconcile":{{"tasks":[{{"task_id":{{"value":"y"}},"agent_id":{{"value":"zz"}}}}]}}}}'
    call = request(body.encode(), "Connection: close", f"Mesos-Stream-Id: S1-{number}")
    for _ in range(500):
        answer = send_raw(server.port, call)
        if answer == NOT_SUBSCRIBED:
            return
        check(answer == ACCEPTED, f"RECONCILE is answered {answer!r}")
        time.sleep(0.01)
    raise SystemExit(f"failed: stream S1-{number} isn't hung up")


def break_off(server, number, size):
    """The client of a framework breaks off when it has read so many bytes of the answer."""
    due = subscribed(number)
    it = connect(server)
    it.sendall(SUBSCRIBE)
    check(select.select([it], [], [], 10)[0], "a SUBSCRIBE is answered")
    got = receive(it, size)
    check(got == due[:size], f"{got!r} comes, and {due[:size]!r} is due")
    reset(it)
    hang_up(server, number)


def break_offers_off(server, number, size):
    """A client is offered all, and breaks off behind so many bytes of the offer: all is offered to the other framework."""
    due = subscribed(number)
    it = connect(server)
    it.sendall(SUBSCRIBE)
    end = time.monotonic() + 10
    while len(it.recv(65536, socket.MSG_PEEK)) < len(due) + size:
        check(time.monotonic() < end, "an offer comes")
        time.sleep(0.05)
    got = receive(it, len(due) + size)
    check(got.startswith(due) and b'{"offers":' in got, f"{got!r} comes, and an offer is due behind {due!r}")
    reset(it)
    other = Framework(server.port)
    check(other.id == f"F1-{number + 1}", f"the next framework is {other.id}")
    check(other.next("OFFERS", seconds=1.5) is None, "what is offered to one framework isn't offered to another")
    hang_up(server, number)
    other.next_offer({"cpus": 2})
    status, text = other.call("TEARDOWN")
    check(status == 202 and other.ends(), f"TEARDOWN is answered {status} {text}, and the stream ends")


def main():
    with Folder({"a1": {"cpus": 2}}) as folder, Server(folder, "--interval", "3600") as server:
        time.sleep(0.5)
        end_each(server)
        reset_each(server)
        drip(server)
        for number in range(2, 2 + len(subscribed(2))):
            break_off(server, number, number - 2)
        check(Framework(server.port).id == f"F1-{2 + len(subscribed(2))}", "and the next framework is subscribed")
    rng = random.Random(SEED)
    with Folder({"a1": {"cpus": 2}}) as folder, Server(folder) as server:
        for i in range(OFFERS):
            break_offers_off(server, 1 + 2 * i, rng.randrange(20, 150))
    print(f"a SUBSCRIBE ended, and was reset, behind each of its {len(SUBSCRIBE)} bytes, and its client broke off behind each of {len(subscribed(2))} bytes of the answer;")
    print(f"each stream was hung up at the next event, and {OFFERS} offers went to another framework")


main()
