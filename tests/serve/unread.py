#!/usr/bin/env python3
"""What isn't waited for: a request that is over a limit is answered as soon as that is told, though the rest never comes, or comes slowly; at the limit it is taken."""
import socket
import time

from cluster import PATH, Folder, Server, check

MOST_BODY, MOST_HEAD, MOST_FIELDS = 1_048_576, 16_384, 64
# An answer that doesn't wait has come after so many seconds.
AT_ONCE = 5
HEAD = f"POST {PATH} HTTP/1.1\r\nContent-Type: application/json\r\n".encode()
BODY = b'{"type":"SUBSCRIBE","subscribe":{"framework_info":{"user":"u","name":"n"}}}'


def refusal(status, text):
    return f"HTTP/1.1 {status}\r\nContent-Type: text/plain\r\nContent-Length: {len(text) + 1}\r\nConnection: close\r\n\r\n{text}\n".encode()


TOO_LONG, BAD_HEAD = refusal("413 Content Too Large", "H5 TooLong"), refusal("400 Bad Request", "H1 BadHead")
# What is sent, with nothing behind it, and what is answered.
UNENDED = {
    "a length over the limit": (HEAD + b"Content-Length: %d\r\n\r\n" % (MOST_BODY + 1), TOO_LONG),
    "a length of 5,000 digits": (HEAD + b"Content-Length: 1" + b"0" * 4_999 + b"\r\n\r\n", TOO_LONG),
    "a length over the limit that would be waited for": (HEAD + b"Expect: 100-continue\r\nContent-Length: %d\r\n\r\n" % (MOST_BODY + 1), TOO_LONG),
    "a chunk over the limit": (HEAD + b"Transfer-Encoding: chunked\r\n\r\n%x\r\n" % (MOST_BODY + 1), TOO_LONG),
    "chunks over the limit": (HEAD + b"Transfer-Encoding: chunked\r\n\r\n%x\r\n%s\r\n1\r\n" % (MOST_BODY, b" " * MOST_BODY), TOO_LONG),
    "a head over the limit": ((HEAD + b"X: " + b"y" * MOST_HEAD)[: MOST_HEAD + 1], BAD_HEAD),
    "fields over the limit": (HEAD + b"X: y\r\n" * MOST_FIELDS + b"\r\n", BAD_HEAD),
}


def padded(size):
    """A SUBSCRIBE with blanks behind it, of this size."""
    return BODY + b" " * (size - len(BODY))


def full_head():
    """The head of a SUBSCRIBE that has as many bytes as it may."""
    head = HEAD + b"Content-Length: %d\r\n" % len(BODY)
    return head + b"X: " + b"y" * (MOST_HEAD - len(head) - len("X: \r\n\r\n")) + b"\r\n\r\n"


# What is at its limit, and taken.
TAKEN = {
    "a length at the limit": HEAD + b"Content-Length: %d\r\n\r\n" % MOST_BODY + padded(MOST_BODY),
    "chunks at the limit": HEAD + b"Transfer-Encoding: chunked\r\n\r\n%x\r\n%s\r\n1\r\n \r\n0\r\n\r\n" % (MOST_BODY - 1, padded(MOST_BODY - 1)),
    "a head at the limit": full_head() + BODY,
    "fields at the limit": HEAD + b"Content-Length: %d\r\n" % len(BODY) + b"X: y\r\n" * (MOST_FIELDS - 2) + b"\r\n" + BODY,
}


def connect(server):
    it = socket.create_connection(("127.0.0.1", server.port), AT_ONCE)
    it.setsockopt(socket.IPPROTO_TCP, socket.TCP_NODELAY, 1)
    return it


def all_of(name, it):
    """All that comes until the connection ends, in time."""
    data = b""
    try:
        while piece := it.recv(65536):
            data += piece
    except ConnectionError:
        pass
    except TimeoutError:
        raise SystemExit(f"failed: {name} isn't answered within {AT_ONCE} seconds") from None
    return data


def send_unended(server):
    for name, (data, due) in UNENDED.items():
        with connect(server) as it:
            it.sendall(data)
            got = all_of(name, it)
        check(got == due, f"{name} is answered {got!r}, and {due!r} is due")


def send_slowly(server):
    """The body comes byte by byte, for longer than the answer takes."""
    with connect(server) as it:
        it.sendall(UNENDED["a length over the limit"][0])
        it.settimeout(0.02)
        end, got, sent = time.monotonic() + AT_ONCE, b"", 0
        while not got:
            check(time.monotonic() < end, f"a body that comes slowly is waited for: {sent} bytes were sent")
            try:
                got = it.recv(65536)
            except TimeoutError:
                it.sendall(b" ")
                sent += 1
    check(got == TOO_LONG, f"a body that comes slowly is answered {got!r}")


def leave_unread(server):
    """Not all of a body that has come is read: the connection is reset, which is how the system ends one with input that nobody read."""
    is_reset, got = False, b""
    with connect(server) as it:
        try:
            it.sendall(UNENDED["a length over the limit"][0] + padded(MOST_BODY + 1))
        except ConnectionError:
            is_reset = True
        try:
            while piece := it.recv(65536):
                got += piece
        except ConnectionError:
            is_reset = True
    check(got == TOO_LONG, f"a body that has come is answered {got!r}")
    check(is_reset, "a body that is too long is read to its end")


def wait_at_the_limit(server):
    """A head that may still end within its limit is waited for."""
    with connect(server) as it:
        it.sendall((HEAD + b"X: " + b"y" * MOST_HEAD)[:MOST_HEAD])
        it.settimeout(0.5)
        try:
            raise SystemExit(f"failed: {MOST_HEAD} bytes of a head are answered {it.recv(65536)!r}")
        except TimeoutError:
            pass
        it.settimeout(AT_ONCE)
        it.sendall(b"y")
        got = all_of("a head over the limit", it)
    check(got == BAD_HEAD, f"the byte behind them is answered {got!r}")


def send_taken(server):
    for name, data in TAKEN.items():
        with connect(server) as it:
            it.settimeout(20)
            it.sendall(data)
            got = it.recv(65536)
        check(got.startswith(b"HTTP/1.1 200 OK\r\n"), f"{name} is answered {got!r}")


def main():
    check(len(full_head()) == MOST_HEAD, "the head is as long as it may be")
    with Folder({"a1": {"cpus": 1}}) as folder, Server(folder) as server:
        send_unended(server)
        send_slowly(server)
        leave_unread(server)
        wait_at_the_limit(server)
        send_taken(server)
        print(f"{len(UNENDED)} requests over a limit were answered though the rest of them never came, one while its body came slowly; {len(TAKEN)} at their limits were taken")


main()
