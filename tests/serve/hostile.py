#!/usr/bin/env python3
"""Hostile requests get their stated answers, and the server goes on."""
import socket

from cluster import PATH, Folder, Framework, Server, check, request, send_raw

TOO_LONG = 1_048_577
HEAD = f"POST {PATH} HTTP/1.1\r\nHost: h\r\nContent-Type: application/json\r\n".encode()
REASONS = {400: "Bad Request", 403: "Forbidden", 404: "Not Found", 405: "Method Not Allowed", 413: "Content Too Large", 415: "Unsupported Media Type"}

# What is sent, and the status and text that answer it.
REQUESTS = {
    "no request at all": (b"\x00\xff\r\n\r\n", 400, "H1 BadHead"),
    "HTTP/1.0": (HEAD.replace(b"1.1", b"1.0") + b"Content-Length: 0\r\n\r\n", 400, "H1 BadHead"),
    "65 fields": (HEAD + b"X: y\r\n" * 63 + b"\r\n", 400, "H1 BadHead"),
    "a head of over 16,384 bytes": (HEAD + b"X: " + b"y" * 16_384 + b"\r\n\r\n", 400, "H1 BadHead"),
    "another path": (HEAD.replace(PATH.encode(), b"/etc/passwd") + b"Content-Length: 0\r\n\r\n", 404, "H2 NoSuchPath"),
    "GET": (HEAD.replace(b"POST", b"GET") + b"\r\n", 405, "H3 NotPost"),
    "another media type": (HEAD.replace(b"application/json", b"text/html") + b"Content-Length: 0\r\n\r\n", 415, "H4 WrongMedia"),
    "a body that is too long": (HEAD + f"Content-Length: {TOO_LONG}\r\n\r\n".encode(), 413, "H5 TooLong"),
    "two lengths": (HEAD + b"Content-Length: 3\r\nContent-Length: 3\r\n\r\n{}\n", 400, "H6 BadBody"),
    "a length and chunks": (HEAD + b"Content-Length: 3\r\nTransfer-Encoding: chunked\r\n\r\n0\r\n\r\n", 400, "H6 BadBody"),
    "chunks that lie": (HEAD + b"Transfer-Encoding: chunked\r\n\r\n2\r\nabc\r\n0\r\n\r\n", 400, "H6 BadBody"),
    "no JSON": (request(b"{"), 400, "J1 NotJson"),
    "a deep nest": (request(b"[" * 100_000), 400, "J1 NotJson"),
    "no type": (request(b"{}"), 400, "J2 NoType"),
    "an unknown type": (request(b'{"type":"SHUTDOWN"}'), 400, "J3 UnknownType"),
    "no framework": (request(b'{"type":"REVIVE"}'), 400, "J4 Missing framework_id"),
    "a framework that isn't there": (request(b'{"type":"REVIVE","framework_id":{"value":"F1-77"}}'), 400, "M3 NoSuchFramework"),
    "no id": (request(b'{"type":"REVIVE","framework_id":{"value":"../../x"}}'), 400, "J5 BadId"),
}


def answer_to(status, text):
    allow = "Allow: POST\r\n" if status == 405 else ""
    body = text + "\n"
    return (
        f"HTTP/1.1 {status} {REASONS[status]}\r\n{allow}Content-Type: text/plain\r\nContent-Length: {len(body)}\r\nConnection: close\r\n\r\n{body}"
    ).encode()


def main():
    with Folder({"a1": {"cpus": 1}}) as folder, Server(folder) as server:
        framework = Framework(server.port)
        check(framework.next("OFFERS"), "offers come")
        for name, (data, status, text) in REQUESTS.items():
            got = send_raw(server.port, data, end=True)
            check(got == answer_to(status, text), f"{name} is answered {got!r}, and {answer_to(status, text)!r} is due")
        silent = [socket.create_connection(("127.0.0.1", server.port), 5) for _ in range(20)]
        half = socket.create_connection(("127.0.0.1", server.port), 5)
        half.sendall(HEAD[:20])
        status, _ = framework.call("SUPPRESS")
        check(status == 202, "a call beside 21 silent connections is taken")
        status, text = framework.call("TEARDOWN", stream=False)
        check((status, text) == (400, "M2 WrongStream"), f"a call without its stream is answered {status} {text}")
        for it in [*silent, half]:
            it.close()
        status, _ = framework.call("TEARDOWN")
        check(status == 202, "TEARDOWN is taken")
        check(framework.ends(), "and the stream ends by its last chunk")
        again = Framework(server.port)
        check(again.next("OFFERS"), "and another framework is served")
        print(f"{len(REQUESTS)} hostile requests got their answers to the byte; calls beside them went on")


main()
