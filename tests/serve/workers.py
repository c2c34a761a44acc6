#!/usr/bin/env python3
"""With --workers 4 at most 3 streams are open: a SUBSCRIBE over that is answered 503 by H10 before the master sees it, and whoever has a stream calls on another connection
all the while. A place is free again once a stream ends, and once one is hung up."""
import time

from cluster import Folder, Framework, Server, check, request, send_raw

SUBSCRIBE = request(b'{"type":"SUBSCRIBE","subscribe":{"framework_info":{"user":"u","name":"n"}}}')
REFUSED = b"HTTP/1.1 503 Service Unavailable\r\nContent-Type: text/plain\r\nContent-Length: 17\r\nConnection: close\r\n\r\nH10 NoStreamLeft\n"


def until_a_place_is_left(port, seconds):
    """How long it takes until a SUBSCRIBE isn't refused any more; it is hung up then."""
    began = time.monotonic()
    while time.monotonic() - began < seconds:
        try:
            Framework(port).close()
            return time.monotonic() - began
        except SystemExit:
            time.sleep(0.2)
    raise SystemExit(f"failed: no place is left within {seconds} s")


def main():
    with Folder({"a1": {"cpus": 4}}) as folder, Server(folder, "--workers", "4") as server:
        streams = [Framework(server.port) for _ in range(3)]
        for _ in range(5):
            answer = send_raw(server.port, SUBSCRIBE)
            check(answer == REFUSED, f"a fourth stream is refused: {answer!r}")
            check(streams[0].call("REVIVE") == (202, ""), "a framework with a stream calls")
        check(streams[2].call("TEARDOWN") == (202, ""), "the third is torn down")
        check(streams[2].ends(), "its stream ends")
        fourth = Framework(server.port)
        check(fourth.id == "F1-4", f"a refused SUBSCRIBE is no framework's: the next is {fourth.id}")
        fourth.close()
        seconds = until_a_place_is_left(server.port, 60)
        print(f"a fourth SUBSCRIBE was refused by H10 and a call answered beside it, five times; a place was left once a stream ended, and {seconds:.0f} s after one was cut off")


main()
