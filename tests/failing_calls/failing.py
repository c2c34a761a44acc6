"""A served cluster whose calls fail one after another, and connections that are compared byte by byte, for the scripts of this folder."""
import mmap
import os
import re
import socket
import struct
import subprocess
import sys
import time

HERE = os.path.dirname(os.path.abspath(__file__))
sys.path.insert(0, os.path.join(HERE, "..", "serve"))
sys.dont_write_bytecode = True

from cluster import Server, check, request  # noqa: E402

# A call that takes longer than so many seconds is a fault.
SECONDS = 10
# After so long the round of offers at the server's start is over, and after so long a connection that was taken is served by its worker alone.
STARTED, TAKEN = 0.3, 0.02

# Entries of the history before the first connection: the opening, the master's tick and round, and for each greeting the agent's draft, its commit and its
# Report. The tick greets the agent once more where it comes before the first Report.
BEGINNINGS = (1 + 2 + 3, 1 + 2 + 3 + 3)
# Entries of a call, which is sent and delivered, of an event, which is taken from its stream, and of a stream that is hung up.
CALL, EVENT, HANG_UP = 2, 1, 1

SUBSCRIBE = request(b'{"type":"SUBSCRIBE","subscribe":{"framework_info":{"user":"u","name":"n"}}}')
NO_SUCH_PATH = b"GET /x HTTP/1.1\r\n\r\n"
ACCEPTED = b"HTTP/1.1 202 Accepted\r\nContent-Length: 0\r\n\r\n"
LAST_CHUNK = b"0\r\n\r\n"
REASONS = {400: "Bad Request", 403: "Forbidden", 404: "Not Found", 405: "Method Not Allowed", 413: "Content Too Large", 415: "Unsupported Media Type", 503: "Service Unavailable"}


def refusal(status, text):
    allow = "Allow: POST\r\n" if status == 405 else ""
    fields = f"{allow}Content-Type: text/plain\r\nContent-Length: {len(text) + 1}\r\nConnection: close\r\n\r\n"
    return f"HTTP/1.1 {status} {REASONS[status]}\r\n{fields}{text}\n".encode()


def chunk(event):
    """The chunk of an event's text."""
    frame = f"{len(event)}\n{event}"
    return f"{len(frame):x}\r\n{frame}\r\n".encode()


def subscribed(run, stream, framework):
    """What a SUBSCRIBE is answered that opens this stream for this framework."""
    head = f"HTTP/1.1 200 OK\r\nContent-Type: application/json\r\nTransfer-Encoding: chunked\r\nMesos-Stream-Id: S{run}-{stream}\r\n\r\n"
    told = f'{{"subscribed":{{"framework_id":{{"value":"F{run}-{framework}"}},"heartbeat_interval_seconds":15}},"type":"SUBSCRIBED"}}'
    return head.encode() + chunk(told)


# The first exchange of all, as the formats have it.
check(
    subscribed(1, 1, 1).endswith(
        b'Mesos-Stream-Id: S1-1\r\n\r\n68\r\n100\n{"subscribed":{"framework_id":{"value":"F1-1"},"heartbeat_interval_seconds":15},"type":"SUBSCRIBED"}\r\n'
    ),
    "the first SUBSCRIBED is a chunk of size 68",
)


class Control:
    """What fail.c, which is built where it isn't yet, shares with this script."""

    NOTHING, MEMORY, READS, WRITES, FILES = range(5)
    NEW, FIRST, OTHERS, ALL = range(4)
    FIELDS = ("arming", "kind", "number", "rest", "scope", "most", "count", "failed")

    def __init__(self, work, name="control"):
        shim, path = f"{work}/fail.so", f"{work}/{name}"
        if not os.path.exists(shim):
            subprocess.run([os.environ.get("CC", "cc"), "-O1", "-shared", "-fPIC", "-o", shim, f"{HERE}/fail.c", "-ldl"], check=True)
        with open(path, "w+b") as it:
            it.write(bytes(8 * len(self.FIELDS)))
            it.flush()
            self.shared = mmap.mmap(it.fileno(), 0)
        self.environment = dict(os.environ, LD_PRELOAD=shim, CONTROL=path)

    def get(self, field):
        return struct.unpack_from("=Q", self.shared, 8 * self.FIELDS.index(field))[0]

    def set(self, field, value):
        struct.pack_into("=Q", self.shared, 8 * self.FIELDS.index(field), value)

    def arm(self, kind, number, rest=False, scope=NEW, most=0):
        """From now on calls of a kind count, and the one of this number fails, with `rest` all behind it too; with 0 none does."""
        values = {"number": number, "rest": int(rest), "scope": scope, "most": most, "count": 0, "failed": 0, "arming": self.get("arming") + 1}
        for field, value in values.items():
            self.set(field, value)
        self.set("kind", kind)

    def disarm(self):
        """How many calls were counted, and whether one failed."""
        self.set("kind", self.NOTHING)
        return self.get("count"), self.get("failed") == 1


def connect(port):
    it = socket.create_connection(("127.0.0.1", port), SECONDS)
    it.setsockopt(socket.IPPROTO_TCP, socket.TCP_NODELAY, 1)
    return it


def send(it, data):
    """Sends data; a connection that has ended takes none."""
    try:
        it.sendall(data)
    except ConnectionError:
        pass


def receive(it, size):
    """So many bytes, or those of them that come before the connection ends."""
    data = b""
    try:
        while len(data) < size and (piece := it.recv(size - len(data))):
            data += piece
    except ConnectionError:
        pass
    return data


def rest(it):
    """All that still comes; the connection has to end."""
    return receive(it, 1 << 20)


def answer_to(port, data):
    """All that a connection is sent back on which this is sent."""
    with connect(port) as it:
        send(it, data)
        return rest(it)


class Caller:
    """A connection on which calls follow one another."""

    def __init__(self, port):
        self.socket = connect(port)

    def call(self, body, stream=None):
        """The status of the answer, and the text of a refusal."""
        send(self.socket, request(body.encode(), *([f"Mesos-Stream-Id: {stream}"] if stream else [])))
        head = b""
        while not head.endswith(b"\r\n\r\n") and (piece := receive(self.socket, 1)):
            head += piece
        check(head, f"{body} is answered")
        length = int(re.search(rb"Content-Length: (\d+)", head)[1])
        return int(head.split()[1]), receive(self.socket, length).decode().strip()

    def close(self):
        self.socket.close()


def tear_down(framework):
    return f'{{"type":"TEARDOWN","framework_id":{{"value":"{framework}"}}}}'


class Served:
    """A cluster that is served under fail.c for so many connections (0: any number), with no round of offers but that at its start. Streams and frameworks are counted,
    so that each id is known, and entries of the history that the connections make."""

    def __init__(self, folder, control, connections=0, options=()):
        self.folder, self.control, self.connections, self.options, self.server = folder, control, connections, options, None
        self.start()

    def start(self):
        options = ("--interval", "3600", "--conns", str(self.connections), *self.options)
        self.server = Server(self.folder, *options, env=self.control.environment)
        self.port = self.server.port
        self.run = int(re.match(r"run (\d+) serves at ", self.server.said)[1])
        self.streams = self.frameworks = self.entries = 0
        time.sleep(STARTED)

    def start_again(self):
        """Kills the server, and starts one on its folder."""
        self.server.kill()
        self.start()

    def next(self):
        """What the next SUBSCRIBE of a new framework is answered."""
        return subscribed(self.run, self.streams + 1, self.frameworks + 1)

    def take_next(self):
        """Another framework is subscribed: its stream and its id."""
        self.streams += 1
        self.frameworks += 1
        return f"S{self.run}-{self.streams}", f"F{self.run}-{self.frameworks}"

    def subscribe(self):
        """An honest framework, with the connection of its stream, its stream and its id. Its numbers show that nobody else subscribed who wasn't counted."""
        due, it = self.next(), connect(self.port)
        send(it, SUBSCRIBE)
        got = receive(it, len(due))
        check(got == due, f"an honest framework gets {got!r}, and {due!r} is due")
        self.entries += CALL + EVENT
        return it, *self.take_next()

    def caller(self):
        """A connection that is served, on which further calls can be made; an honest framework came and went."""
        it, stream, framework = self.subscribe()
        caller = Caller(self.port)
        for body in (f'{{"type":"REVIVE","framework_id":{{"value":"{framework}"}}}}', tear_down(framework)):
            status, text = caller.call(body, stream)
            check(status == 202, f"{body} is answered {status} {text}")
            self.entries += CALL
        check(rest(it) == LAST_CHUNK, "the stream of a framework that is torn down ends by its last chunk")
        it.close()
        return caller

    def finish(self):
        """The connections that are still to come are made; then the server ends by itself. The table that it writes has the entries that were counted."""
        try:
            for _ in range(self.connections):
                check(answer_to(self.port, NO_SUCH_PATH) in (b"", refusal(404, "H2 NoSuchPath")), "another path is answered 404")
        except ConnectionError:
            pass
        out, err = self.server.process.communicate(timeout=SECONDS)
        check(self.server.process.returncode == 0 and err == b"", f"the server ends with {self.server.process.returncode}, and tells {err!r}")
        entries = int(re.search(rb"\nentries (\d+)\n$", out)[1])
        check(entries - self.entries in BEGINNINGS, f"there are {entries} entries, and {self.entries} are due behind one of {BEGINNINGS}")
        return entries

    def __enter__(self):
        return self

    def __exit__(self, *_):
        self.server.__exit__()
