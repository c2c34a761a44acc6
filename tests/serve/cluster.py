"""A served cluster and its frameworks, for the scripts of this folder (Python's standard library alone)."""
import json
import os
import queue
import shutil
import signal
import socket
import subprocess
import tempfile
import threading
import time

HERE = os.path.dirname(os.path.abspath(__file__))
PROGRAM = os.environ.get("PROGRAM") or os.path.join(HERE, "..", "..", "crates", "mesos_node", "out", "mesos_node")
PATH = "/api/v1/scheduler"


def check(fact, text):
    """Ends the script where the fact is false."""
    if not fact:
        raise SystemExit(f"failed: {text}")


def free_port():
    with socket.socket() as it:
        it.bind(("127.0.0.1", 0))
        return it.getsockname()[1]


class Folder:
    """A folder of records with a file of agents, gone at the end."""

    def __init__(self, agents):
        self.path = tempfile.mkdtemp(prefix="gashemul-")
        self.state = os.path.join(self.path, "state")
        os.mkdir(self.state)
        self.agents = os.path.join(self.path, "agents.json")
        self.write({"agents": agents})

    def write(self, config):
        with open(self.agents, "w", encoding="utf-8") as it:
            it.write(config if isinstance(config, str) else json.dumps(config) + "\n")

    def __enter__(self):
        return self

    def __exit__(self, *_):
        shutil.rmtree(self.path, ignore_errors=True)


def run(*words):
    """The status of the program on these words, and what it writes to standard output and standard error."""
    done = subprocess.run([PROGRAM, *words], stdin=subprocess.DEVNULL, capture_output=True, timeout=30)
    return done.returncode, done.stdout.decode(), done.stderr.decode()


def run_serve(folder, *options, state=None, port=None):
    """The same of `serve` on a folder, which has to end by itself."""
    return run("serve", "--port", str(port or free_port()), "--agents", folder.agents, "--state", state or folder.state, *options)


TOLD = []


def tell(case, got, status, text, behind=()):
    """A fault, which has to be told by one line that begins with a text, with these lines behind it, each as far as it is given, and nothing else written."""
    check(got[0] == status, f"{case}: the status is {got[0]}, and {status} is due: {got[2]}")
    check(got[1] == "", f"{case}: {got[1]!r} is written")
    lines, due = got[2].splitlines(keepends=True), (text, *behind)
    check(len(lines) == len(due) and all(line.startswith(it) and line.endswith("\n") for line, it in zip(lines, due)), f"{case}: standard error is {got[2]!r}")
    TOLD.append(case)


class Server:
    """`mesos_node serve` over a folder."""

    def __init__(self, folder, *options, port=None, env=None):
        self.port = port or free_port()
        words = [PROGRAM, "serve", "--port", str(self.port), "--agents", folder.agents, "--state", folder.state, *options]
        # It ignores SIGXFSZ, as Python does: a write past the limit of a file's size fails, and doesn't end it. Its pipes have no buffer here, since `communicate` passes over what
        # a read of a line has left in one.
        self.process = subprocess.Popen(
            words, bufsize=0, stdout=subprocess.PIPE, stderr=subprocess.PIPE, stdin=subprocess.DEVNULL, restore_signals=False, env=env
        )
        self.noted, self.said = [], ""
        while "serves at" not in self.said:
            self.noted += [self.said] if self.said else []
            self.said = self.process.stderr.readline().decode().strip()
            check(self.said, f"serve ends, and says: {self.noted}")

    def kill(self):
        self.process.send_signal(signal.SIGKILL)
        self.process.wait()

    def __enter__(self):
        return self

    def __exit__(self, *_):
        if self.process.poll() is None:
            self.kill()


def send_raw(port, data, timeout=10, end=False):
    """All that is answered to these bytes until the connection ends."""
    with socket.create_connection(("127.0.0.1", port), timeout) as it:
        it.sendall(data)
        if end:
            it.shutdown(socket.SHUT_WR)
        answer = b""
        while piece := it.recv(65536):
            answer += piece
        return answer


def request(body, *fields):
    head = [f"POST {PATH} HTTP/1.1", "Host: 127.0.0.1", "Content-Type: application/json", f"Content-Length: {len(body)}", *fields]
    return "\r\n".join(head).encode() + b"\r\n\r\n" + body


class Framework:
    """A framework that is subscribed: its events come one after another, and it makes calls."""

    def __init__(self, port, role=None, framework=None):
        self.port = port
        info = {"user": "tests", "name": "tests"}
        if role:
            info["roles"] = [role]
        if framework:
            info["id"] = {"value": framework}
        body = json.dumps({"type": "SUBSCRIBE", "subscribe": {"framework_info": info}}).encode()
        self.socket = socket.create_connection(("127.0.0.1", port), 30)
        self.socket.settimeout(None)
        self.socket.sendall(request(body))
        self.file = self.socket.makefile("rb")
        self.status = int(self.file.readline().split()[1])
        self.fields = {}
        while line := self.file.readline().strip():
            name, _, value = line.decode().partition(":")
            self.fields[name.lower()] = value.strip()
        check(self.status == 200, f"SUBSCRIBE is answered {self.status}")
        self.stream = self.fields["mesos-stream-id"]
        self.events, self.before, self.told, self.is_whole = queue.Queue(), [], set(), False
        self.reader = threading.Thread(target=self._read, daemon=True)
        self.reader.start()
        first = self.next("SUBSCRIBED")
        self.id = first["subscribed"]["framework_id"]["value"]

    def _read(self):
        """Reads events until the stream ends: by its last chunk, an empty line and the connection's end, or cut off anywhere else."""
        data = b""
        try:
            while size := int(self.file.readline(), 16):
                data += self.file.read(size)
                self.file.readline()
                while b"\n" in data:
                    length, _, rest = data.partition(b"\n")
                    if len(rest) < int(length):
                        break
                    self.events.put(json.loads(rest[: int(length)]))
                    data = rest[int(length) :]
            self.is_whole = data == b"" and self.file.read() == b"\r\n"
        except (OSError, ValueError):
            pass
        self.events.put(None)

    def ends(self, seconds=20):
        """Whether the stream comes to its last chunk in time, and the connection ends there. Where none comes in time, or the connection breaks off, it doesn't."""
        self.reader.join(seconds)
        return not self.reader.is_alive() and self.is_whole

    def next(self, kind=None, seconds=20):
        """The next event, of a kind where one is named (those before it stay); None where none comes in time, and at the stream's end (`ends` tells which)."""
        for i, event in enumerate(self.before):
            if kind in (None, event["type"]):
                return self.before.pop(i)
        end = time.monotonic() + seconds
        while (left := end - time.monotonic()) > 0:
            try:
                event = self.events.get(timeout=left)
            except queue.Empty:
                return None
            if event is None:
                self.events.put(None)
                return None
            if kind in (None, event["type"]):
                return event
            self.before.append(event)
        return None

    def next_offer(self, resources):
        """The next offer, which has to be of these resources."""
        event = self.next("OFFERS")
        check(event, f"an offer of {resources} comes")
        (offer,) = event["offers"]["offers"]
        check(amounts(offer["resources"]) == resources, f"{resources} are offered: {offer}")
        return offer

    def next_state(self):
        """The state that the next update tells, which is acknowledged. One that was sent again is acknowledged again, and passed over."""
        while update := self.next("UPDATE"):
            self.acknowledge(update)
            status = update["update"]["status"]
            uuid = status.get("uuid")
            if uuid is None or uuid not in self.told:
                self.told.add(uuid)
                return status["state"]
        raise SystemExit("failed: an update comes")

    def call(self, kind, members=None, stream=True):
        """The status of a call, and the text of its answer."""
        body = {"type": kind, "framework_id": {"value": self.id}}
        if members is not None:
            body[kind.lower()] = members
        fields = [f"Mesos-Stream-Id: {self.stream}"] if stream else []
        answer = send_raw(self.port, request(json.dumps(body).encode(), "Connection: close", *fields))
        head, _, text = answer.partition(b"\r\n\r\n")
        return int(head.split()[1]), text.decode().strip()

    def accept(self, offer, tasks, refuse_seconds=0):
        """Launches tasks, each a name with its resources, on an offer."""
        infos = [
            {
                "name": name,
                "task_id": {"value": name},
                "agent_id": offer["agent_id"],
                "resources": [{"name": n, "type": "SCALAR", "scalar": {"value": v}} for n, v in resources.items()],
            }
            for name, resources in tasks
        ]
        operations = [{"type": "LAUNCH", "launch": {"task_infos": infos}}] if infos else []
        members = {"offer_ids": [offer["id"]], "operations": operations, "filters": {"refuse_seconds": refuse_seconds}}
        status, text = self.call("ACCEPT", members)
        check(status == 202, f"ACCEPT is answered {status} {text}")

    def acknowledge(self, update):
        status = update["update"]["status"]
        if "uuid" not in status:
            return
        members = {"agent_id": status["agent_id"], "task_id": status["task_id"], "uuid": status["uuid"]}
        answer, text = self.call("ACKNOWLEDGE", members)
        check(answer == 202, f"ACKNOWLEDGE is answered {answer} {text}")

    def end_input(self):
        """Shuts down the sending half of the stream's connection."""
        self.socket.shutdown(socket.SHUT_WR)

    def close(self):
        self.socket.shutdown(socket.SHUT_RDWR)
        self.socket.close()


def note(tally, update):
    """Notes an UPDATE: of each task the states that were told, each with its uuid. The last one told once more was sent again, and counts once."""
    status = update["update"]["status"]
    told = tally.setdefault(status["task_id"]["value"], [])
    check("uuid" in status, f"{status} has a uuid")
    if told[-1:] != [(status["state"], status["uuid"])]:
        told.append((status["state"], status["uuid"]))


def states(told):
    """The states of a task that were told, in their order."""
    return [state for state, _ in told]


def check_finished(tally):
    """Each task is told to run, once, and then to have finished, once."""
    for name, told in tally.items():
        check(states(told) == ["TASK_RUNNING", "TASK_FINISHED"], f"{name} had {told}")
    uuids = [uuid for told in tally.values() for _, uuid in told]
    check(len(set(uuids)) == len(uuids), f"no two updates have one uuid: {uuids}")


def amounts(resources):
    return {it["name"]: it["scalar"]["value"] for it in resources}
