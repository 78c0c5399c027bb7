"""A peer that answers `misp sync` with mutated groups, manifests, packages and replies."""

import json
import os
import re
import socket
import subprocess
import tempfile
import threading

import judging
import mutating
import packages
import running
import world

STATUSES = (0, 1, 8)
OCTETS = "application/octet-stream"
LINE = re.compile(rb"1 (\d{3}) (\{.*\})\n")


def reply(body, kind="application/json", status="200 OK"):
    """The bytes of a reply."""
    head = f"HTTP/1.1 {status}\r\nContent-Type: {kind}\r\nContent-Length: {len(body)}\r\n\r\n"
    return head.encode() + body


def request_of(connection):
    """The target and the body that a connection asks with."""
    text = b""
    while b"\r\n\r\n" not in text:
        more = connection.recv(65536)
        if not more:
            return None
        text += more
    head, body = text.split(b"\r\n\r\n", 1)
    found = re.search(rb"(?i)content-length: *(\d+)", head)
    while found and len(body) < int(found[1]):
        body += connection.recv(65536) or b"\x00" * int(found[1])
    return head.split(b" ")[1].decode(), body


class Peer:
    """A server of replies, by their targets. That of a list of wanted rows is by event and part."""

    def __init__(self, replies):
        self.replies = replies
        self.door = socket.create_server(("127.0.0.1", 0))
        self.address = "127.0.0.1:%d" % self.door.getsockname()[1]
        self.thread = threading.Thread(target=self.serve)
        self.thread.start()

    def serve(self):
        while True:
            connection, _ = self.door.accept()
            with connection:
                try:
                    asked = request_of(connection)
                    if asked == ("/end", b""):
                        return
                    if asked:
                        connection.sendall(self.reply(*asked))
                except OSError:
                    pass

    def reply(self, target, body):
        if target == "/sync/rows":
            return self.replies.get(body[4:24].hex(), b"")
        return self.replies.get(target, b"")

    def end(self):
        host, port = self.address.split(":")
        with socket.create_connection((host, int(port))) as last:
            last.sendall(b"GET /end HTTP/1.1\r\n\r\n")
        self.thread.join()
        self.door.close()


class Honest(Peer):
    """A peer that answers a list of wanted rows with these and the event's own."""

    def reply(self, target, body):
        told = super().reply(target, body)
        if target != "/sync/rows" or not told:
            return told
        package = told.split(b"\r\n\r\n", 1)[1]
        keys = packages.keys_of(body)
        own, *others = packages.rows_of(package)
        rows = [row for row in others if packages.key_of(row) in keys]
        return reply(packages.package_of(package[:28], [own, *rows]), OCTETS)


def replies_of(shared):
    """The replies of an instance that has these packages, manifest and groups."""
    *parts, manifest, groups = shared
    told = {part[4:24].hex(): reply(part, OCTETS) for part in parts}
    told["/sync/manifest"] = reply(manifest, OCTETS)
    told["/sync/groups"] = reply(groups)
    return told


def told_of(replies):
    """Replies as JSON, with their bytes in digits."""
    return json.dumps({name: text.hex() for name, text in replies.items()}, indent=1).encode()


def synchronise(program, folder, replies, way="pull", form=Peer):
    """A run of `misp sync` in this folder against a peer of these replies."""
    peer = form(replies)
    try:
        return running.run(
            program, ["sync", "b", "up", way], world.description(peer.address), folder
        )
    finally:
        peer.end()


def fault_of_line(ran):
    """Why the line of a synchronisation is a finding, or None."""
    if ran.status == 8:
        return None
    line = LINE.fullmatch(ran.written)
    if line is None:
        return f"writes {ran.written[:200]}"
    if (line[1] == b"200") != (ran.status == 0):
        return f"ends with {ran.status} after {ran.written[:200]}"
    return judging.fault_of_reply(int(line[1]), line[2], ())


class Kind:
    def __init__(self, program, dice, findings):
        self.program = program
        self.dice = dice
        self.findings = findings
        self.whole = replies_of(packages.shared(program))

    def changed(self, told):
        """A reply after mutations of its body, of its bytes, or one of another status."""
        dice = self.dice
        way = dice.random()
        head, body = told.split(b"\r\n\r\n", 1)
        if way < 0.6:
            is_json = b"json" in head
            body = mutating.rejsoned(dice, body) if is_json else mutating.mutated(
                dice, body, packages.WAYS)
            return reply(body, "application/json" if is_json else OCTETS)
        if way < 0.9:
            return mutating.mutated(dice, told, mutating.ON_TEXT)
        refusal = b'{"name":"NoKey","place":"","rule":1}'
        refusal = mutating.rejsoned(dice, refusal) if dice.random() < 0.7 else refusal
        return reply(refusal, status=dice.choice(["403 Forbidden", "200 OK", "999 X", "099 X"]))

    def fault(self, replies, way):
        """Why a peer of these replies is a finding, or None."""
        with tempfile.TemporaryDirectory() as folder:
            if way == "push":
                synchronise(self.program, folder, self.whole)
            ran = synchronise(self.program, folder, replies, way)
            fault = running.crash(ran, STATUSES) or fault_of_line(ran)
            if fault:
                return fault
            again = synchronise(self.program, folder, self.whole, form=Honest)
            fault = running.crash(again, (0,)) or fault_of_line(again)
            return f"the next pull, of the whole: {fault} {again.written[:200]}" if fault else None

    def round(self):
        """Tries one peer."""
        way = self.dice.choice(["pull"] * 5 + ["push"])
        replies = dict(self.whole)
        if way == "push":
            replies = {path: reply(b'{"taken":1}') for path in ("/sync/part", "/sync/groups")}
        for target in self.dice.sample(list(replies), self.dice.choice([1, 1, 2])):
            replies[target] = self.changed(replies[target])
        fault = self.fault(replies, way)
        if fault:
            files = {"replies": told_of(replies), "pulled": told_of(self.whole)}
            self.findings.keep(fault, ["sync", "b", "up", way], files)
        return 1


class Killer(Peer):
    """A peer that kills who asks it for this package, once it knows the process."""

    def __init__(self, replies, last):
        super().__init__(replies)
        self.last = last
        self.knows = threading.Event()
        self.process = None

    def reply(self, target, body):
        if target == "/sync/rows" and body[4:24].hex() == self.last:
            self.knows.wait()
            self.process.kill()
            self.process.wait()
        return super().reply(target, body)


def kill(program, folder, shared):
    """A run of `misp sync` that is killed while it waits for the last package."""
    peer = Killer(replies_of(shared), shared[2][4:24].hex())
    network = os.path.join(folder, "network")
    write(folder, {"network": world.description(peer.address)})
    with open(network, "rb") as given:
        peer.process = subprocess.Popen(
            [program, "sync", "b", "up", "pull"], stdin=given, cwd=folder,
            stdout=subprocess.DEVNULL, env={**os.environ, **running.SANITIZED},
        )
    peer.knows.set()
    peer.process.wait()
    peer.end()
    os.remove(network)


def records(program, shared, is_killed):
    """The files of records that a pull of these packages makes, which ends or is killed."""
    with tempfile.TemporaryDirectory() as folder:
        if is_killed:
            kill(program, folder, shared)
        else:
            synchronise(program, folder, replies_of(shared))
        names = [name for name in sorted(os.listdir(folder)) if name.startswith("b.misp")]
        return {name: read(folder, name) for name in names}


def read(folder, name):
    """The bytes of a file, or None where it is not there."""
    path = os.path.join(folder, name)
    if not os.path.exists(path):
        return None
    with open(path, "rb") as file:
        return file.read()


def write(folder, files):
    """These files in this folder."""
    for name, text in files.items():
        with open(os.path.join(folder, name), "wb") as file:
            file.write(text)
