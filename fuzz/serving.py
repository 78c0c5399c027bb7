"""Servers that are started and stopped, and clients of them: many requests at once, slow ones, and
ones that are gone before the end."""

import os
import re
import socket
import struct
import subprocess
import time

import judging
import world

QUOTA = 1000  # requests that a connection may have
ANY = ("Ended", "Closed", "Cut", "ReadFault", "WriteFault")
HEAD_END = b"\r\n\r\n"


def free_port():
    """A port that nobody listens at."""
    with socket.socket() as free:
        free.bind(("127.0.0.1", 0))
        return free.getsockname()[1]


class Server:
    """One instance that is served, with its records in a folder. Of each connection it is known how
    it may end, and how many requests it had."""

    def __init__(self, program, folder, name, port):
        self.words = [program, "serve", name, f"127.0.0.1:{port}", "1000000"]
        self.folder = folder
        self.name = name
        self.port = port
        self.process = None
        self.ends = []
        self.faults = []

    def start(self):
        """Starts it, and waits until it listens."""
        self.ends = []
        with open(os.path.join(self.folder, "network"), "rb") as given, open(
            os.path.join(self.folder, f"{self.name}.lines"), "wb"
        ) as lines:
            self.process = subprocess.Popen(
                self.words, cwd=self.folder, stdin=given, stdout=lines)
        for _ in range(2000):
            try:
                self.connect().close()
                self.ends.append((("Ended",), 0))
                return
            except ConnectionRefusedError:
                time.sleep(0.01)
        raise SystemExit(f"{self.name} does not listen: {self.process.poll()}")

    def connect(self):
        client = socket.create_connection(("127.0.0.1", self.port), 60)
        client.setsockopt(socket.IPPROTO_TCP, socket.TCP_NODELAY, 1)
        return client

    def memory(self):
        """The resident memory and its peak, in KiB."""
        with open(f"/proc/{self.process.pid}/status", encoding="ascii") as told:
            text = told.read()
        return tuple(int(re.search(rf"{name}:\s*(\d+)", text)[1]) for name in ("VmRSS", "VmHWM"))

    def processor(self):
        """The seconds of processor that it has had."""
        with open(f"/proc/{self.process.pid}/schedstat", encoding="ascii") as told:
            return int(told.read().split()[0]) / 1e9

    def lines(self):
        """The lines of its connections, once there are all, or after two seconds those there are."""
        for _ in range(200):
            with open(os.path.join(self.folder, f"{self.name}.lines"), encoding="ascii") as file:
                lines = file.read().splitlines()
            if len(lines) >= len(self.ends):
                break
            time.sleep(0.01)
        return lines

    def take_others(self):
        """Takes the connections that others made as they were, each of one request."""
        self.connect().close()
        known = len(self.ends)
        for _ in range(1000):
            with open(os.path.join(self.folder, f"{self.name}.lines"), encoding="ascii") as file:
                lines = file.read().splitlines()
            if len(lines) > known and lines[-1].endswith(" Ended 0"):
                break
            time.sleep(0.01)
        self.ends += [(("Ended", "Closed"), 1)] * (len(lines) - known - 1) + [(("Ended",), 0)]

    def stop(self):
        """Ends it, and judges the lines of its connections."""
        lines = self.lines()
        self.process.kill()
        self.process.wait()
        if len(lines) != len(self.ends):
            self.faults.append(f"{len(lines)} lines for {len(self.ends)} connections")
        for number, (line, (ends, count)) in enumerate(zip(lines, self.ends), 1):
            told = line.split(" ")
            if told[0] != str(number) or told[1] not in ends or count not in (None, int(told[2])):
                self.faults.append(f"line {number} is {line}, and not {ends} {count}")

    def is_there(self):
        return self.process.poll() is None


class Client:
    """A connection to a server."""

    def __init__(self, server):
        self.server = server
        self.socket = server.connect()
        self.text = b""
        self.count = 0

    def send(self, text):
        self.socket.sendall(text)

    def reply(self):
        """The next reply: its status, its body and whether it closes. None where there is none."""
        while True:
            head = judging.REPLY.match(self.text)
            if head and len(self.text) >= head.end() + int(head[3]):
                break
            # the server waits with a second reply until the first one is acknowledged
            self.socket.setsockopt(socket.IPPROTO_TCP, socket.TCP_QUICKACK, 1)
            more = self.socket.recv(1 << 18)
            if not more:
                return None
            self.text += more
        end = head.end() + int(head[3])
        body, self.text = self.text[head.end():end], self.text[end:]
        self.count += 1
        return int(head[1]), body, bool(head[4])

    def close(self, ends=("Ended",), count=-1):
        """Closes it; the server has to say that it ended so."""
        self.socket.close()
        self.server.ends.append((ends, self.count if count == -1 else count))

    def reset(self, ends=ANY):
        """Closes it so that what is under way is lost."""
        self.socket.setsockopt(socket.SOL_SOCKET, socket.SO_LINGER, struct.pack("ii", 1, 0))
        self.close(ends, None)


def text_of(asked, headers=()):
    """The bytes of a request."""
    key, method, target, body = asked
    if key == "-":
        head = [f"{method} {target} HTTP/1.1", f"Content-Length: {len(body)}", *headers, "", ""]
        return "\r\n".join(head).encode() + body.encode()
    return world.request(key, method, target, body.encode(), headers)


def ask_slowly(server, asked, dice):
    """A client that sends a byte now and then, and reads so."""
    client = Client(server)
    text = text_of(asked)
    while text:
        size = dice.choice([1, 1, 1, 2, 30])
        client.send(text[:size])
        text = text[size:]
        time.sleep(dice.choice([0, 0.002, 0.02]))
    told = b""
    while True:
        told += client.socket.recv(dice.choice([1, 1, 10, 4096]))
        head = judging.REPLY.match(told)
        if head and len(told) == head.end() + int(head[3]):
            break
    client.count = 1
    client.close()
    return int(head[1]), told[head.end():], bool(head[4])


def cut_request(server, asked, dice):
    """A client that is gone in the midst of a request."""
    text = text_of(asked)
    at = dice.randrange(1, len(text))
    client = Client(server)
    client.send(text[:at])
    if dice.random() < 0.5:
        client.reset(("Cut", "ReadFault"))
    else:
        client.close(("Cut",), 0)


def cut_reply(server, asked, dice):
    """A client that is gone in the midst of a reply, or of several."""
    client = Client(server)
    client.send(text_of(asked) * dice.choice([1, 1, 5, 50]))
    client.socket.recv(dice.choice([1, 10, 100]))
    client.reset()


def leave(server, asked):
    """A client that asks, and goes without the reply."""
    client = Client(server)
    client.send(text_of(asked))
    client.close(("Ended", "WriteFault", "ReadFault"), None)
