"""Servers with less memory than they want, and what they may answer."""

import os
import re
import shutil
import socket
import subprocess
import tempfile
import time

import judging
import running
import scarce
import serving
import world

ENDS = (b"Ended", b"Closed", b"NoMemory")
CLOCK = re.compile(rb'"(timestamp|publish_timestamp)":"[0-9]+"')


def connections():
    """What is sent over one connection after another: the requests of each."""
    event, key = world.EVENT, "K" * 40
    view = [world.request(one, "GET", f"/events/view/{event}") for one in (world.A, world.B)]
    add = (f'{{"uuid":"{event}","info":"Wave","distribution":"1","Attribute":[{{"uuid":"{world.FIRST}",'
           f'"type":"text","value":"x"}}]}}').encode()
    made = f'{{"authkey":"{key}","org":"{world.ALPHA}","role":"user"}}'.encode()
    return [
        [world.request(world.A, "POST", "/events/add", add), *view],
        [world.request(world.W, "POST", "/admin/keys/add", made)],
        [world.request(key, "POST", f"/attributes/edit/{event}/{world.FIRST}", b'{"comment":"c"}'),
         world.request(world.A, "POST", f"/events/publish/{event}"), view[1]],
    ]


def looks():
    """What is asked of a server of the same records in the end."""
    return [[world.request(key, "GET", path) for key in (world.A, world.B, "K" * 40)
             for path in ("/events/index", f"/events/view/{world.EVENT}")]]


def untimed(reply):
    """A reply without what the clock put into it."""
    status, body, closes = reply
    return status, CLOCK.sub(b"", body), closes


def ask(process, port, requests):
    """The replies to the requests of one connection; None where the server has ended."""
    for _ in range(500):
        try:
            client = socket.create_connection(("127.0.0.1", port), running.BOUND)
            break
        except (ConnectionRefusedError, ConnectionResetError):
            if process.poll() is not None:
                return None
            time.sleep(0.002)
    else:
        return None
    told = b""
    with client:
        try:
            client.sendall(b"".join(requests))
            client.shutdown(socket.SHUT_WR)
            while more := client.recv(1 << 16):
                told += more
        except OSError:
            pass
    return judging.replies(told)


def fault_of_lines(status, lines, replies):
    """Why how a server ended does not fit its lines, or these do not fit the replies, or None. Where
    memory runs out beside a connection, it ends with status 8, and that one may have no line."""
    if status not in (0, 8, 10) or (status == 10 and lines):
        return f"ended with {status}, having written {lines}"
    if status == 0 and len(lines) != len(replies):
        return f"wrote {lines}"
    for number, (requests, told) in enumerate(zip(connections(), replies)):
        count = len(told or [])
        if number > len(lines) and count:
            return f"{count} replies after {lines}"
        if number >= len(lines):
            continue
        told_number, end, told_count = lines[number].split(b" ")
        if (int(told_number), int(told_count)) != (number + 1, count) or end not in ENDS:
            return f"line {lines[number]} for {count} replies"
        if count < len(requests) and end != b"NoMemory":
            return f"line {lines[number]} for {len(requests)} requests"
    return None


class Served:
    """Connections that a server answers of which an allocation is refused, and what another server of
    the same records answers in the end."""

    def __init__(self, program, refusing, room):
        self.program = program
        self.refusing = refusing
        self.room = room
        self.known = {}
        counted = os.path.join(room, "counted")
        self.serve(self.folder(), connections(), {"COUNTED": counted})
        with open(counted, encoding="ascii") as file:
            self.count = int(file.read())

    def folder(self):
        """A new folder for records."""
        return tempfile.mkdtemp(dir=self.room)

    def serve(self, folder, sent, told):
        """The status, the lines and the replies of a server that is sent these requests."""
        port = serving.free_port()
        words = [self.program, "serve", "a", f"127.0.0.1:{port}", str(len(sent))]
        process = subprocess.Popen(words, cwd=folder, env={"LD_PRELOAD": self.refusing, **told},
                                   stdin=subprocess.PIPE, stdout=subprocess.PIPE,
                                   stderr=subprocess.DEVNULL)
        try:
            process.stdin.write(world.description())
            process.stdin.close()
        except BrokenPipeError:
            pass  # it ended before it read this
        replies = [ask(process, port, requests) for requests in sent]
        lines = process.stdout.read().splitlines()
        return process.wait(running.BOUND), lines, replies

    def seen(self, sent):
        """The replies, with memory enough, to these requests and to the looks after them."""
        name = b"".join(request for requests in sent for request in requests)
        if name not in self.known:
            folder = self.folder()
            self.known[name] = [self.serve(folder, sent, {})[2], self.serve(folder, looks(), {})[2]]
            shutil.rmtree(folder)
        return self.known[name]

    def judged(self, number, is_all):
        """How a server ended, and why it is a finding, or None."""
        folder = self.folder()
        told = {"REFUSED": str(number), **({"ALL": "1"} if is_all else {})}
        status, lines, replies = self.serve(folder, connections(), told)
        end = scarce.end_of(status)
        fault = fault_of_lines(status, lines, replies)
        if not fault:
            fault = self.fault_of_replies([told or [] for told in replies], folder)
        end += f", {sum(len(told or []) for told in replies)} replies"
        shutil.rmtree(folder)
        return end, fault

    def fault_of_replies(self, replies, folder):
        """Why the replies, or what is held afterwards, are not those without what was refused."""
        kept, answered = [], []
        for requests, told in zip(connections(), replies):
            done = [n for n, reply in enumerate(told) if reply[0] != 507]
            kept.append([requests[n] for n in done])
            answered.append([untimed(told[n])[:2] for n in done])
        seen, looked = self.seen(kept)
        wanted = [[untimed(reply)[:2] for reply in told] for told in seen]
        if answered != wanted:
            return f"{answered}, and without what was refused {wanted}"
        again = self.serve(folder, looks(), {})[2]
        if [untimed(reply) for reply in again[0]] != [untimed(reply) for reply in looked[0]]:
            return f"afterwards {again}, and without what was refused {looked}"
        return None
