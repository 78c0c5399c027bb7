"""What is asked of servers, as a script of `misp net` over the same instances, and whether that puts
out the same."""

import os
import re

import running

SOURCE_LIMIT = 67000000  # bytes of a script, of which 67108864 are read
MOMENTS = re.compile(rb'"(publish_timestamp|timestamp|modified)":"\d+"')


def without_moments(text):
    return MOMENTS.sub(rb'"\1":""', text)


class Journal:
    """The lines of a script, and what each has to put out."""

    def __init__(self, folder, description):
        self.folder = folder
        self.size = len(description) + 4
        self.expected = []
        self.is_full = False
        self.path = os.path.join(folder, "script")
        with open(self.path, "w", encoding="utf-8") as file:
            file.write(description + "---\n")
        self.file = open(self.path, "ab", buffering=1 << 20)

    def line(self, time, told, output, is_sure=True):
        """A line, and what it has to put out, or None where that is not known."""
        text = f"{time} {0:032x} {told}\n".encode()
        if self.is_full or self.size + len(text) > SOURCE_LIMIT:
            self.is_full = True
            return
        self.size += len(text)
        self.file.write(text)
        self.expected.append((output, is_sure))

    def request(self, time, instance, asked, reply, is_sure=True):
        """The line of a request that had this reply: its status and body."""
        key, method, target, body = asked
        told = f"req {instance} {key} {method} {target}" + (f" {body}" if body else "")
        output = None
        if reply:
            text = reply[1].hex().encode() if reply[1].startswith(b"MSP") else reply[1]
            output = b"%d %b" % (reply[0], text)
        self.line(time, told, output, is_sure)

    def faults(self, program):
        """Where `misp net` puts out something else: the number of each line, and both outputs."""
        self.file.close()
        with open(self.path, "rb") as file:
            source = file.read()
        ran = running.run(program, ["net"], source, bound=900)
        fault = running.crash(ran, (0,))
        if fault:
            return [f"misp net: {fault}"]
        lines = ran.written.splitlines()
        if len(lines) != len(self.expected):
            return [f"misp net: {len(lines)} lines for {len(self.expected)}"]
        found = []
        asked = source.split(b"\n---\n", 1)[1].splitlines()
        for number, (line, (output, is_sure)) in enumerate(zip(lines, self.expected)):
            told = line.split(b" ", 1)[1]
            if output is None or told == output:
                continue
            if not is_sure and without_moments(told) == without_moments(output):
                continue
            found.append(f"line {number + 1}, {asked[number][:400]}: the server said {output[:2000]}"
                         f", and misp net {told[:2000]}")
        return found
