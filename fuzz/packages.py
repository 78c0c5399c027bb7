"""Packages that are handed in and wanted lists, as octets of lines `raw`, mutated from those of a
pull. What is no package or no wanted list by its counts, lengths and keys has to be refused."""

import re

import judging
import mutating
import world

EVENT_KEY = bytes.fromhex("00" + world.EVENT.replace("-", "") + "00")
WIDTHS = [1, 2, 4, 8]


class Reader:
    """Octets that are read from the front. What they have not is a ValueError."""

    def __init__(self, text):
        self.text = text
        self.at = 0

    def take(self, size):
        if self.at + size > len(self.text):
            raise ValueError("cut")
        self.at += size
        return self.text[self.at - size:self.at]

    def number(self, size=4):
        return int.from_bytes(self.take(size), "big")

    def want(self, fits):
        if not fits:
            raise ValueError("form")


def read_place(reader):
    """The kind of a place that is read."""
    kind = reader.number(1)
    reader.want(kind <= 3)
    reader.take(16 * (0, 1, 1, 2)[kind])
    return kind


def read_instance(reader):
    """Reads the name of an instance."""
    name = reader.take(reader.number(1))
    reader.want(re.fullmatch(judging.LINK, name))


def read_key(reader, event):
    """One key of this event. The bytes of it."""
    first = reader.at
    kind = reader.number(1)
    reader.want(kind <= 4 and reader.take(16) == event)
    if kind == 0:
        read_place(reader)
    elif kind == 1:
        reader.take(16)
        reader.want(read_place(reader) != 0)
        reader.take(16)
    elif kind == 4:
        reader.want(read_place(reader) >= 2)
        read_instance(reader)
        reader.take(32)
    else:
        reader.want(read_place(reader) != 1)
        read_instance(reader)
        reader.take(32)
        if kind == 3:
            read_instance(reader)
            reader.take(16)
    return reader.text[first:reader.at]


def is_wanted(text):
    """Whether octets are a wanted list (docs/FORMATS.md)."""
    reader = Reader(text)
    try:
        reader.want(reader.take(4) == b"MSP3")
        event = reader.take(16)
        reader.number()
        count = reader.number()
        reader.want(1 <= count <= 65)
        last = b""
        for _ in range(count):
            size = reader.number()
            key = reader.take(size)
            within = Reader(key)
            reader.want(read_key(within, event) == key and key > last)
            last = key
        return reader.at == len(text)
    except ValueError:
        return False


def may_be_package(text):
    """Whether octets are a package by all but what is after the stamps of its rows."""
    reader = Reader(text)
    try:
        reader.want(reader.take(4) == b"MSP1")
        event = reader.take(16)
        reader.want(reader.number() < reader.number())
        count = reader.number()
        reader.want(1 <= count <= 65)
        last = b""
        for number in range(count):
            row = Reader(reader.take(reader.number()))
            row.want(row.number(1) in (1, 2) and row.take(16) == bytes(16))
            key = read_key(row, event)
            row.want(key > last and (number or key == b"\x00" + event + b"\x00"))
            row.want(row.number(8) <= judging.LATEST)
            last = key
        return reader.at == len(text)
    except ValueError:
        return False


def refielded(dice, text):
    """A number of one, two, four or eight bytes made one at an edge, or a little other."""
    width = dice.choice(WIDTHS)
    if len(text) < width:
        return text
    at = dice.randrange(len(text) - width + 1)
    number = int.from_bytes(text[at:at + width], "big") + dice.choice([-1, 1])
    if dice.random() < 0.5:
        number = dice.choice([*mutating.EDGES, 2 ** (8 * width) - 1])
    number %= 2 ** (8 * width)
    return text[:at] + number.to_bytes(width, "big") + text[at + width:]


WAYS = mutating.ON_BYTES + [refielded] * 5


def wanted(event, part, keys):
    """The spelling of a wanted list."""
    told = b"".join(len(key).to_bytes(4, "big") + key for key in keys)
    return b"MSP3" + event + part.to_bytes(4, "big") + len(keys).to_bytes(4, "big") + told


def rows_of(package):
    """The rows of a package."""
    reader = Reader(package)
    reader.take(28)
    return [reader.take(reader.number()) for _ in range(reader.number())]


def key_of(row):
    """The key of a row of a package."""
    return read_key(Reader(row[17:]), row[18:34])


def keys_of(text):
    """The keys of a wanted list."""
    reader = Reader(text)
    reader.take(24)
    return {reader.take(reader.number()) for _ in range(reader.number())}


def package_of(head, rows):
    """A package of this head and these rows."""
    told = b"".join(len(row).to_bytes(4, "big") + row for row in rows)
    return head + len(rows).to_bytes(4, "big") + told


def shared(program):
    """The packages that pass to the second instance: of the first event, and of a larger one."""
    texts = ",".join(f'{{"type":"text","value":"{n}"}}' for n in range(70))
    time = world.START + 1000
    large = f'{{"uuid":"{world.NEW}","info":"Large","distribution":"3","Attribute":[{texts}]}}'
    lines = [
        *world.setup(), world.req(time, world.A, "POST", "/events/add", large),
        world.req(time, world.A, "POST", f"/events/publish/{world.NEW}"),
        world.req(time, world.S, "GET", f"/sync/part/{world.EVENT}/0"),
        world.req(time, world.S, "GET", f"/sync/part/{world.NEW}/0"),
        world.req(time, world.S, "GET", f"/sync/part/{world.NEW}/1"),
        world.req(time, world.S, "GET", "/sync/manifest"),
        world.req(time, world.S, "GET", "/sync/groups"),
    ]
    told = world.Told(program, lines)
    if told.fault:
        raise SystemExit(f"nothing can be shared: {told.fault}")
    outputs = [output.partition(b" ")[2] for output in told.outputs[-5:]]
    return [bytes.fromhex(output.decode()) for output in outputs[:4]] + [outputs[4]]


class Kind:
    EACH = 15  # packages and lists of one script

    def __init__(self, program, dice, findings):
        self.program = program
        self.dice = dice
        self.findings = findings
        *self.packages, _, groups = shared(program)
        time = world.START
        handed = world.request(world.S, "POST", "/sync/part", self.packages[0])
        self.before = [
            *world.setup(),
            world.req(time + 100, world.S, "POST", "/sync/groups", groups, instance="b"),
            world.raw(time + 110, handed, "b"),
        ]
        self.after = [
            *world.looks("b", (world.B, world.R)),
            f"{time + 200000000} {1:032x} pull c up".encode(),
            world.req(time + 200000000, world.G, "GET", "/events/index", instance="c"),
            f"{time + 200000000} {1:032x} push c up".encode(),
        ]

    def package(self):
        """A package, mutated: its bytes, or one of its rows with the count and length that fit."""
        dice = self.dice
        package = dice.choice([self.packages[0]] * 4 + self.packages)
        if dice.random() < 0.3:
            return mutating.mutated(dice, package, WAYS)
        rows = rows_of(package)
        at = dice.randrange(len(rows))
        way = dice.random()
        if way < 0.7:
            rows[at] = mutating.mutated(dice, rows[at], WAYS)
        elif way < 0.8:
            del rows[at]
        elif way < 0.9:
            rows.insert(at, rows[at])
        else:
            other = dice.randrange(len(rows))
            rows[at], rows[other] = rows[other], rows[at]
        return package_of(package[:28], rows)

    def wanted(self):
        """A wanted list of some keys of the first event, most often mutated."""
        dice = self.dice
        keys = sorted({key_of(row) for row in rows_of(self.packages[0]) if dice.random() < 0.7})
        text = wanted(EVENT_KEY[1:17], dice.choice([0, 0, 0, 1]), keys or [EVENT_KEY])
        return text if dice.random() < 0.1 else mutating.mutated(dice, text, WAYS)

    def fault_of_octets(self, line, output):
        """Why octets are taken or refused otherwise than by their form, or None."""
        text = bytes.fromhex(line.split(b" ")[4].decode())
        head, body = text.split(b"\r\n\r\n", 1)
        told = judging.replies(bytes.fromhex(output.partition(b" ")[2].decode()))
        if len(told) != 1:
            return f"{len(told)} replies to one request"
        status, reply, _ = told[0]
        is_fault = status == 400
        if b"/sync/rows" in head and is_wanted(body) == is_fault:
            return f"a wanted list is judged otherwise: {body.hex()} {reply[:200]}"
        if b"/sync/part" in head and not is_fault and not may_be_package(body):
            return f"what is no package is taken: {body.hex()[:2000]}"
        place = b"wanted row" if b"/sync/rows" in head else b"package row"
        if is_fault and reply != b'{"name":"BadField","place":"%b","rule":7}' % place:
            return f"refused otherwise: {reply[:200]}"
        return None

    def judge(self, trial):
        fault = trial.fault()
        if fault:
            return fault
        for line, output in zip(trial.parts[1], trial.outputs()):
            fault = self.fault_of_octets(line, output)
            if fault:
                return fault
        for output in trial.told.outputs[-3:]:
            if not output.startswith(b"200 "):
                return f"the next pull, list or push is refused: {output}"
        return None

    def round(self):
        """Tries one script of packages and wanted lists."""
        tried = []
        for number in range(self.EACH):
            time = world.START + 1000 * (number + 1)
            if self.dice.random() < 0.7:
                key, target, body = world.S, "/sync/part", self.package()
            else:
                key, target, body = world.T, "/sync/rows", self.wanted()
            tried.append(world.raw(time, world.request(key, "POST", target, body), "b"))
        world.keep(self.findings, self.program, self.before, tried, self.after, self.judge)
        return self.EACH
