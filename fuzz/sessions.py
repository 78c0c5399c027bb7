"""Bytes of connections, in lines `raw`: valid requests that are mutated, cut, joined, or have more
headers, longer heads and other encodings. Of the structured ones the end and the replies are
known."""

import judging
import mutating
import world

HEAD_LIMIT = 16384
ADD = f'{{"uuid":"{world.NEW}","info":"New","distribution":"1"}}'.encode()
FRESH = f'{{"uuid":"{world.FRESH}","type":"text","value":"y"}}'.encode()
REQUESTS = [
    (world.A, "GET", f"/events/view/{world.EVENT}", b""),
    (world.B, "GET", "/events/index?page=1&limit=2", b""),
    (world.A, "POST", "/events/add", ADD),
    (world.A, "POST", f"/attributes/add/{world.EVENT}", FRESH),
    (world.B, "POST", "/attributes/restSearch", b"{}"),
    (world.S, "GET", "/sync/manifest", b""),
    (world.S, "GET", f"/sync/part/{world.EVENT}/0", b""),
    (world.A, "POST", f"/events/edit/{world.EVENT}", b'{"info":"Edited"}'),
    (world.A, "POST", f"/attributes/delete/{world.EVENT}/{world.FIRST}", b""),
    (world.A, "PUT", f"/events/edit/{world.EVENT}", b'{"info":"Edited"}'),
    (world.G, "POST", "/events/add", ADD),
]
HEADERS = [
    b"Connection: close", b"Connection: keep-alive", b"Connection: ClOsE", b"Host: a", b"Host:",
    b"Transfer-Encoding: chunked", b"Transfer-Encoding: identity", b"transfer-encoding:chunked",
    b"Content-Length: 0", b"Content-Length: 00", b"Content-Length: 1", b"Content-Length: +1",
    b"Content-Length: 8388608", b"Content-Length: 8388609", b"Content-Length: 9999999999999999999",
    b"Content-Length: 18446744073709551616", b"Content-Length: 1, 1", b"Content-Length:",
    b"Expect: 100-continue", b"Authorization: x", b"Authorization: \xff", b" folded", b"\tfolded",
    b"A\x00: b", b"A: b\x00", b"A : b", b": b", b"A", b"\xc3\xa9: b", b"A: \xc3\xa9",
]


class Session:
    """Bytes, and what is known of what they put out: the ends, the number of replies, and rule and
    place of the last. None is known of what is None."""

    def __init__(self, text, end=None, count=None, last=None):
        self.text = text
        self.end = end
        self.count = count
        self.last = last

    def fault(self, output):
        """Why an output is a finding, or None."""
        end, _, digits = output.partition(b" ")
        told = judging.replies(bytes.fromhex(digits.decode()))
        if self.end is not None and end.decode() != self.end:
            return f"ends with {end.decode()}, and not with {self.end}: {self.text[:300]}"
        if self.count is not None and len(told) != self.count:
            return f"{len(told)} replies, and not {self.count}: {self.text[:300]}"
        if self.last is not None:
            refusal = f'"place":"{self.last[1]}","rule":{self.last[0]}}}'.encode()
            if not told[-1][1].endswith(refusal):
                return f"not refused by {self.last}: {self.text[:300]} {told[-1]}"
        return None


def asked(one, headers=()):
    """The bytes of one request of the list."""
    return world.request(*one, headers=headers)


def cut_one(dice):
    """Whole requests, and one that is cut."""
    whole = [asked(dice.choice(REQUESTS)) for _ in range(dice.choice([0, 0, 1, 3]))]
    last = asked(dice.choice(REQUESTS))
    last = last[:dice.randrange(len(last) + 1)]
    is_last_whole = any(last == asked(one) for one in REQUESTS)
    end = "Ended" if not last or is_last_whole else "Cut"
    return Session(b"".join(whole) + last, end, len(whole) + is_last_whole)


def encoded(dice):
    """A body in chunks."""
    key, method, target, body = dice.choice(REQUESTS)
    told = [f"{method} {target} HTTP/1.1", f"Authorization: {key}"]
    told.insert(dice.randrange(1, 3), dice.choice(["Transfer-Encoding: chunked",
                                                   "tRANSFER-eNCODING:gzip, chunked"]))
    head = "\r\n".join([*told, "", ""]).encode()
    chunks = b"%x\r\n%b\r\n0\r\n\r\n" % (len(body), body)
    return Session(head + chunks, "Closed", 1, (2, "encoding"))


def lengths(dice):
    """Two lengths, or one that is none."""
    text = asked(dice.choice(REQUESTS[2:4]))
    other = dice.choice(["Content-Length: 2", "content-length: 2", "CONTENT-LENGTH:0"])
    if dice.random() < 0.5:
        text = text.replace(b"Content-Length", other.encode() + b"\r\nContent-Length")
    else:
        wrong = dice.choice([b"+2", b"-1", b"2 2", b"0x2", b"2,2", b"", b"00000000000000000002"])
        text = text.replace(b"Content-Length: ", b"Content-Length: " + wrong + b"\r\nX: ")
    return Session(text, "Closed", 1, (2, "length"))


def many(dice):
    """As many headers as may be, or one more."""
    count = dice.choice([62, 63, 64])
    text = asked(REQUESTS[0], [f"A{n}: b" for n in range(count)])
    return Session(text, "Ended", 1) if count == 62 else Session(text, "Closed", 1, (3, "headers"))


def long(dice):
    """A head of the most bytes, or of more."""
    size = HEAD_LIMIT + dice.choice([-1, 0, 1, 1000])
    less = len(asked(REQUESTS[0], ["A: "]))
    text = asked(REQUESTS[0], ["A: " + "b" * (size - less)])
    fits = size <= HEAD_LIMIT
    return Session(text, "Ended", 1) if fits else Session(text, "Closed", 1, (3, "head"))


def row(dice):
    """Requests one after another, of which one may close."""
    count = dice.choice([1, 2, 5, 30])
    closing = dice.randrange(count) if dice.random() < 0.5 else None
    text = b"".join(
        asked(dice.choice(REQUESTS), ["Connection: close"] if n == closing else ())
        for n in range(count)
    )
    return Session(text, *(("Ended", count) if closing is None else ("Closed", closing + 1)))


def headed(dice):
    """Requests with headers that others may not send."""
    text = b""
    for _ in range(dice.choice([1, 1, 2])):
        lines = asked(dice.choice(REQUESTS)).split(b"\r\n")
        for _ in range(dice.choice([1, 1, 2, 3])):
            lines.insert(dice.randrange(0, len(lines)), dice.choice(HEADERS))
        text += dice.choice([b"\r\n"] * 5 + [b"\n", b"\r"]).join(lines)
    return Session(text)


def changed(dice):
    """Requests after mutations of their bytes."""
    text = b"".join(asked(dice.choice(REQUESTS)) for _ in range(dice.choice([1, 2, 3])))
    return Session(mutating.mutated(dice, text, mutating.ON_BYTES + [mutating.numbered], 8))


def noise(dice):
    """Bytes by chance."""
    size = dice.choice([1, 10, 100, HEAD_LIMIT - 1, HEAD_LIMIT, HEAD_LIMIT + 1])
    return Session(bytes(dice.choice(b" \r\n:AGET/\x00\xff") for _ in range(size)))


WAYS = [cut_one, encoded, lengths, many, long, row, headed, headed, headed, changed, changed,
        changed, noise]


class Kind:
    EACH = 15  # sessions of one script

    def __init__(self, program, dice, findings):
        self.program = program
        self.dice = dice
        self.findings = findings
        self.before = world.setup()
        self.after = world.looks()

    def round(self):
        """Tries one script of sessions."""
        tried = {}
        for number in range(self.EACH):
            session = self.dice.choice(WAYS)(self.dice)
            tried[world.raw(world.START + 1000 * (number + 1), session.text)] = session

        def judge(trial):
            fault = trial.fault()
            faults = (tried[line].fault(output)
                      for line, output in zip(trial.parts[1], trial.outputs()))
            return fault or next((one for one in faults if one), None)

        world.keep(self.findings, self.program, self.before, list(tried), self.after, judge)
        return self.EACH
