"""What lines and replies may look like, as docs/FORMATS.md and docs/REFUSALS.md say."""

import json
import os
import re

from running import TOP

UUID = r"[0-9a-f]{8}-[0-9a-f]{4}-[0-9a-f]{4}-[0-9a-f]{4}-[0-9a-f]{12}"
NEEDS = (
    r"text|number|stamp|flag|list|uuid|date|moment|colour|present|object|range|key|short|length|row|"
    r"digit \d+|part \d+"
)
PLACES = {
    2: "head|encoding|length",
    3: "head|headers|body",
    7: r"[A-Za-z_.\[\]\d-]+ (" + NEEDS + ")",
    8: "[A-Z][A-Za-z]*",
    14: UUID,
    15: UUID,
    18: r"[A-Za-z_.\[\]\d-]+\.(type|data)",
    23: r"\d{1,3} \d{1,20}",  # as the peer says them
    24: "head|body|groups|manifest|package|taken",
    28: "([0-9a-f]{2})+",
}
NOT_IN_A_SCRIPT = {24, 25, 26, 28}  # rules that no line is answered by
LATEST = 253402300799


def read_rules():
    """The table of docs/REFUSALS.md: of each rule its name and its status."""
    with open(os.path.join(TOP, "docs", "REFUSALS.md"), encoding="utf-8") as file:
        rows = re.findall(r"^\| (\d+) \| (\w+) \| (\d{3}) \|", file.read(), re.MULTILINE)
    return {int(rule): (name, int(status)) for rule, name, status in rows}


RULES = read_rules()


def is_canonical(body):
    """Whether a text is the compact JSON that is written, with its members in order."""
    try:
        value = json.loads(body)
    except (ValueError, RecursionError):
        return False
    told = json.dumps(value, ensure_ascii=False, separators=(",", ":"), sort_keys=True)
    return told.encode() == body


def fault_of_refusal(status, body, never):
    """Why a reply with another status than 200 is a finding, or None."""
    if not is_canonical(body):
        return "a refusal is not canonical JSON"
    told = json.loads(body)
    if not isinstance(told, dict) or not set(told) in (
        {"name", "place", "rule"}, {"name", "packages", "place", "rule"}
    ):
        return "a refusal has other members"
    rule = told["rule"]
    if RULES.get(rule) != (told["name"], status) or rule in never:
        return f"name, number and status do not fit: {status} {body[:200]}"
    if not re.fullmatch(PLACES.get(rule, ""), told["place"]):
        return f"the place does not fit the rule: {body[:200]}"
    return None


def fault_of_reply(status, body, never=NOT_IN_A_SCRIPT):
    """Why a reply is a finding, or None."""
    if status != 200:
        return fault_of_refusal(status, body, never)
    if re.fullmatch(rb"([0-9a-f]{2})+", body) and body.startswith((b"4d535031", b"4d535032")):
        return None
    if body.startswith((b"MSP1", b"MSP2")):
        return None
    return None if is_canonical(body) else f"a reply is not canonical JSON: {body[:200]}"


def rule_of(body):
    """The number of the rule that refuses, or None."""
    return json.loads(body).get("rule")


REPLY = re.compile(
    rb"HTTP/1\.1 (\d{3}) [A-Za-z ]+\r\nContent-Type: application/(json|octet-stream)\r\n"
    rb"Content-Length: (\d+)\r\n(Connection: close\r\n)?\r\n"
)


def replies(text):
    """The replies that the bytes of a session are, each with its status, its body and whether it
    closes; None where they are not a row of replies."""
    found = []
    at = 0
    while at < len(text):
        head = REPLY.match(text, at)
        if head is None or len(text) < head.end() + int(head[3]):
            return None
        at = head.end() + int(head[3])
        found.append((int(head[1]), text[head.end():at], bool(head[4])))
    return found


def fault_of_session(end, digits):
    """Why what a line `raw` put out is a finding, or None."""
    if not re.fullmatch(rb"([0-9a-f]{2})*", digits):
        return "the bytes of a session are no digits"
    told = replies(bytes.fromhex(digits.decode()))
    if told is None:
        return "the bytes of a session are no replies"
    if any(closes for _, _, closes in told[:-1]):
        return "a reply stands after one that closes"
    if told and told[-1][2] != (end in (b"Closed", b"Quota")):
        return f"the last reply does not fit the end {end.decode()}"
    faults = (fault_of_reply(status, body) for status, body, _ in told)
    return next((fault for fault in faults if fault), None)


def fault_of_output(verb, output):
    """Why what one line put out is a finding, or None. The verb is None where it is not known."""
    if output == b"-":
        return None if verb in (None, b"none") else "only a line none puts out -"
    if re.fullmatch(rb"bad \d+", output):
        return None
    if output == b"Cut":
        return "a line req that is cut: none such is known"
    session = re.fullmatch(rb"(Closed|Ended|Cut|Quota) ([0-9a-f]*)", output)
    if session:
        return fault_of_session(session[1], session[2])
    reply = re.fullmatch(rb"(\d{3}) (.*)", output, re.DOTALL)
    if reply:
        return fault_of_reply(int(reply[1]), reply[2])
    return f"an output of no known form: {output[:200]}"


def script_of(source):
    """The description of a source, and the lines of its script."""
    lines = source.split(b"\n")
    if b"---" not in lines:
        return source, []
    at = lines.index(b"---")
    script = lines[at + 1:]
    if script and not script[-1]:
        script.pop()
    return b"\n".join(lines[:at]), script


def outputs_of(written, count):
    """What each line of a script put out, and why the whole is a finding, or None."""
    if not written and not count:
        return [], None
    lines = written.split(b"\n")
    if lines.pop():
        return [], "the last line has no end"
    if len(lines) != count:
        return [], f"{len(lines)} lines for a script of {count}"
    outputs = []
    for number, line in enumerate(lines, 1):
        head = b"%d " % number
        if not line.startswith(head):
            return [], f"line {number} begins otherwise: {line[:100]}"
        outputs.append(line[len(head):])
    return outputs, None


LINK = rb"[a-z][a-z0-9-]{0,31}"
FIELDS = {
    b"none": [],
    b"req": ["instance", rb"[!-~]+", rb"[!-~]+", rb"[!-~]+", "body"],
    b"raw": ["instance", rb"([0-9a-f]{2})*"],
    b"group-add": ["instance", "organisation", "rest"],
    b"group-edit": ["instance", "organisation", "rest"],
    b"pull": ["instance", LINK],
    b"push": ["instance", LINK],
}


def is_time(field):
    """Whether a field is a time."""
    return re.fullmatch(rb"0|[1-9]\d*", field) is not None and int(field[:40]) <= LATEST


def is_field(form, field, instances, organisations):
    """Whether a field is of its form."""
    if form == "instance":
        return field in instances
    if form == "organisation":
        return field.lower() in organisations
    return re.fullmatch(form, field) is not None


def bad_place(line, instances, organisations):
    """Where a line of a script is bad, or None, by docs/FORMATS.md alone."""
    at = 0
    forms = ["time", rb"[0-9a-f]{32}", "verb"]
    while forms:
        form = forms.pop(0)
        if form == "body" or form == "rest" and at <= len(line):
            return None
        if at > len(line):
            return len(line)
        end = line.find(b" ", at)
        field = line[at:] if end < 0 else line[at:end]
        if form == "time":
            fits = is_time(field)
        elif form == "verb":
            fits = field in FIELDS
            forms = list(FIELDS.get(field, []))
        else:
            fits = is_field(form, field, instances, organisations)
        if not fits:
            return at
        at += len(field) + 1
    return at if at <= len(line) else None
