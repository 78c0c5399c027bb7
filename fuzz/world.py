"""A description of three instances, lines that fill the first of them, lines that look at all that
is shown, and runs of scripts over them."""

import judging
import running

ALPHA, BETA, GAMMA = (f"{letter * 8}-0000-4000-8000-00000000000{n}" for n, letter in
                      ((1, "a"), (2, "b"), (3, "c")))
EVENT, OTHER, NEW = (f"e1000000-0000-4000-8000-00000000000{n}" for n in (1, 2, 3))
FIRST, SECOND, INNER, FRESH = (f"a1000000-0000-4000-8000-00000000000{n}" for n in (1, 2, 3, 4))
OBJECT, OBJECT_NEW = (f"0b000000-0000-4000-8000-00000000000{n}" for n in (1, 2))
GROUP, GROUP_NEW = (f"d1000000-0000-4000-8000-00000000000{n}" for n in (1, 2))
PROPOSAL, PROPOSAL_NEW = (f"f1000000-0000-4000-8000-00000000000{n}" for n in (1, 2))
REFERENCE = "4e000000-0000-4000-8000-000000000001"

A, B, G, M, R, S, T, W = (letter * 40 for letter in "ABGMRSTW")
KEYS = [("a", A, "Alpha", "publisher"), ("a", B, "Beta", "publisher"), ("a", G, "Gamma", "reader"),
        ("a", M, "Alpha", "orgadmin"), ("a", W, "Alpha", "siteadmin"), ("a", S, "Beta", "sync", "b"),
        ("b", B, "Beta", "publisher"), ("b", R, "Gamma", "reader"), ("b", S, "Alpha", "sync", "a"),
        ("b", T, "Gamma", "sync", "c"), ("c", G, "Gamma", "publisher")]


def description(address=None):
    """The description, as TOML, with the address of the first instance where there is one."""
    parts = [f'[[org]]\nname = "{name}"\nuuid = "{uuid}"\n' for name, uuid in
             (("Alpha", ALPHA), ("Beta", BETA), ("Gamma", GAMMA))]
    for name in "abc":
        told = f'address = "{address}"\n' if address and name == "a" else ""
        parts.append(f'[[instance]]\nname = "{name}"\n{told}')
    for instance, key, org, role, *partner in KEYS:
        told = f'partner = "{partner[0]}"\n' if partner else ""
        parts.append(f'[[key]]\ninstance = "{instance}"\nkey = "{key}"\norg = "{org}"\n'
                     f'role = "{role}"\n{told}')
    for at, to, key, org in (("b", "a", S, "Beta"), ("c", "b", T, "Gamma")):
        parts.append(f'[[link]]\nname = "up"\nat = "{at}"\nto = "{to}"\nkey = "{key}"\n'
                     f'holder = "{org}"\npush_org = "{org}"\n')
    return "\n".join(parts).encode()


LABEL = f'"distribution":"4","SharingGroup":{{"organisation_uuid":"{ALPHA}","uuid":"{GROUP}"}}'
ATTRIBUTES = (
    f'[{{"uuid":"{FIRST}","type":"ip-dst","category":"Network activity","value":"203.0.113.7",'
    f'"to_ids":true,"Tag":[{{"name":"tlp:green","colour":"#00ff00"}}]}},'
    f'{{"uuid":"{SECOND}","type":"text","value":"x","comment":"c","first_seen":'
    f'"2023-11-14T22:13:20Z","last_seen":"2023-11-15T22:13:20.5+01:00",{LABEL}}}]'
)
THING = (
    f'{{"uuid":"{OBJECT}","name":"file","meta-category":"file","description":"d",'
    f'"template_version":"3","Attribute":[{{"uuid":"{INNER}","type":"md5",'
    f'"object_relation":"md5","value":"d41d8cd98f00b204e9800998ecf8427e"}}],"ObjectReference":'
    f'[{{"uuid":"{REFERENCE}","referenced_uuid":"{FIRST}","relationship_type":"drops"}}]}}'
)
WHOLE_GROUP = (
    f'{{"uuid":"{GROUP}","organisation_uuid":"{ALPHA}","name":"G","roaming":true,"modified":"5",'
    f'"SharingGroupOrg":[{{"Organisation":{{"uuid":"{ALPHA}","name":"Alpha"}}}},{{"Organisation":'
    f'{{"uuid":"{BETA}"}},"extend":true}}],"SharingGroupServer":[{{"Server":{{"name":"b"}},'
    f'"all_orgs":true}}]}}'
)
WHOLE_EVENT = (
    f'{{"Event":{{"uuid":"{EVENT}","info":"Wave","date":"2023-11-14","threat_level_id":"2",'
    f'"analysis":"1","distribution":"3","extends_uuid":"","Tag":[{{"name":"sms"}}],'
    f'"Attribute":{ATTRIBUTES},"Object":[{THING}]}}}}'
)


def req(time, key, method, target, body="", instance="a", word=None):
    """A line that asks. Its word is that of its time where none is said."""
    text = body if isinstance(body, bytes) else body.encode()
    head = f"{time} {word or time:032x} req {instance} {key} {method} {target}"
    return head.encode() + (b" " + text if text else b"")


def raw(time, text, instance="a"):
    """A line that brings these bytes."""
    return f"{time} {time:032x} raw {instance} {text.hex()}".encode()


def request(key, method, target, body=b"", headers=()):
    """The bytes of a request."""
    told = [f"{method} {target} HTTP/1.1", f"Authorization: {key}", f"Content-Length: {len(body)}"]
    return "\r\n".join([*told, *headers, "", ""]).encode() + body


START = 1700000000


def setup():
    """The lines that fill the first instance."""
    asked = [
        (M, "POST", "/sharing_groups/add", WHOLE_GROUP),
        (A, "POST", "/events/add", WHOLE_EVENT),
        (B, "POST", "/events/add", f'{{"uuid":"{OTHER}","info":"Beta","distribution":"1"}}'),
        (B, "POST", f"/shadow_attributes/add/{EVENT}/{FIRST}",
         f'{{"uuid":"{PROPOSAL}","type":"ip-dst","value":"203.0.113.8"}}'),
        (B, "POST", f"/sightings/add/{EVENT}/{FIRST}", '{"source":"sensor"}'),
        (A, "POST", f"/events/publish/{EVENT}", ""),
    ]
    return [req(START + 10 * n, *one) for n, one in enumerate(asked)]


def looks(instance="a", keys=(A, B, G)):
    """The lines that look at all that an instance shows."""
    time = START + 100000000
    asked = [(key, "GET", f"/events/view/{event}") for key in keys for event in (EVENT, OTHER, NEW)]
    for key in keys:
        asked += [(key, "GET", "/events/index"), (key, "GET", "/sharing_groups/index"),
                  (key, "POST", "/attributes/restSearch", "{}"),
                  (key, "POST", "/events/restSearch", "{}")]
    asked += [(S, "GET", "/sync/manifest"), (S, "GET", "/sync/groups"), (S, "GET", "/sync/events")]
    return [req(time, *one, instance=instance) for one in asked]


class Told:
    """What the lines of a script put out, or why the run is a finding."""

    def __init__(self, program, lines, described=None):
        source = (described or description()) + b"---\n" + b"\n".join(lines) + b"\n"
        ran = running.run(program, ["net"], source)
        self.source = source
        self.outputs = []
        self.fault = running.crash(ran, (0,))
        if not self.fault:
            self.outputs, self.fault = judging.outputs_of(ran.written, len(lines))

    def of_lines(self, lines):
        """Why what some line put out is a finding, or None."""
        if self.fault:
            return self.fault
        for line, output in zip(lines, self.outputs):
            fault = judging.fault_of_output(line.split(b" ")[2], output)
            if fault or output.startswith(b"bad "):
                return f"{fault or output.decode()}: {line[:300]}"
        return None


def is_refused(output):
    """Whether nothing was accepted by a line: its reply, or each of its session, is a refusal."""
    digits = output.partition(b" ")[2]
    if output[:1].isdigit():
        return not output.startswith(b"200 ")
    told = judging.replies(bytes.fromhex(digits.decode())) or []
    return all(status != 200 for status, _, _ in told)


class Trial:
    """One script: lines before, lines that are tried, lines after. What was refused is left out of
    a second run, whose other lines have to put out the same."""

    def __init__(self, program, before, tried, after):
        self.program = program
        self.parts = (before, tried, after)
        self.told = Told(program, [*before, *tried, *after])

    def outputs(self):
        """What the tried lines put out."""
        before, tried, _ = self.parts
        return self.told.outputs[len(before):len(before) + len(tried)]

    def fault(self):
        """Why the script is a finding, or None."""
        before, tried, after = self.parts
        lines = [*before, *tried, *after]
        fault = self.told.of_lines(lines)
        if fault:
            return fault
        refused = {len(before) + n for n, output in enumerate(self.outputs()) if is_refused(output)}
        kept = [n for n in range(len(lines)) if n not in refused]
        again = Told(self.program, [lines[n] for n in kept])
        if again.fault:
            return again.fault
        for number, output in zip(kept, again.outputs):
            if output != self.told.outputs[number]:
                return f"line {number + 1} is answered otherwise without the refused lines"
        return None


def keep(findings, program, before, tried, after, judge):
    """Judges one script, and keeps the finding with as few of the tried lines as show one."""
    trial = Trial(program, before, tried, after)
    reason = judge(trial)
    if reason is None:
        return
    some = running.shrunk(
        tried, lambda fewer: judge(Trial(program, before, fewer, after)) is not None
    )
    shown = Trial(program, before, some, after).told.source
    findings.keep(reason, ["net"], {"source": shown, "whole": trial.told.source})
