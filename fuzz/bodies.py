"""Bodies of valid requests, mutated: replies are 200 or documented refusals, a body that is no JSON
is refused as such, and what was refused leaves no trace."""

import json
import math

import judging
import mutating
import world

TAG = '{"name":"tlp:red","colour":"#ff0000","exportable":false}'
VERDICT = (f'{{"uuid":"{world.PROPOSAL}","org":"{world.BETA}","origin":"a",'
           f'"attribute":"{world.FIRST}"}}')
FILTER = (f'{{"type":"ip-dst","category":"Network activity","value":"203.0.113.7","to_ids":true,'
          f'"tags":["tlp:green"],"org":"{world.ALPHA}","published":true,"from":"2023-11-01",'
          f'"to":"2023-11-30","timestamp":"1","page":"1","limit":"10"}}')
EVENT_EDIT = ('{"Event":{"info":"Other","date":"2023-11-15","threat_level_id":"1","analysis":"2",'
              f'{world.LABEL},"extends_uuid":"{world.OTHER}","timestamp":"1700000100"}}}}')
ATTRIBUTE_EDIT = ('{"Attribute":{"category":"Other","to_ids":"0",' f'{world.LABEL},'
                  '"comment":"c","type":"domain|ip","value":"Example.org|::1","first_seen":'
                  '"2023-11-14T22:13:20Z","last_seen":"","timestamp":"1700000100"}}')
OBJECT_EDIT = ('{"Object":{"distribution":"5","comment":"c","description":"e",'
               '"timestamp":"1700000100"}}')
FRESH = f'{{"uuid":"{world.FRESH}","type":"filename|sha1","value":"a|{"ab" * 20}","Tag":[{TAG}]}}'
PROPOSAL = (f'{{"uuid":"{world.PROPOSAL_NEW}","type":"AS","category":"Other","to_ids":"1",'
            f'"value":"as64496","comment":"c"}}')
SIGHTING = f'{{"uuid":"{world.PROPOSAL_NEW}","type":"1","date_sighting":"1700000000","source":"s"}}'

KEY = (f'{{"AuthKey":{{"authkey":"{"K" * 40}","org":"{world.BETA}","role":"sync",'
       f'"partner":"b"}}}}')
LINK = (f'{{"name":"up","peer":"b","key":"{world.S}","holder":"{world.ALPHA}",'
        f'"push_org":"{world.BETA}","on":false}}')

EVENT, FIRST, OBJECT = world.EVENT, world.FIRST, world.OBJECT
REQUESTS = [
    (world.A, "/events/add", world.WHOLE_EVENT.replace(EVENT, world.NEW)),
    (world.A, f"/events/edit/{EVENT}", EVENT_EDIT),
    (world.A, f"/attributes/edit/{EVENT}/{FIRST}", ATTRIBUTE_EDIT),
    (world.A, f"/attributes/edit/{EVENT}/{OBJECT}/{world.INNER}", ATTRIBUTE_EDIT),
    (world.A, f"/objects/edit/{EVENT}/{OBJECT}", OBJECT_EDIT),
    (world.A, f"/attributes/add/{EVENT}", FRESH),
    (world.A, f"/attributes/add/{EVENT}", f"[{FRESH}]"),
    (world.A, f"/attributes/add/{EVENT}/{OBJECT}", FRESH),
    (world.A, f"/objects/add/{EVENT}", world.THING.replace(OBJECT, world.OBJECT_NEW)
     .replace(world.INNER, world.FRESH)),
    (world.A, f"/references/add/{EVENT}/{OBJECT}",
     f'{{"referenced_uuid":"{world.SECOND}","relationship_type":"uses","comment":"c"}}'),
    (world.A, f"/tags/attach/{EVENT}", TAG),
    (world.A, f"/tags/attach/{EVENT}/{FIRST}", TAG),
    (world.A, f"/tags/remove/{EVENT}/{FIRST}", '{"name":"tlp:green"}'),
    (world.B, f"/shadow_attributes/add/{EVENT}", PROPOSAL),
    (world.B, f"/shadow_attributes/add/{EVENT}/{FIRST}", PROPOSAL),
    (world.B, f"/shadow_attributes/add/{EVENT}/{FIRST}", '{"proposal_to_delete":true}'),
    (world.A, f"/shadow_attributes/accept/{EVENT}", VERDICT),
    (world.A, f"/shadow_attributes/discard/{EVENT}", VERDICT),
    (world.B, f"/sightings/add/{EVENT}/{FIRST}", SIGHTING),
    (world.B, "/events/restSearch", FILTER),
    (world.B, "/attributes/restSearch", FILTER),
    (world.M, "/sharing_groups/add", world.WHOLE_GROUP.replace(world.GROUP, world.GROUP_NEW)),
    (world.M, "/sharing_groups/edit", world.WHOLE_GROUP),
    (world.S, "/sync/groups", f"[{world.WHOLE_GROUP.replace(world.ALPHA, world.BETA)}]"),
    (world.W, "/admin/organisations/add", f'{{"Organisation":{{"uuid":"{world.NEW}","name":"Delta"}}}}'),
    (world.W, "/admin/keys/add", KEY),
    (world.W, "/admin/keys/revoke", f'{{"authkey":"{world.G}"}}'),
    (world.W, "/admin/links/add", LINK),
    (world.W, "/admin/links/edit", LINK),
]
DEPTH = 127  # levels of JSON that are read


def depth_of(value):
    """The levels of a JSON value."""
    within = list(value.values() if isinstance(value, dict) else value) if isinstance(
        value, (dict, list)) else None
    return 0 if within is None else 1 + max(map(depth_of, within), default=0)


def refuse(name):
    """Refuses a number that JSON has not."""
    raise ValueError(name)


def finite(digits):
    """A number that is not too large to be one."""
    return float(digits) if math.isfinite(float(digits)) else refuse(digits)


def is_json(text):
    """Whether a body is JSON, or None where the readers may differ."""
    try:
        value = json.loads(text.decode("utf-8"), parse_constant=refuse, parse_float=finite)
        json.dumps(value, ensure_ascii=False).encode("utf-8")
        return True if depth_of(value) < DEPTH else None
    except RecursionError:
        return None
    except ValueError:
        return False


class Kind:
    EACH = 25  # requests of one script

    def __init__(self, program, dice, findings):
        self.program = program
        self.dice = dice
        self.findings = findings
        self.before = world.setup()
        self.after = world.looks()

    def line(self, time):
        """A line with a mutated body; sometimes its target is one of another request."""
        key, target, body = self.dice.choice(REQUESTS)
        body = mutating.rejsoned(self.dice, body.encode())
        if self.dice.random() < 0.05:
            target = self.dice.choice(REQUESTS)[1]
        if self.dice.random() < 0.05:
            key = self.dice.choice([world.G, world.S, world.A, world.W, "-"])
        return world.req(time, key, "POST", target, body)

    def fault_of_json(self, trial):
        """Why a body is judged otherwise as JSON than by Python's reader, or None."""
        for line, output in zip(trial.parts[1], trial.outputs()):
            fields = line.split(b" ", 7)
            body = fields[7] if len(fields) > 7 else b""
            status, _, told = output.partition(b" ")
            rule = judging.rule_of(told) if status != b"200" else None
            if rule == 1:
                continue
            sound = is_json(body)
            if sound is not None and sound == (rule == 6):
                return f"Python reads otherwise whether this is JSON: {line[:300]} {output[:100]}"
        return None

    def judge(self, trial):
        return trial.fault() or self.fault_of_json(trial)

    def round(self):
        """Tries one script of mutated requests."""
        tried = [self.line(world.START + 1000 * (n + 1)) for n in range(self.EACH)]
        world.keep(self.findings, self.program, self.before, tried, self.after, self.judge)
        return self.EACH
