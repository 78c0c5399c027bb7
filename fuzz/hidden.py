"""What each organisation asks of elements that it is not granted, beside the same of names that
nothing has: the replies have to be alike but for the names."""

import re

from community import (
    EVENT, FIRST, HIDDEN, INNER, INSTANCES, LINKS, NOBODY, OBJECT, OPEN, ORGS, OWN, PROPOSAL,
    REFERENCE, SHARED, attribute, event, key, label, organisation, thing, uuid,
)

HEADS = re.compile(rb"(%b|%b)-([0-9a-f]{4})-4(\d)" % (OWN.encode(), SHARED.encode()))
KINDS = ("own", "shared", "hidden")
EMPTY = (b'{"Attribute":[]}', b'{"response":[]}')


class Named:
    """The names of what is asked for: an event and its parts, and a value that it alone has."""

    def __init__(self, there, parts, value, owner, at):
        self.there = there
        self.part, self.object, self.inner, self.reference, self.proposal = parts
        self.value = value
        self.owner = owner
        self.at = at

    def all(self):
        return [self.there, self.part, self.object, self.inner, self.reference, self.proposal,
                self.value]


def named(kind, org, at):
    """What is hidden of an organisation, and the same in names that nothing has."""
    head = SHARED if kind == "shared" else OWN
    kinds = [HIDDEN if kind == "hidden" else FIRST, OBJECT, INNER, REFERENCE, PROPOSAL]
    there = uuid(OPEN if kind == "hidden" else head, org, at, EVENT)
    nowhere = there if kind == "hidden" else uuid(NOBODY, org, at, EVENT)
    real = Named(there, [uuid(head, org, at, n) for n in kinds], f"{kind} {org} {at}", org, at)
    none = Named(nowhere, [uuid(NOBODY, org, at, n) for n in kinds], f"nothing {org}", org, at)
    return real, none


SIGHTED = f'{{"uuid":"{uuid(NOBODY, 0, 0, 0, 1)}","date_sighting":"1700000000"}}'
PROPOSED = attribute(uuid(NOBODY, 0, 0, 0, 2), "other")
ADDED = attribute(uuid(NOBODY, 0, 0, 0, 3), "added")
TAG = '{"name":"tag 1"}'


def of_attribute(n):
    """What is asked of an attribute of an event, and for its value."""
    place = f"{n.there}/{n.part}"
    return [
        ("POST", "/attributes/restSearch", f'{{"value":"{n.value}"}}'),
        ("POST", f"/attributes/edit/{place}", '{"comment":"x"}'),
        ("POST", f"/sightings/add/{place}", SIGHTED),
        ("POST", f"/attributes/delete/{place}", ""),
    ]


def of_event(n):
    """What is asked of an event."""
    return of_attribute(n)[:3] + [
        ("GET", f"/events/view/{n.there}", ""),
        ("POST", f"/events/delete/{n.there}", ""),
    ]


def more_of_attribute(n):
    place = f"{n.there}/{n.part}"
    return [
        ("POST", f"/tags/attach/{place}", TAG),
        ("POST", f"/tags/remove/{place}", TAG),
        ("POST", f"/shadow_attributes/add/{place}", PROPOSED),
        ("POST", f"/shadow_attributes/add/{place}", '{"proposal_to_delete":true}'),
        ("POST", "/events/restSearch", f'{{"value":"{n.value}"}}'),
    ]


def more_of_event(n):
    """All else that may be asked of an event."""
    verdict = (f'{{"uuid":"{n.proposal}","org":"{organisation(n.owner)}",'
               f'"origin":"{INSTANCES[n.at]}"}}')
    within = f"{n.there}/{n.object}"
    new = [uuid(NOBODY, 0, 0, 0, number) for number in (4, 5, 6)]
    return more_of_attribute(n) + [
        ("GET", f"/events/view/{n.there}/{organisation(n.owner)}", ""),
        ("POST", f"/events/edit/{n.there}", '{"info":"x"}'),
        ("POST", f"/events/edit/{n.there}", f"{{{label(n.owner, n.at)}}}"),
        ("POST", f"/events/publish/{n.there}", ""),
        ("POST", f"/attributes/delete/{n.there}/{n.part}", ""),
        ("POST", f"/attributes/add/{n.there}", ADDED),
        ("POST", f"/attributes/add/{within}", ADDED),
        ("POST", f"/attributes/edit/{within}/{n.inner}", '{"to_ids":true}'),
        ("POST", f"/attributes/delete/{within}/{n.inner}", ""),
        ("POST", f"/sightings/add/{within}/{n.inner}", SIGHTED),
        ("POST", f"/objects/add/{n.there}", thing(new + [n.part], "x")),
        ("POST", f"/objects/edit/{within}", '{"comment":"x"}'),
        ("POST", f"/objects/delete/{within}", ""),
        ("POST", f"/references/add/{within}",
         f'{{"uuid":"{new[0]}","referenced_uuid":"{n.part}"}}'),
        ("POST", f"/references/delete/{within}/{n.reference}", ""),
        ("POST", f"/tags/attach/{n.there}", TAG),
        ("POST", f"/tags/remove/{n.there}", TAG),
        ("POST", f"/shadow_attributes/add/{n.there}", PROPOSED),
        ("POST", f"/shadow_attributes/accept/{n.there}", verdict),
        ("POST", f"/shadow_attributes/discard/{n.there}", verdict),
    ]


def asks_of(dice, org, other, at):
    """The requests of an organisation for what another one hides: for each the request, the same in
    other names, and these names."""
    found = []
    for kind in KINDS:
        if kind == "shared" and other == (org + 1) % ORGS:
            continue
        few, more = (of_attribute, more_of_attribute) if kind == "hidden" else (
            of_event, more_of_event)
        names = named(kind, org, at)
        sides = [few(one) + more(one) for one in names]
        first = len(few(names[0]))
        chosen = [*range(first), dice.randrange(first, len(sides[0]))]
        found += [((key(other), *sides[0][n]), (key(other), *sides[1][n]), names) for n in chosen]
    return found


def fault_of(asked, reply, without, names):
    """Why a reply for what is hidden is a finding, beside that for what is not there, or None."""
    body = reply[1]
    for real, none in zip(names[0].all(), names[1].all()):
        body = body.replace(real.encode(), none.encode())
    if (reply[0], body) != without[:2]:
        return f"{asked} is answered {reply}, and what is not there {without}"
    if reply[0] == 200 and body not in EMPTY:
        return f"{asked} is answered {reply}"
    return None


def overviews(other):
    """The requests that show an organisation all that it may see."""
    who = key(other)
    return [(who, "GET", "/events/index?limit=1000", ""), (who, "GET", "/sharing_groups/index", ""),
            (who, "POST", "/attributes/restSearch", '{"limit":"1000"}'),
            (who, "POST", "/events/restSearch", '{"limit":"1000"}')]


def fault_of_overview(other, at, body):
    """Why what an organisation sees in all is a finding, or None. What is its own passes over a link
    of its own, whatever its level."""
    is_linked = other in [org for _, org in LINKS]
    for head, org, place in HEADS.findall(body):
        owner = int(org, 16)
        allowed = (owner,) if head == OWN.encode() else (owner, (owner + 1) % ORGS)
        if other not in allowed or int(place) != at and not is_linked:
            return f"organisation {other} is shown a name of organisation {owner} at {place.decode()}"
    return None


def passing(org):
    """The requests by which a peer learns what passes to it."""
    who = key(org, "s")
    return [(who, "GET", path, "") for path in ("/sync/manifest", "/sync/events", "/sync/groups")]


def fault_of_passing(org, body):
    """Why what passes to a peer by the key of an organisation is a finding, or None."""
    names = [int(owner, 16) for _, owner, _ in HEADS.findall(body)]
    for head in (OWN, SHARED):
        names += [int.from_bytes(part[:2], "big") for part in body.split(bytes.fromhex(head))[1:]]
    others = [owner for owner in names if owner != org]
    return f"names of {others} pass to a peer of organisation {org}" if others else None


def copies(org, other, at):
    """An event that an organisation adds under the uuid of one that it is not granted, and one under
    a uuid that nothing has."""
    real, none = named("own", org, at)
    return [(key(other), "POST", "/events/add", event(
        n.there, "Copy", '"distribution":"0"', [attribute(n.part, "copy")])) for n in (real, none)]
