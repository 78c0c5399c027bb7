"""64 organisations with keys at two instances, their events and groups, and what they ask."""

ORGS = 64
WIDE = 16  # organisations that have an event for all communities
INSTANCES = ("north", "south")
OPEN, WIDER, OWN, SHARED = "0e0e0e0e", "0f0f0f0f", "5ec05ec0", "5ec15ec1"  # heads of uuids
NOBODY = "0bad0bad"  # the head of uuids that nothing has
EVENT, FIRST, SECOND, OBJECT, INNER, REFERENCE = 0, 1, 2, 0x20, 0x21, 0x30
PROPOSAL, SIGHTING, HIDDEN, GROUP, ADDED, BROUGHT = 0x40, 0x50, 0x60, 0x80, 0x90, 0xA0
LINKS = (("up", 0), ("over", 1))  # from south to north, each of one organisation


def uuid(head, org, at, kind, number=0):
    """The uuid of a thing of an organisation at an instance."""
    return f"{head}-{org:04x}-4{at}{kind:02x}-8000-{number:012x}"


def organisation(org):
    return uuid("0a0a0a0a", org, 0, 0)


def key(org, role="p"):
    """The key of an organisation as publisher (p), administrator of groups (g) or peer (s)."""
    return f"{role}{org:02d}".ljust(40, role.upper())


def description(addresses):
    """The description, as TOML."""
    parts = [f'[[org]]\nname = "Organisation {n}"\nuuid = "{organisation(n)}"\n' for n in range(ORGS)]
    parts += [f'[[instance]]\nname = "{name}"\naddress = "{address}"\n'
              for name, address in zip(INSTANCES, addresses)]
    roles = [(n, letter, role) for n in range(ORGS) for letter, role in
             (("p", "publisher"), ("g", "orgadmin"))]
    for at, name in enumerate(INSTANCES):
        for org, letter, role in roles + [(org, "s", "sync") for _, org in LINKS]:
            told = f'partner = "{INSTANCES[1 - at]}"\n' if letter == "s" else ""
            parts.append(f'[[key]]\ninstance = "{name}"\nkey = "{key(org, letter)}"\n'
                         f'org = "Organisation {org}"\nrole = "{role}"\n{told}')
    for name, org in LINKS:
        parts.append(f'[[link]]\nname = "{name}"\nat = "south"\nto = "north"\n'
                     f'key = "{key(org, "s")}"\nholder = "Organisation {org}"\n'
                     f'push_org = "Organisation {org}"\n')
    return "\n".join(parts)


def label(org, at):
    """The label of the group that is shared with the next organisation."""
    return (f'"distribution":"4","SharingGroup":{{"organisation_uuid":"{organisation(org)}",'
            f'"uuid":"{uuid(SHARED, org, at, GROUP)}"}}')


def attribute(name, value, told="", form="text"):
    return f'{{"uuid":"{name}","type":"{form}","value":"{value}"{told}}}'


def event(name, info, told, attributes, objects=()):
    return (f'{{"Event":{{"uuid":"{name}","info":"{info}","date":"2023-11-14",{told},'
            f'"Attribute":[{",".join(attributes)}],"Object":[{",".join(objects)}]}}}}')


def thing(names, value):
    """An object of an attribute and a reference to another attribute."""
    there, inner, reference, target = names
    return (f'{{"uuid":"{there}","name":"file","description":"d","Attribute":'
            f'[{attribute(inner, value)}],"ObjectReference":[{{"uuid":"{reference}",'
            f'"referenced_uuid":"{target}","relationship_type":"drops"}}]}}')


def group(name, org, title, members):
    told = ",".join(f'{{"Organisation":{{"uuid":"{organisation(n % ORGS)}"}}}}' for n in members)
    return (f'{{"uuid":"{name}","organisation_uuid":"{organisation(org)}","name":"{title}",'
            f'"SharingGroupOrg":[{told}]}}')


def setup(org, at):
    """The requests by which an organisation gets its groups and events at an instance."""
    def named(head, kind):
        return uuid(head, org, at, kind)

    admin, own, next_ = key(org, "g"), key(org), key((org + 1) % ORGS)
    asked = [
        (admin, "POST", "/sharing_groups/add",
         group(named(SHARED, GROUP), org, "Two", (org, org + 1))),
        (admin, "POST", "/sharing_groups/add", group(named(OPEN, GROUP), org, "Some", (org,))),
        (own, "POST", "/events/add", event(named(OPEN, EVENT), "Open", '"distribution":"1"', [
            attribute(named(OPEN, FIRST), "198.51.100.1", '', "ip-dst"),
            attribute(named(OPEN, SECOND), "value 1", ',"Tag":[{"name":"tag 1"}]'),
            attribute(named(OWN, HIDDEN), f"hidden {org} {at}", ',"distribution":"0"')])),
        (own, "POST", "/events/add", event(named(OWN, EVENT), "Own", '"distribution":"0"', [
            attribute(named(OWN, FIRST), f"own {org} {at}")], [thing(
                [named(OWN, n) for n in (OBJECT, INNER, REFERENCE, FIRST)], f"in {org} {at}")])),
        (own, "POST", f"/shadow_attributes/add/{named(OWN, EVENT)}",
         attribute(named(OWN, PROPOSAL), "proposed")),
        (own, "POST", f"/sightings/add/{named(OWN, EVENT)}/{named(OWN, FIRST)}",
         f'{{"uuid":"{named(OWN, SIGHTING)}","date_sighting":"1700000000"}}'),
        (own, "POST", "/events/add", event(named(SHARED, EVENT), "Shared", label(org, at), [
            attribute(named(SHARED, FIRST), f"shared {org} {at}")])),
        (next_, "POST", f"/sightings/add/{named(SHARED, EVENT)}/{named(SHARED, FIRST)}",
         f'{{"uuid":"{named(SHARED, SIGHTING)}","date_sighting":"1700000000"}}'),
        (own, "POST", f"/events/publish/{named(OPEN, EVENT)}", ""),
        (own, "POST", f"/events/publish/{named(SHARED, EVENT)}", ""),
    ]
    if org < WIDE:
        asked += [
            (own, "POST", "/events/add", event(named(WIDER, EVENT), "Wide", '"distribution":"3"', [
                attribute(named(WIDER, FIRST), "value 2"), attribute(named(WIDER, SECOND), "AS7",
                                                                    '', "AS")],
                [thing([named(WIDER, n) for n in (OBJECT, INNER, REFERENCE, FIRST)], "value 3")])),
            (own, "POST", f"/events/publish/{named(WIDER, EVENT)}", ""),
        ]
    return asked


class Asking:
    """What the organisations ask at one instance, by chance. What is added has one of few names,
    so the rows do not grow without end; but of each life."""

    def __init__(self, dice, at):
        self.dice = dice
        self.at = at
        self.lives = 0

    def one(self):
        """One request."""
        kinds, weights = zip(*KINDS)
        return self.dice.choices(kinds, weights)[0](self)

    def org(self):
        return self.dice.randrange(ORGS)

    def named(self, head, org, kind, number=0):
        return uuid(head, org, self.at, kind, number)

    def owned(self, org):
        """An event that the organisation owns, and an attribute of it."""
        heads = [OPEN, OPEN, OWN, SHARED] + [WIDER, WIDER] * (org < WIDE)
        head = self.dice.choice(heads)
        kind = self.dice.choice([FIRST, SECOND] if head in (OPEN, WIDER) else [FIRST])
        return self.named(head, org, EVENT), self.named(head, org, kind)

    def shown(self):
        """An event that all organisations are shown, and an attribute of it."""
        org = self.org()
        head = WIDER if org < WIDE and self.dice.random() < 0.5 else OPEN
        return self.named(head, org, EVENT), self.named(head, org, self.dice.choice([FIRST, SECOND]))

    def view(self):
        return key(self.org()), "GET", f"/events/view/{self.shown()[0]}", ""

    def view_own(self):
        org = self.org()
        return key(org), "GET", f"/events/view/{self.owned(org)[0]}/{organisation(org)}", ""

    def view_shared(self):
        org = self.org()
        there = self.named(SHARED, org, EVENT)
        return key((org + self.dice.randrange(3)) % ORGS), "GET", f"/events/view/{there}", ""

    def index(self):
        told = f"?page={self.dice.randrange(1, 4)}&limit={self.dice.choice([5, 20, 60])}"
        return key(self.org()), "GET", f"/events/index{told}", ""

    def search(self):
        told = self.dice.choice([
            f'"value":"value {self.dice.randrange(9)}"', '"type":"ip-dst","to_ids":true',
            f'"tags":["tag {self.dice.randrange(5)}"]', f'"org":"{organisation(self.org())}"',
            '"published":true,"from":"2023-11-01"', f'"value":"own {self.org()} {self.at}"'])
        path = self.dice.choice(["/attributes/restSearch"] * 3 + ["/events/restSearch"])
        return key(self.org()), "POST", path, f'{{{told},"limit":"10"}}'

    def groups(self):
        return key(self.org()), "GET", "/sharing_groups/index", ""

    def edit_event(self):
        org = self.org()
        body = self.dice.choice([f'{{"info":"Info {self.dice.randrange(9)}"}}', '{"analysis":"1"}',
                                 '{"Event":{"threat_level_id":"2","date":"2023-11-15"}}'])
        return key(org), "POST", f"/events/edit/{self.owned(org)[0]}", body

    def edit_attribute(self):
        org = self.org()
        there, part = self.owned(org)
        number = self.dice.randrange(9)
        body = self.dice.choice([f'{{"comment":"comment {number}"}}', '{"to_ids":true}',
                                 f'{{"type":"text","value":"value {number}"}}',
                                 f'{{"type":"ip-dst","value":"198.51.100.{number}","to_ids":"0"}}',
                                 '{"first_seen":"2023-11-14T22:13:20Z","last_seen":""}'])
        if part.startswith((OWN, SHARED)):
            body = '{"comment":"another"}'
        return key(org), "POST", f"/attributes/edit/{there}/{part}", body

    def edit_object(self):
        org = self.dice.randrange(WIDE)
        there, part = self.named(WIDER, org, EVENT), self.named(WIDER, org, OBJECT)
        body = f'{{"comment":"comment {self.dice.randrange(9)}"}}'
        return key(org), "POST", f"/objects/edit/{there}/{part}", body

    def tag(self):
        org = self.org()
        there, part = self.owned(org)
        target = self.dice.choice([there, f"{there}/{part}"])
        way = self.dice.choice(["attach", "remove"])
        return key(org), "POST", f"/tags/{way}/{target}", f'{{"name":"tag {self.dice.randrange(5)}"}}'

    def near(self):
        """An organisation, and one whose open event it makes statements of."""
        org = self.org()
        return org, (org + self.dice.randrange(1, 3)) % ORGS

    def propose(self):
        org, other = self.near()
        there, part = self.named(OPEN, other, EVENT), self.named(OPEN, other, FIRST)
        body = attribute(self.named(OPEN, org, PROPOSAL), "198.51.100.9", "", "ip-dst")
        return key(org), "POST", f"/shadow_attributes/add/{there}/{part}", body

    def judge(self):
        org, other = self.near()
        there, part = self.named(OPEN, other, EVENT), self.named(OPEN, other, FIRST)
        way = self.dice.choice(["accept", "discard"])
        body = (f'{{"uuid":"{self.named(OPEN, org, PROPOSAL)}","org":"{organisation(org)}",'
                f'"origin":"{INSTANCES[self.at]}","attribute":"{part}"}}')
        return key(other), "POST", f"/shadow_attributes/{way}/{there}", body

    def sight(self):
        org, other = self.near()
        there, part = self.named(OPEN, other, EVENT), self.named(OPEN, other, FIRST)
        body = f'{{"uuid":"{self.named(OPEN, org, SIGHTING)}","date_sighting":"1700000000"}}'
        return key(org), "POST", f"/sightings/add/{there}/{part}", body

    def add(self):
        org = self.org()
        there = self.named(OPEN, org, EVENT)
        number = self.dice.randrange(3)
        if self.dice.random() < 0.3:
            names = [self.named(OPEN, org, BROUGHT + n) for n in range(3)]
            told = thing(names + [self.named(OPEN, org, FIRST)], "value 5")
            return key(org), "POST", f"/objects/add/{there}", told
        body = attribute(self.named(OPEN, org, ADDED, number), f"value {number}")
        return key(org), "POST", f"/attributes/add/{there}", body

    def delete(self):
        org = self.org()
        there = self.named(OPEN, org, EVENT)
        part = self.named(OPEN, org, ADDED, self.dice.randrange(3))
        return key(org), "POST", f"/attributes/delete/{there}/{part}", ""

    def publish(self):
        org = self.org()
        return key(org), "POST", f"/events/publish/{self.owned(org)[0]}", ""

    def edit_group(self):
        org = self.org()
        members = [org] + self.dice.sample(range(ORGS), 3)
        body = group(self.named(OPEN, org, GROUP), org, f"Some {self.dice.randrange(9)}", members)
        return key(org, "g"), "POST", "/sharing_groups/edit", body

    def faulty(self):
        org = self.org()
        there = self.shown()[0]
        return self.dice.choice([
            ("-", "GET", f"/events/view/{there}", ""), ("X" * 40, "GET", f"/events/view/{there}", ""),
            (key(org), "GET", "/users/view/me", ""), (key(org), "DELETE", f"/events/view/{there}", ""),
            (key(org), "POST", "/events/add", '{"info":'), (key(org), "POST", "/events/add", "{}"),
            (key(org), "POST", "/attributes/restSearch", '{"tags":"sms"}'),
            (key(org), "POST", "/sharing_groups/add", group(there, org, "No", (org,))),
            (key(org), "GET", "/sync/manifest", ""), (key(org), "GET", "/events/index?page=0", ""),
            (key(org), "POST", "/admin/organisations/add", f'{{"uuid":"{there}","name":"X"}}'),
            (key(org), "POST", f"/events/edit/{there}", "[" * 200),
        ])

    def life(self):
        """The requests of an event from its addition to its end."""
        self.lives += 1
        org, other = self.near()
        there, part, proposal, sighting, new = (
            self.named(OPEN, org, kind, self.lives) for kind in
            (EVENT, FIRST, PROPOSAL, SIGHTING, ADDED))
        told = f'"uuid":"{proposal}","org":"{organisation(other)}","origin":"{INSTANCES[self.at]}"'
        own, seen = key(org), key(other)
        return [
            (own, "POST", "/events/add", event(there, "Life", '"distribution":"1"',
                                               [attribute(part, "value 1")])),
            (own, "POST", f"/attributes/add/{there}", attribute(new, "value 2")),
            (seen, "POST", f"/shadow_attributes/add/{there}", attribute(proposal, "value 3")),
            (seen, "POST", f"/sightings/add/{there}/{part}",
             f'{{"uuid":"{sighting}","date_sighting":"1700000000"}}'),
            (own, "POST", f"/events/publish/{there}", ""),
            (seen, "GET", f"/events/view/{there}", ""),
            (own, "POST", f"/shadow_attributes/accept/{there}", f"{{{told}}}"),
            (own, "POST", f"/attributes/delete/{there}/{part}", ""),
            (seen, "GET", f"/events/view/{there}", ""),
            (own, "POST", f"/events/delete/{there}", ""),
            (seen, "GET", f"/events/view/{there}", ""),
        ]


KINDS = [
    (Asking.view, 38), (Asking.view_own, 12), (Asking.view_shared, 6), (Asking.index, 1),
    (Asking.search, 2), (Asking.groups, 5), (Asking.edit_event, 4), (Asking.edit_attribute, 7),
    (Asking.edit_object, 2), (Asking.tag, 6), (Asking.propose, 2), (Asking.judge, 2),
    (Asking.sight, 2), (Asking.add, 2), (Asking.delete, 1), (Asking.publish, 2),
    (Asking.edit_group, 1), (Asking.faulty, 5),
]


def is_change(asked):
    """Whether a request changes something where it is accepted."""
    return asked[1] == "POST" and not asked[2].endswith("/restSearch")
