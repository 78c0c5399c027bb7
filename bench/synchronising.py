"""What a synchronisation costs: what bench/pulls and bench/pushes measure alike."""

import random
import sys
import tempfile
import uuid

import measuring

RUNS = 11
SYNC = "S" * 40
HAND = "H" * 40
STEP = measuring.STEP
BESIDE = f"""
[[org]]
name = "Beta"
uuid = "bbbbbbbb-0000-4000-8000-000000000002"

[[instance]]
name = "b"

[[key]]
instance = "a"
key = "{SYNC}"
org = "Beta"
role = "sync"
partner = "b"

[[link]]
name = "a"
at = "b"
to = "a"
key = "{SYNC}"
holder = "Beta"
push_org = "Beta"

[[key]]
instance = "b"
key = "{HAND}"
org = "Beta"
role = "sync"
partner = "a"

[[link]]
name = "b"
at = "a"
to = "b"
key = "{HAND}"
holder = "Beta"
push_org = "Beta"
"""
# by verb the line that brings what is at the instance a to b
LINES = {"pull": "pull b a", "push": "push a b"}


def uuids(count, seed):
    """So many random uuids."""
    chance = random.Random(seed)
    return [str(uuid.UUID(int=chance.getrandbits(128), version=4)) for _ in range(count)]


def attribute(number, name):
    return f'{{"uuid":"{name}","type":"text","value":"value {number}"}}'


def added(event, names):
    """The requests that add an event with these attributes and publish it."""
    listed = ",".join(attribute(n, name) for n, name in enumerate(names))
    return [
        f'POST /events/add {{"Event":{{"uuid":"{event}","info":"Many","date":"2023-11-14",'
        f'"distribution":"3","Attribute":[{listed}]}}}}',
        f"POST /events/publish/{event}",
    ]


def events(count):
    """So many events of one attribute."""
    names = uuids(2 * count, count)
    return [line for n in range(count) for line in added(names[2 * n], [names[2 * n + 1]])]


def event(attributes):
    """An event of so many attributes."""
    return added("e1000000-0000-4000-8000-000000000001", uuids(attributes, attributes))


def script(verb, requests, times):
    """The requests at one instance, and so many times the line of the verb."""
    asked = [f"{STEP} req a {measuring.KEY} {request}\n" for request in requests]
    lines = asked + [f"{STEP} {LINES[verb]}\n"] * times
    return (measuring.DESCRIPTION + BESIDE + "---\n" + "".join(lines)).encode()


def all_answered(lines):
    """Stops unless each of so many lines is an answer."""

    def check(written):
        told = written.splitlines()
        if len(told) != lines or not all(line.split(b" ")[1] == b"200" for line in told):
            sys.exit(f"a line was not answered: {told[-1][:200]!r}")

    return check


def seconds(program, folder, verb, requests, counts):
    """The best time of the script with each of these counts of the line, in several rounds."""
    scripts = [
        (measuring.save(folder, f"source{times}", script(verb, requests, times)), times)
        for times in counts
    ]
    rounds = [
        [
            measuring.best([program, "net"], path, 1, all_answered(len(requests) + times))
            for path, times in scripts
        ]
        for _ in range(RUNS)
    ]
    return [min(times) for times in zip(*rounds)]


def held(program, folder, verb, requests):
    """The peak with one synchronisation for what both keepers hold after it, or None."""
    lines = script(verb, requests, 0)
    refused = lines.replace(b'role = "publisher"', b'role = "reader"')
    paths = [("refused", refused), ("added", lines), ("taken", script(verb, requests, 1))]
    peaks = [measuring.peak([program, "net"], measuring.save(folder, *path)) for path in paths]
    if None in peaks:
        return None
    none, one, both = peaks
    print(f"peaks: {none} bytes where all is refused, {one} where it is added, {both} where it is")
    print("taken, too")
    return (both - none) / (2 * (one - none))


def taken(program, folder, verb, name, requests):
    """The times of the first synchronisation and of a second one."""
    none, one, two = seconds(program, folder, verb, requests, (0, 1, 2))
    print(f"{name}: {none * 1000:.0f} ms to add, the first {verb} {(one - none) * 1000:.0f} ms,")
    print(f"the second {(two - one) * 1000:.0f} ms")
    return one - none, two - one


# by verb what a second one with nothing new may cost of the first
SECOND = {"pull": 0.4, "push": 0.5}


def measure(verb, program):
    """Measures the verb, and prints its ratios."""
    with tempfile.TemporaryDirectory() as folder:
        few, few_again = taken(program, folder, verb, "1,000 events", events(1000))
        many, _ = taken(program, folder, verb, "10,000 events", events(10000))
        name = "an event of 10,000 attributes"
        small, small_again = taken(program, folder, verb, name, event(10000))
        large, _ = taken(program, folder, verb, "an event of 40,000 attributes", event(40000))
        share = held(program, folder, verb, events(10000))
    measuring.verdict("ten times the events", many / few, 12)
    if share:
        measuring.verdict("peak of memory for what both keepers hold", share, 3)
    aim = SECOND[verb]
    measuring.verdict(f"a second {verb} of the events for the first", few_again / few, aim)
    measuring.verdict(f"a second {verb} of the event for the first", small_again / small, aim)
    measuring.verdict("four times the attributes", large / small, 5)
