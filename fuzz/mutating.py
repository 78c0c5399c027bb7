"""Mutations of bytes, of lines and of JSON, all drawn from one seeded source of chance."""

import copy
import json
import re

EDGES = [
    0, 1, 2, 3, 4, 5, 6, 7, 60, 64, 65, 127, 128, 255, 256, 1000, 1001, 16384, 16385, 65535, 65536,
    2**31 - 1, 2**31, 2**32 - 1, 2**32, 2**53, 2**63 - 1, 2**63, 2**64 - 1, 2**64, 10**30,
    253402300799, 253402300800, 1000000, 1000001, -1, -(2**63),
]
BYTES = [b"\x00", b"\x7f", b"\x80", b"\xff", b"\xc0\xaf", b"\xed\xa0\x80", b"\xf4\x90\x80\x80",
         b"\r", b"\n", b"\t", b" ", b'"', b"\\", b"|", b"/", b"[", b"{", b"]", b"}", b",", b":",
         b"-", b"'", b"\xe2\x80\xa8", b"\xef\xbb\xbf", b"\xf0\x9f\x98\x80"]
LONG = [64, 65, 100, 101, 255, 256, 4096, 16383, 16384, 16385, 70000]
TEXTS = ["", " ", "\x00", "\n", "é", "\U0001f600", "a|b", "|", "::", "1.2.3.4/33", "AS4294967296",
         "2023-02-29", "0000-01-01", "9999-12-31T23:59:59.999999-23:59", "1969-12-31T23:59:59Z",
         "2023-11-14T22:13:20.5+14:00", "#ffffff", "attachment", "malware-sample", "text", "ip-dst",
         "domain|ip", "filename|md5", "-", "00", "+1", "1.0", "18446744073709551616",
         "00000000000000000001", "e1000000-0000-4000-8000-000000000001",
         "E1000000-0000-4000-8000-000000000001", "00000000-0000-0000-0000-000000000000", "true"]


def edge(dice):
    """A number at the edge of what some field holds."""
    return dice.choice(EDGES)


def piece(dice):
    """Some bytes that a reader of text may not expect."""
    if dice.random() < 0.3:
        return dice.choice(BYTES) * dice.choice([1, 2, 33, 300])
    if dice.random() < 0.1:
        return b"x" * dice.choice(LONG)
    return dice.choice(BYTES) if dice.random() < 0.7 else bytes([dice.randrange(256)])


def span(dice, text):
    """A stretch of a text, mostly a short one."""
    at = dice.randrange(len(text) + 1)
    return at, min(len(text), at + int(dice.expovariate(1 / 8)) + 1)


def flipped(dice, text):
    """One bit or byte changed."""
    if not text:
        return text
    at = dice.randrange(len(text))
    changed = text[at] ^ (1 << dice.randrange(8)) if dice.random() < 0.5 else dice.randrange(256)
    return text[:at] + bytes([changed]) + text[at + 1:]


def without(dice, text):
    """A stretch left out."""
    first, after = span(dice, text)
    return text[:first] + text[after:]


def doubled(dice, text):
    """A stretch said twice."""
    first, after = span(dice, text)
    return text[:after] + text[first:after] + text[after:]


def brought(dice, text):
    """Some bytes put in."""
    at = dice.randrange(len(text) + 1)
    return text[:at] + piece(dice) + text[at:]


def cut(dice, text):
    """The end left out."""
    return text[:dice.randrange(len(text) + 1)]


def numbered(dice, text):
    """One number replaced by one at an edge."""
    found = list(re.finditer(rb"\d+", text))
    if not found:
        return text
    one = dice.choice(found)
    return text[:one.start()] + str(edge(dice)).encode() + text[one.end():]


def quoted(dice, text):
    """One quoted text replaced by another: a long one, one that is not UTF-8, an edge."""
    found = list(re.finditer(rb'"[^"\n]*"', text))
    if not found:
        return text
    one = dice.choice(found)
    told = dice.choice([piece(dice), b"x" * dice.choice(LONG), dice.choice(TEXTS).encode()])
    return text[:one.start() + 1] + told + text[one.end() - 1:]


def relined(dice, text):
    """Lines swapped, doubled, left out or joined."""
    lines = text.split(b"\n")
    one, other = dice.randrange(len(lines)), dice.randrange(len(lines))
    way = dice.randrange(4)
    if way == 0:
        lines[one], lines[other] = lines[other], lines[one]
    elif way == 1:
        lines.insert(other, lines[one])
    elif way == 2:
        del lines[one]
    else:
        lines[one:one + 2] = [b" ".join(lines[one:one + 2])]
    return b"\n".join(lines)


ON_BYTES = [flipped, without, doubled, brought, cut]
ON_TEXT = ON_BYTES + [numbered, numbered, quoted, quoted, relined, relined]


def mutated(dice, text, ways, most=4):
    """Some bytes after one or a few mutations."""
    for _ in range(dice.choice([1] * 5 + list(range(1, most + 1)))):
        text = dice.choice(ways)(dice, text)
    return text


def places(value, path=()):
    """The paths of all values within a JSON value."""
    yield path
    if isinstance(value, dict):
        for name in value:
            yield from places(value[name], path + (name,))
    elif isinstance(value, list):
        for number, entry in enumerate(value):
            yield from places(entry, path + (number,))


def any_value(dice):
    """A JSON value of whatever kind."""
    return dice.choice([
        None, True, False, [], {}, [[]], [None], {"": None}, edge(dice), str(edge(dice)),
        dice.choice(TEXTS), dice.choice(TEXTS), "x" * dice.choice(LONG), 0.5, 1e300, -0.0,
    ])


def revalued(dice, value):
    """A JSON value in which one member is another, gone, said within itself, or one of another
    name."""
    value = copy.deepcopy(value)
    path = dice.choice(list(places(value)))
    if not path:
        return dice.choice([any_value(dice), [value], {"Event": value}, value])
    holder = value
    for step in path[:-1]:
        holder = holder[step]
    way, last = dice.random(), path[-1]
    if way < 0.55:
        holder[last] = any_value(dice)
    elif way < 0.7:
        del holder[last]
    elif way < 0.8:
        holder[last] = [holder[last], copy.deepcopy(holder[last])]
    elif way < 0.9 and isinstance(holder, dict):
        holder[dice.choice(["uuid", "type", "value", "Tag", "Attribute", "distribution"])] = (
            copy.deepcopy(holder[last])
        )
    elif isinstance(holder, list):
        holder.extend(copy.deepcopy(holder[last]) for _ in range(dice.choice([1, 2, 70])))
    return value


def rejsoned(dice, text):
    """The bytes of a JSON text after mutations of its values, of its bytes, or of both."""
    if dice.random() < 0.75:
        value = json.loads(text)
        for _ in range(dice.choice([1, 1, 1, 2, 3])):
            value = revalued(dice, value)
        text = json.dumps(value, ensure_ascii=dice.random() < 0.5).encode("utf-8", "surrogatepass")
    if dice.random() < 0.4:
        text = mutated(dice, text, ON_BYTES + [numbered, quoted])
    if dice.random() < 0.01:
        depth = dice.choice([100, 126, 127, 128, 5000, 200000])
        text = b"[" * depth + b"]" * depth
    return text.replace(b"\n", b" ")
