"""Descriptions and scripts, mutated, for `net` and `check`."""

import glob
import os
import tomllib

import judging
import mutating
import running

STATUSES = (0, 5, 8, 9)


def names_of(description):
    """The instances and the organisations of a description, or None where tomllib does not read
    it."""
    try:
        told = tomllib.loads(description.decode())
        instances = {one["name"].encode() for one in told.get("instance", [])}
        return instances, {one["uuid"].lower().encode() for one in told.get("org", [])}
    except (ValueError, TypeError, KeyError, AttributeError, RecursionError):
        return None


def fault_of_lines(source, written):
    """Why the lines that `net` wrote for a source are a finding, or None."""
    description, script = judging.script_of(source)
    outputs, fault = judging.outputs_of(written, len(script))
    if fault:
        return fault
    names = names_of(description)
    for line, output in zip(script, outputs):
        fault = judging.fault_of_output(None, output)
        if fault:
            return fault
        if names is None:
            continue
        place = judging.bad_place(line, *names)
        if output != b"bad %d" % place if place is not None else output.startswith(b"bad "):
            return f"bad is to be at {place}: {line[:200]} puts out {output[:100]}"
    return None


class Kind:
    def __init__(self, program, dice, findings):
        self.program = program
        self.dice = dice
        self.findings = findings
        self.examples = []
        for path in sorted(glob.glob(os.path.join(running.TOP, "examples", "*.misp"))):
            with open(path, "rb") as file:
                self.examples.append(judging.script_of(file.read()))

    def source(self):
        """A part of an example, mutated."""
        dice = self.dice
        description, script = dice.choice(self.examples)
        if dice.random() < 0.05:
            script = dice.choice(self.examples)[1]
        first = dice.randrange(len(script)) if dice.random() < 0.3 else 0
        script = b"\n".join(script[first:first + dice.choice([1, 3, 10, 10, 25])]) + b"\n"
        where = dice.random()
        if where < 0.4:
            description = mutating.mutated(dice, description, mutating.ON_TEXT)
        elif where < 0.9:
            script = mutating.mutated(dice, script, mutating.ON_TEXT)
        source = description + b"\n---\n" + script
        return source if where < 0.9 else mutating.mutated(dice, source, mutating.ON_TEXT)

    def fault(self, source):
        """Why a source is a finding, and at which command, or None."""
        checked = running.run(self.program, ["check"], source)
        ran = running.run(self.program, ["net"], source)
        fault = running.crash(checked, STATUSES)
        if fault:
            return "check", fault
        fault = running.crash(ran, STATUSES)
        if fault:
            return "net", fault
        if checked.status != ran.status:
            return "check", f"check ends with {checked.status}, and net with {ran.status}"
        if ran.status == 5 and (
            ran.written != checked.written or not ran.written.startswith(b"bad description: ")
        ):
            return "check", f"check and net name other faults: {checked.written} {ran.written}"
        if ran.status:
            return None
        if checked.written != b"ok\n":
            return "check", f"check writes {checked.written}"
        fault = fault_of_lines(source, ran.written)
        if fault:
            return "net", fault
        if self.dice.random() < 0.1:
            again = running.run(self.program, ["net"], source)
            if (again.status, again.written) != (ran.status, ran.written):
                return "net", "a second run writes something else"
        return None

    def round(self):
        """Tries one source."""
        source = self.source()
        found = self.fault(source)
        if found:
            command, reason = found
            lines = running.shrunk(
                source.split(b"\n"), lambda some: self.fault(b"\n".join(some)) is not None
            )
            self.findings.keep(reason, [command], {"source": b"\n".join(lines), "whole": source})
        return 1
