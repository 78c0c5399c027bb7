"""Runs with less memory than they want, and what they may put out."""

import glob
import os
import re
import resource
import shutil
import subprocess
import tempfile

import databases
import judging
import packages
import peers
import running
import world

NO_MEMORY = b'"rule":27}'
SYNCS = (b"pull", b"push")


def library(room):
    """The library that refuses allocations, or None without a C compiler."""
    compiler = shutil.which("cc")
    if not compiler:
        return None
    built = os.path.join(room, "refusing.so")
    source = os.path.join(running.TOP, "fuzz", "refusing.c")
    subprocess.run([compiler, "-O2", "-shared", "-fPIC", "-o", built, source], check=True)
    return built


def line(time, told):
    return f"{time} {time:032x} {told}".encode()


def short():
    """A script with every verb: what fills an instance, changes, statements, searches, lists, an
    administration, sessions, groups, a pull and a push, each twice, and what is seen in the end."""
    time = world.START + 1000
    event, first = world.EVENT, world.FIRST
    verdict = (f'{{"uuid":"{world.PROPOSAL}","org":"{world.BETA}","origin":"a",'
               f'"attribute":"{first}"}}')
    asked = [
        (world.A, "POST", f"/attributes/edit/{event}/{first}", '{"comment":"edited"}'),
        (world.A, "POST", f"/attributes/add/{event}", '{"type":"text","value":"made"}'),
        (world.A, "POST", f"/tags/attach/{event}", '{"name":"tag"}'),
        (world.A, "POST", f"/shadow_attributes/accept/{event}", verdict),
        (world.A, "POST", f"/objects/edit/{event}/{world.OBJECT}", '{"comment":"c"}'),
        (world.A, "POST", f"/attributes/delete/{event}/{world.SECOND}", ""),
        (world.A, "POST", f"/events/publish/{event}", ""),
        (world.W, "POST", "/admin/organisations/add", f'{{"uuid":"{world.NEW}","name":"Delta"}}'),
        (world.W, "POST", "/admin/keys/add",
         f'{{"authkey":"{"K" * 40}","org":"{world.NEW}","role":"user"}}'),
        (world.W, "POST", "/admin/links/add",
         f'{{"name":"new","peer":"b","key":"{world.S}","holder":"{world.ALPHA}",'
         f'"push_org":"{world.BETA}"}}'),
        ("K" * 40, "POST", "/events/add", f'{{"uuid":"{world.OTHER}","info":"D"}}'),
        (world.G, "POST", "/events/add", '{"info":'),
    ]
    lines = world.setup() + [world.req(time + n, *one) for n, one in enumerate(asked)]
    edit = world.request(world.A, "POST", f"/events/edit/{event}", b'{"info":"by a session"}')
    view = world.request(world.B, "GET", f"/events/view/{event}")
    lines += [world.raw(time + 100, edit + view), line(time + 101, "none")]
    group = world.WHOLE_GROUP.replace(world.GROUP, world.GROUP_NEW)
    lines += [line(time + 102, f"group-add a {world.ALPHA} {group}"),
              line(time + 103, f"group-edit a {world.ALPHA} {group}")]
    lines += [world.req(time + 104, world.A, "POST", f"/events/publish/{event}")]
    lines += [line(time + 105 + n, told) for n, told in enumerate(
        ["pull b up", "pull b up", "push c up", "push b up", "pull c up", "pull c up"])]
    looks = world.looks(keys=(world.A, world.B)) + world.looks("b", (world.B,))[:-3]
    return lines + looks


def scripts():
    """Scripts, each with its name and the words of the program: the short one, the examples, and
    longer ones."""
    whole = world.description() + b"---\n" + b"\n".join(short()) + b"\n"
    found = [("a short script", ["net"], whole)]
    for path in sorted(glob.glob(os.path.join(running.TOP, "examples", "*.misp"))):
        with open(path, "rb") as file:
            found.append((os.path.basename(path), ["net"], file.read()))
    texts = ",".join(f'{{"type":"text","value":"{n}"}}' for n in range(2000))
    large = world.req(world.START, world.A, "POST", "/events/add",
                      f'{{"uuid":"{world.NEW}","info":"Large","distribution":"3","Attribute":[{texts}]}}')
    rest = [world.req(world.START + 1, world.A, "POST", f"/events/publish/{world.NEW}"),
            line(world.START + 2, "pull b up")] + world.looks(keys=(world.A, world.B))
    source = world.description() + b"---\n" + b"\n".join([large, *rest]) + b"\n"
    return found + [("an event of 2000 attributes", ["net"], source), ("gen 100", ["gen", "100"], b"")]


def end_of(status):
    """The name of an end."""
    if status is None:
        return "without an end"
    return f"by signal {-status}" if status < 0 else f"with status {status}"


def run_within(program, words, source, limit):
    """A run under a limit of the address space, in KiB."""
    def bound():
        resource.setrlimit(resource.RLIMIT_AS, (limit * 1024, limit * 1024))
        resource.setrlimit(resource.RLIMIT_CORE, (0, 0))

    try:
        ran = subprocess.run([program, *words], input=source, capture_output=True, preexec_fn=bound,
                             timeout=running.BOUND)
    except (OSError, subprocess.SubprocessError):
        return running.Ran(127, b"", b"")
    return running.Ran(ran.returncode, ran.stdout, ran.stderr)


def limits_of(program, words, source):
    """The limits that a script is tried under: from what no program loads within to what it wants."""
    low, high = 1000, 1000
    while run_within(program, words, source, high).status != 0 or high < 3000:
        if run_within(program, words, source, high).status not in (0, 8):
            low = high
        high = high * 5 // 4
    step = max(4, (high - low) // 250 // 4 * 4)
    return range(low, high + step, step)


def run_refused(program, words, source, refusing, number, is_all=False, counted="", folder=None):
    """A run of which one allocation is refused, or this and all after it."""
    told = {"LD_PRELOAD": refusing, "REFUSED": str(number), **({"ALL": "1"} if is_all else {}),
            **({"COUNTED": counted} if counted else {})}
    try:
        ran = subprocess.run([program, *words], input=source, capture_output=True, cwd=folder,
                             env=told, timeout=running.BOUND)
    except subprocess.TimeoutExpired:
        return running.Ran(None, b"", b"")
    return running.Ran(ran.returncode, ran.stdout, ran.stderr)


def count_of(program, words, source, refusing, room, folder=None):
    """How many allocations a run has."""
    counted = os.path.join(room, "counted")
    run_refused(program, words, source, refusing, 0, False, counted, folder)
    with open(counted, encoding="ascii") as file:
        return int(file.read())


def session_of(output):
    """The end and the replies that a line `raw` put out."""
    end, _, digits = output.partition(b" ")
    return end, judging.replies(bytes.fromhex(digits.decode())) or []


def is_lacking(verb, output):
    """Whether a line, or something of it, was refused for want of memory."""
    if verb == b"raw":
        end, told = session_of(output)
        return end == b"NoMemory" or any(status == 507 for status, _, _ in told)
    return output.endswith(NO_MEMORY) or b'"place":"507 27"' in output


def requests_in(text):
    """The requests that the bytes of a connection are."""
    found = []
    while text:
        head, end, rest = text.partition(b"\r\n\r\n")
        told = re.search(rb"(?i)content-length: *(\d+)", head)
        size = int(told[1]) if told else 0
        found.append(head + end + rest[:size])
        text = rest[size:]
    return found


def without_refused(line, output):
    """A line `raw` without the requests that were refused for want of memory."""
    _, told = session_of(output)
    head, _, digits = line.rpartition(b" ")
    asked = requests_in(bytes.fromhex(digits.decode()))
    kept = [one for one, (status, _, _) in zip(asked, told) if status != 507]
    return head + b" " + b"".join(kept).hex().encode()


def are_alike(verb, output, other):
    """Whether a line put out the same, where nothing of it was refused for want of memory."""
    if verb != b"raw" or not is_lacking(verb, output):
        return output == other
    return [one for one in session_of(output)[1] if one[0] != 507] == session_of(other)[1]


class Model:
    """What a script puts out with memory enough, whole and without what was refused of it. Where a
    synchronisation was, what follows is as if it had not been only in a script that does it again."""

    def __init__(self, program, words, source, does_again=False):
        self.program = program
        self.words = words
        self.does_again = does_again
        self.described, self.lines = judging.script_of(source)
        self.verbs = [(line.split(b" ") + [b"", b"", b""])[2] for line in self.lines]
        self.known = {}

    def outputs(self, told, lack):
        """The outputs of the lines without what was refused, by their numbers."""
        lines = dict(enumerate(self.lines))
        for number in lack:
            if self.verbs[number] == b"raw":
                lines[number] = without_refused(lines[number], told[number])
            elif self.verbs[number] not in SYNCS:
                del lines[number]
        source = b"\n".join([self.described, b"---", *lines.values(), b""])
        if source not in self.known:
            ran = running.run(self.program, ["net"], source)
            if ran.status != 0:
                raise SystemExit(f"ends with {ran.status} though nothing is refused")
            self.known[source] = [line.split(b" ", 1)[1] for line in ran.written.splitlines()]
        return dict(zip(lines, self.known[source]))

    def judged(self, ran):
        """How a run ended, and why it is a finding, or None."""
        end = end_of(ran.status)
        if ran.status == 8:
            return end, f"writes {ran.written[:200]}" if ran.written else None
        if ran.status != 0:
            return end, f"ended {end}, having written {len(ran.written)} bytes: {ran.said[:300]}"
        if self.words != ["net"]:
            return end, None
        told, fault = judging.outputs_of(ran.written, len(self.lines))
        if fault:
            return end, fault
        lack = [n for n, output in enumerate(told) if is_lacking(self.verbs[n], output)]
        end += f", {'some' if lack else 'no'} line refused"
        halted = min((n for n in lack if self.verbs[n] in SYNCS), default=len(told))
        for number, output in self.outputs(told, lack).items():
            verb = self.verbs[number]
            if number >= halted and (verb in SYNCS or not self.does_again):
                continue
            if are_alike(verb, told[number], output):
                continue
            return end, (f"line {number + 1}, {self.lines[number][:120]}: {told[number][:500]}, and "
                         f"without what was refused in {[n + 1 for n in lack]} {output[:500]}")
        return end, None


class Pulling:
    """Pulls into records, of which an allocation is refused: afterwards the records are sound, and the
    next pull takes the rest."""

    def __init__(self, program, refusing, room):
        self.program = program
        self.refusing = refusing
        self.room = room
        self.peer = peers.Honest(peers.replies_of(packages.shared(program)))
        self.source = world.description(self.peer.address)
        self.words = ["sync", "b", "up", "pull"]
        folder = self.folder()
        self.count = count_of(program, self.words, self.source, refusing, room, folder)
        self.rows = self.rows_of(folder)

    def folder(self):
        """A new folder for records."""
        return tempfile.mkdtemp(dir=self.room)

    def rows_of(self, folder):
        """The rows of the records in a folder."""
        names = [name for name in os.listdir(folder) if name.startswith("b.misp")]
        return databases.rows_of({name: peers.read(folder, name) for name in names})[1]

    def judged(self, number, is_all):
        """How a pull ended, and why it is a finding, or None."""
        folder = self.folder()
        ran = run_refused(self.program, self.words, self.source, self.refusing, number, is_all, "",
                          folder)
        end = end_of(ran.status)
        fault = None
        if ran.status not in (0, 1, 8, 10):
            fault = f"ended {end}: {ran.written[:300]} {ran.said[:300]}"
        elif ran.status in (0, 1):
            fault = peers.fault_of_line(ran)
            found = re.search(rb'"rule":(\d+)', ran.written)
            end += f", rule {found[1].decode()}" if found else ""
        elif ran.written:
            fault = f"writes {ran.written[:300]} and ends with {ran.status}"
        if ran.status == 10:
            end += ", " + ran.said.decode("utf-8", "replace").strip().rpartition(": ")[2]
        again = running.run(self.program, self.words, self.source, folder)
        if not fault and (again.status != 0 or self.rows_of(folder) != self.rows):
            fault = (f"ended {end}, and the next pull {end_of(again.status)}: {again.written[:300]} "
                     f"{again.said[:300]}")
        shutil.rmtree(folder)
        return end, fault

    def end(self):
        self.peer.end()
