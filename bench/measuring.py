"""What the benchmarks share: a description, timed runs of a program, and its peak of memory."""

import os
import resource
import shutil
import subprocess
import sys

TIME = "/usr/bin/time"
TOP = os.path.dirname(os.path.dirname(os.path.realpath(__file__)))
PROGRAM = os.path.join(TOP, "crates", "misp", "out", "misp")

KEY = "A" * 40
STEP = "1700000000 " + "0" * 32
DESCRIPTION = f"""[[org]]
name = "Alpha"
uuid = "aaaaaaaa-0000-4000-8000-000000000001"

[[instance]]
name = "a"

[[key]]
instance = "a"
key = "{KEY}"
org = "Alpha"
role = "publisher"
"""


def script(*requests):
    """A description, and a line for each request by Alpha."""
    lines = (f"{STEP} req a {KEY} {request}\n" for request in requests)
    return (DESCRIPTION + "---\n" + "".join(lines)).encode()


def program(words, usage):
    """The program that the command line names, or the proved one."""
    if len(words) > 1:
        sys.exit(usage)
    path = words[0] if words else PROGRAM
    if not os.access(path, os.X_OK):
        sys.exit(f"{os.path.relpath(path)} is not there: rt ci builds it")
    return os.path.realpath(path)


def spent():
    """The seconds of processor of all processes that have ended and were waited for."""
    used = resource.getrusage(resource.RUSAGE_CHILDREN)
    return used.ru_utime + used.ru_stime


def run(words, path):
    """The seconds of processor that the words took on this file, and what they wrote to both streams."""
    with open(path, "rb") as given:
        before = spent()
        ran = subprocess.run(words, stdin=given, capture_output=True)
        taken = spent() - before
    if ran.returncode:
        sys.exit(f"{words[0]} ended with status {ran.returncode}: {ran.stderr.decode()[-300:]}")
    return taken, ran.stdout, ran.stderr


def best(words, path, runs, check):
    """The best time of several runs, each of whose output is checked."""
    times = []
    for _ in range(runs):
        taken, written, _ = run(words, path)
        check(written)
        times.append(taken)
    return min(times)


def peak(words, path):
    """The greatest resident memory in bytes, or None without GNU time."""
    if not os.access(TIME, os.X_OK):
        return None
    _, _, said = run([TIME, "-f", "%M", *words], path)
    return int(said.split()[-1]) * 1024


def connections(folder, count, each, size):
    """The microseconds of processor that a request, with a reply of so many bytes and so many on each
    connection, costs a program that does nothing else: the server's end and the client's, each the
    least of three runs, or None without a C compiler."""
    compiler = shutil.which("cc")
    if not compiler:
        return None
    built = os.path.join(folder, "connections")
    source = os.path.join(TOP, "bench", "connections.c")
    subprocess.run([compiler, "-O2", "-o", built, source], check=True)
    words = [built, str(count), str(each), str(size)]
    runs = [subprocess.run(words, check=True, capture_output=True) for _ in range(3)]
    ends = zip(*[[float(word) for word in ran.stdout.split()] for ran in runs])
    return [min(end) for end in ends]


WITHIN = """
import gdb, os
gdb.execute("set confirm off")
gdb.execute("starti net <" + os.environ["GIVEN"] + " >" + os.environ["WRITTEN"], to_string=True)
process = gdb.selected_inferior().pid
with open(f"/proc/{process}/maps") as maps:
    base = min(int(line.split("-")[0], 16) for line in maps if os.environ["PROGRAM"] in line)
stop = gdb.Breakpoint("*" + hex(base + int(os.environ["AT"], 16)))
stop.silent = True
stop.ignore_count = int(os.environ["PASSED"])
while gdb.selected_inferior().pid:
    gdb.execute("continue", to_string=True)
    if gdb.selected_inferior().pid:
        with open(f"/proc/{process}/schedstat") as told:
            print("at", told.read().split()[0], flush=True)
"""


def within(program, path, passed, written):
    """The seconds of processor of each request of a script but for the last one and the first
    `passed`, measured in one run by gdb, which stops it where a request is answered. What the run
    writes is left in `written`."""
    listed = subprocess.run(["nm", program], capture_output=True, text=True, check=True).stdout
    at = next((line.split()[0] for line in listed.splitlines() if "answering::answer" in line), None)
    if at is None:
        sys.exit("the program has no symbol of misp_api::answering::answer")
    code = save(os.path.dirname(path), "within.py", WITHIN.encode())
    told = {"GIVEN": path, "WRITTEN": written, "PROGRAM": os.path.realpath(program), "AT": at}
    ran = subprocess.run(
        ["gdb", "-batch", "-nx", "-ex", f"source {code}", os.path.realpath(program)],
        env={**os.environ, **told, "PASSED": str(passed)},
        capture_output=True,
        text=True,
    )
    stamps = [int(line.split()[1]) for line in ran.stdout.splitlines() if line.startswith("at ")]
    return [(after - before) / 1e9 for before, after in zip(stamps, stamps[1:])]


def save(folder, name, content):
    """A file of this content."""
    path = os.path.join(folder, name)
    with open(path, "wb") as file:
        file.write(content)
    return path


def verdict(name, value, aim):
    """One line: a figure, its aim, and whether it is met."""
    print(f"{name} {value:.1f}, aim {aim}: {'met' if value <= aim else 'missed'}")
