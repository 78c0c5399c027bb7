"""What every kind of fuzzing shares: bounded runs of the program, and findings that are kept."""

import os
import shlex
import subprocess

TOP = os.path.dirname(os.path.dirname(os.path.realpath(__file__)))
BOUND = 60  # seconds that one run may take
SANITIZED = {"ASAN_OPTIONS": "detect_leaks=0:allocator_may_return_null=1:exitcode=99"}


class Ran:
    """How a run ended: its status, which is None where it took too long, and both its streams."""

    def __init__(self, status, written, said):
        self.status = status
        self.written = written
        self.said = said


def run(program, words, source, folder=None, bound=BOUND):
    """A run of the program with these words, which reads this source."""
    environment = {**os.environ, **SANITIZED}
    try:
        ran = subprocess.run(
            [program, *words], input=source, capture_output=True, cwd=folder, env=environment,
            timeout=bound,
        )
    except subprocess.TimeoutExpired as late:
        return Ran(None, late.stdout or b"", late.stderr or b"")
    return Ran(ran.returncode, ran.stdout, ran.stderr)


def crash(ran, statuses):
    """Why the end of a run is a finding, whatever it wrote, or None."""
    if ran.status is None:
        return f"no end within {BOUND} seconds"
    if b"AddressSanitizer" in ran.said or b"runtime error" in ran.said:
        return "the sanitizer reports: " + ran.said[:300].decode("utf-8", "replace")
    if ran.status < 0:
        return f"ended by signal {-ran.status}"
    if ran.status not in statuses:
        return f"ended with status {ran.status}: " + ran.said[-300:].decode("utf-8", "replace")
    return None


class Findings:
    """The findings of one call, each a folder with the files that show it again."""

    LIMIT = 20

    def __init__(self, folder, name):
        self.folder = folder
        self.name = name
        self.reasons = []

    def keep(self, reason, words, files):
        """Keeps one finding: why it is one, the words of the program, and its files."""
        self.reasons.append(reason)
        path = os.path.join(self.folder, f"{self.name}-{len(self.reasons)}")
        os.makedirs(path, exist_ok=True)
        for name, content in files.items():
            with open(os.path.join(path, name), "wb") as file:
                file.write(content)
        with open(os.path.join(path, "why"), "w", encoding="utf-8") as file:
            file.write(f"{shlex.join(words)}\n{reason}\n")

    def is_full(self):
        return len(self.reasons) >= self.LIMIT


def shrunk(lines, is_shown):
    """The lines without all those that a finding does not need: `is_shown` says of some of them
    whether they still show it."""
    size = max(1, len(lines) // 2)
    while True:
        at = 0
        while at < len(lines):
            fewer = lines[:at] + lines[at + size:]
            if is_shown(fewer):
                lines = fewer
            else:
                at += size
        if size == 1:
            return lines
        size //= 2
