"""Records that are cut or have other bytes, and sound pages whose rows have other bytes."""

import os
import sqlite3
import tempfile

import mutating
import packages
import peers
import running

STATUSES = (0, 1, 8, 10, 11)
FRAME = 32 + 24 + 4096  # bytes of a log that has a frame


def rows_of(files):
    """The statement of the table that records have, and its rows."""
    with tempfile.TemporaryDirectory() as folder:
        peers.write(folder, files)
        with sqlite3.connect(os.path.join(folder, "b.misp")) as base:
            told = base.execute("SELECT sql FROM sqlite_master WHERE type = 'table'").fetchone()
            return told[0], base.execute("SELECT event, kind, name, bytes FROM kept_row").fetchall()


def base_of(created, rows):
    """A file of records with these rows, as the C library writes it."""
    with tempfile.TemporaryDirectory() as folder:
        path = os.path.join(folder, "b.misp")
        base = sqlite3.connect(path)
        base.execute(created)
        base.executemany("INSERT OR IGNORE INTO kept_row VALUES (?, ?, ?, ?)", rows)
        base.commit()
        base.close()
        return peers.read(folder, "b.misp")


def fault_of_files(before, after):
    """Why what is left of records that are refused is a finding, or None. A log without a frame may
    have another head."""
    for name, text in before.items():
        if after[name] != text and (name == "b.misp" or len(text) >= FRAME):
            return f"{name}, which is refused, has other bytes afterwards"
    return None


def has_odd_row(text):
    """Whether a file has a row that stands under no event and is none of the administration. Such
    records end with 10 as well, and no line says why."""
    with tempfile.TemporaryDirectory() as folder:
        peers.write(folder, {"b.misp": text})
        base = sqlite3.connect(os.path.join(folder, "b.misp"))
        rows = base.execute("SELECT event, kind FROM kept_row").fetchall()
        base.close()
    return any(
        kind if len(event) == 16 else event or not 0 <= kind <= 255 for event, kind in rows
    )


class Kind:
    def __init__(self, program, dice, findings):
        self.program = program
        self.dice = dice
        self.findings = findings
        shared = packages.shared(program)
        self.whole = peers.replies_of(shared)
        self.files = [peers.records(program, shared, is_killed) for is_killed in (False, True)]
        self.created, self.rows = rows_of(self.files[0])

    def damaged(self):
        """The files, of which one or more have other bytes or an end that is cut."""
        files = dict(self.dice.choice(self.files))
        for name in self.dice.sample(list(files), self.dice.choice([1, 1, len(files)])):
            ways = [mutating.flipped, mutating.cut, packages.refielded, mutating.doubled]
            files[name] = mutating.mutated(self.dice, files[name], ways)
        return files

    def other_rows(self):
        """A file in which a row or its name has other bytes."""
        rows = [list(row) for row in self.rows]
        for row in self.dice.sample(rows, self.dice.choice([1, 1, 2])):
            column = self.dice.choice([3, 3, 3, 3, 0, 1, 2])
            if column == 1:
                row[1] = self.dice.choice([0, 1, 2, 255, 256, -1, 2**63 - 1])
            else:
                row[column] = mutating.mutated(self.dice, row[column], packages.WAYS)
        return {"b.misp": base_of(self.created, rows)}

    def fault(self, files):
        """Why these records are a finding, or None."""
        with tempfile.TemporaryDirectory() as folder:
            peers.write(folder, files)
            ran = peers.synchronise(self.program, folder, self.whole, form=peers.Honest)
            fault = running.crash(ran, STATUSES)
            if fault:
                return fault
            if ran.status in (0, 1):
                return peers.fault_of_line(ran)
            if ran.written:
                return f"writes {ran.written[:200]} and ends with {ran.status}"
            if ran.status == 10 and not ran.said.startswith(b"misp: b.misp: "):
                if b"b.misp-wal" in files or not has_odd_row(files["b.misp"]):
                    return f"says {ran.said[:200]}"
            if ran.status == 10:
                return fault_of_files(files, {name: peers.read(folder, name) for name in files})
            return None

    def round(self):
        """Tries one set of records."""
        files = self.damaged() if self.dice.random() < 0.5 else self.other_rows()
        fault = self.fault(files)
        if fault:
            told = {"replies": peers.told_of(self.whole)}
            self.findings.keep(fault, ["sync", "b", "up", "pull"], {**files, **told})
        return 1
