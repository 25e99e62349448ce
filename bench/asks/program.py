"""Calls of a built printer. All times are of the processor, so that other work on the machine counts little."""
import json
import os
import re
import resource
import subprocess
import tempfile
from typing import NamedTuple

ANSWER = re.compile(r"(plan|none|budget|full) ")


class ProgramFault(Exception):
    """The program ended with another status than 0; the message says how."""


class Answer(NamedTuple):
    """The answer to an ask: `end` with its tick, `none`, `budget` with the tick before which no plan ends, or `full`."""

    kind: str
    tick: int | None
    records: tuple

    def text(self):
        return self.kind if self.tick is None else f"{self.kind} {self.tick}"


def answer_of(log):
    """The answer to the last event of a log, whose `plan`, `none` or `budget` is the last one."""
    lines = log[log.rindex("> ") :].split("\n")[1:]
    records = tuple(line for line in lines if re.match(r"(plan|move|none|budget|full) ", line))
    words = next(line for line in reversed(records) if ANSWER.match(line)).split(" ")
    kind = "end" if words[0] == "plan" else words[0]
    return Answer(kind, int(words[-1]) if kind in ("end", "budget") else None, records)


def seconds_spent():
    """The processor time of all programs that were called and have ended."""
    usage = resource.getrusage(resource.RUSAGE_CHILDREN)
    return usage.ru_utime + usage.ru_stime


def limit_seconds(limit):
    """A call that limits a program's processor time before it begins, or None."""
    return limit and (lambda: resource.setrlimit(resource.RLIMIT_CPU, (limit, limit)))


class Program:
    """A built printer, with a folder for the files that it reads."""

    def __init__(self, path):
        self.path = os.path.abspath(path)
        self.folder = tempfile.TemporaryDirectory()

    def file(self, name, text):
        """Writes a text into a file, and returns the file's path."""
        path = os.path.join(self.folder.name, name)
        with open(path, "w", encoding="utf-8") as file:
            file.write(text)
        return path

    def call(self, words, text, limit=None):
        """What the program writes for these words and this input. Raises ProgramFault on a status that is not 0."""
        run = subprocess.run([self.path, *words], input=text, capture_output=True, text=True, preexec_fn=limit_seconds(limit), check=False)
        if run.returncode in (-9, -24):
            raise ProgramFault(f"no end after {limit} seconds")
        if run.returncode:
            raise ProgramFault(run.stderr.strip() or f"status {run.returncode}")
        return run.stdout

    def save(self, machine, script, budget, limit=None):
        """The log with bounds of a script, and the snapshot behind it."""
        log = self.call(["save", "--bounds", "--budget", str(budget), self.file("machine.toml", machine)], script, limit)
        at = log.rindex("\n= ") if "\n= " in log else -1
        return log[: at + 1], log[at + 3 :].rstrip("\n")

    def run_and_check(self, machine, script, budget, limit=None):
        """The log with bounds of a script, the line of its check, and the seconds that both took."""
        path, begin = self.file("machine.toml", machine), seconds_spent()
        log = self.call(["run", "--bounds", "--budget", str(budget), path], script, limit)
        line = self.call(["check", path], log, limit).strip()
        return log, line, seconds_spent() - begin

    def resume(self, snapshot, line, budget, limit=None):
        """The answer to one more line after a snapshot, and the milliseconds that it took."""
        path, begin = self.file("snapshot.json", snapshot), seconds_spent()
        log = self.call(["resume", "--budget", str(budget), path], line + "\n", limit)
        return answer_of(log), (seconds_spent() - begin) * 1000

    def save_and_resume(self, machine, lines, budget, limit=None):
        """The snapshot before the last line, and the log with bounds of all lines, joined and checked; or None if a copy waits there."""
        before, snapshot = self.save(machine, "".join(lines[:-1]), budget, limit)
        if json.loads(snapshot)["waiting"]:
            return None
        words = ["resume", "--bounds", "--budget", str(budget), self.file("snapshot.json", snapshot)]
        log = before + self.call(words, lines[-1], limit)
        self.call(["check", self.file("machine.toml", machine)], log, limit)
        return snapshot, log
