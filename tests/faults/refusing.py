"""Each call of a run to the C library is refused in turn: allocations, opens, reads and writes."""
import os
import subprocess
from dataclasses import dataclass

from trying import DONE, MEMORY, SHELF, SINK, SOURCE, Run, at_top, read, side_by_side

TWO_SHEETS = b"job j1 t plain 2*M-:F\n"

JAM = b"job j1 t plain M-:F\nclock 6\njam ENG2\noff ENG2\non ENG2\non ENG2\njam X\n"

LATER = b"job j2 t plain 2*M-:F\nclock 40\n"


@dataclass
class Case:
    """Words and a script whose run ends well."""

    name: str
    words: list[str]
    script: bytes


def cases(program):
    duo = "machines/duo.toml"
    return [
        Case("two sheets", ["run", duo], TWO_SHEETS),
        Case("two sheets with bounds", ["run", duo, "--bounds"], TWO_SHEETS),
        Case("a jam", ["run", duo], JAM),
        Case("a jam with bounds", ["run", duo, "--bounds"], JAM),
        Case("a log is checked", ["check", duo], program.log_of(duo, JAM)),
        Case("a script is saved", ["save", duo], JAM),
        Case("a saved script goes on", ["resume", program.file("snapshot", program.snapshot_of(duo, JAM))], LATER),
        Case("a rack is composed", ["compose", "racks/small.toml"], b""),
        Case("a farm", ["farm", "machines/farm.txt"], read("scripts/farm.txt")),
    ]


def shim(program):
    """The library that refuses calls, built anew."""
    path = os.path.join(program.folder, "refuse.so")
    if not os.path.exists(path):
        source = at_top("tests/faults/refuse.c")
        subprocess.run(["cc", "-O1", "-shared", "-fPIC", "-o", path, source], check=True)
    return path


class Refused:
    """Runs of a case with one call of a kind refused, or cut short to a byte."""

    def __init__(self, program, case, kind, short=False):
        self.program, self.case = program, case
        self.env = {"LD_PRELOAD": shim(program), "REFUSE": kind}
        if short:
            self.env["REFUSE_SHORT"] = "1"

    def at(self, number, told=None) -> Run:
        env = {**self.env, "REFUSE_AT": str(number)}
        if told:
            env["REFUSE_TOLD"] = told
        return self.program.run(self.case.words, self.case.script, env)

    def calls(self):
        """How many calls a run without a refusal makes, and its log."""
        told = os.path.join(self.program.folder, "calls")
        sound = self.at(0, told)
        with open(told) as file:
            return int(file.read()), sound


def ends_so(run, sound, statuses, whole_lines):
    """What is wrong with a run whose call was refused, or None: it may be done, or end with one of these statuses behind a part
    of the log."""
    if run.status == DONE and run.log == sound.log:
        return None
    if run.status not in statuses:
        return f"status {run.status}"
    if not sound.log.startswith(run.log):
        return "the log is no part of the whole one"
    if whole_lines and run.log and not run.log.endswith(b"\n"):
        return "a line is cut"
    return None


def try_all(program, count, case, kind, statuses, short=False, whole_lines=True):
    refused = Refused(program, case, kind, short)
    calls, sound = refused.calls()
    if sound.status != DONE:
        count.tell(f"{kind}: {case.name}", [f"status {sound.status} with no refusal"], 1)
        return

    def wrong(number):
        fault = ends_so(refused.at(number), sound, statuses, whole_lines)
        return None if fault is None else f"{kind} {number}: {fault}"

    how = "cut short" if short else "refused"
    wrongs = side_by_side(wrong, range(1, calls + 1))
    count.tell(f"{kind} {how}: {case.name}", wrongs, calls)


def allocations(program, count):
    """Each allocation is refused: the run ends with want of memory behind whole lines of the log, or is done."""
    for case in cases(program):
        try_all(program, count, case, "alloc", {MEMORY})


def calls(program, count):
    """Each open, read and write is refused, and each read and write moves a byte alone."""
    for case in cases(program):
        try_all(program, count, case, "open", {SHELF})
        try_all(program, count, case, "read", {SHELF, SOURCE})
        try_all(program, count, case, "write", {SINK}, whole_lines=False)
        try_all(program, count, case, "read", set(), short=True)
        try_all(program, count, case, "write", set(), short=True)
