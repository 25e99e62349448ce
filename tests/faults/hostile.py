"""Texts that nobody would write: sound ones changed at random, and a megabyte of one byte."""
import os
import random
import re
import sys

sys.path.append(os.path.join(os.path.dirname(os.path.dirname(os.path.abspath(__file__))), "judge"))

from judge import Judge
from log import Fault
from machine import MachineFault, read_machine

from trying import DONE, FARM, MACHINE, RACK, REJECTED, SHELF, SNAPSHOT, TOO_LONG, read, side_by_side

MEGABYTE = 1_048_576

# The longest line of a log that `check` reads.
LONGEST_LINE = 4_194_304

# How many changed texts of each kind are tried.
TEXTS = 20_000

# The program reads TOML 1.1, in which an inline table may have line ends and a last comma, and Python's reader TOML 1.0.
NEWER_TABLE = re.compile(rb",\s*\}|\{[^{}]*\n")

NUMBERS = [b"0", b"-1", b"1", b"255", b"256", b"4096", b"4097", b"65536", b"2147483647", b"2147483648", b"4294967295",
           b"4294967296", b"9223372036854775807", b"9223372036854775808", b"100000000000000000000", b"1.0", b"-0"]


def flip(draw, text):
    at = draw.randrange(len(text))
    return text[:at] + bytes([draw.randrange(256)]) + text[at + 1 :]


def cut(draw, text):
    at = draw.randrange(len(text))
    return text[:at] + text[at + draw.randrange(1, 40) :]


def double_a_line(draw, text):
    lines = text.splitlines(keepends=True)
    at = draw.randrange(len(lines))
    most = 1 + 65_536 // len(lines[at])
    return b"".join(lines[: at + 1] + [lines[at]] * min(draw.choice([1, 2, 300]), most) + lines[at + 1 :])


def swap_lines(draw, text):
    lines = text.splitlines(keepends=True)
    one, two = draw.randrange(len(lines)), draw.randrange(len(lines))
    lines[one], lines[two] = lines[two], lines[one]
    return b"".join(lines)


def change_a_number(draw, text):
    places = list(re.finditer(rb"\d+", text))
    if not places:
        return flip(draw, text)
    place = draw.choice(places)
    return text[: place.start()] + draw.choice(NUMBERS) + text[place.end() :]


def nest(draw, text):
    at = draw.randrange(len(text))
    return text[:at] + draw.choice([b"[", b"{", b"{a=", b"[[", b"\""]) * draw.choice([1, 10, 1000]) + text[at:]


CHANGES = [flip, cut, double_a_line, swap_lines, change_a_number, nest]


def changed(draw, text):
    for _ in range(draw.choice([1, 1, 1, 2, 5])):
        text = draw.choice(CHANGES)(draw, text) if text else b"\n"
    return text


def fixed():
    """A megabyte, and one byte more, of a byte that opens something."""
    return [byte * size for byte in (b"[", b"{", b"=", b"\"", b"\n", b"#", b"\0", b"\xff", b"a.") for size in (MEGABYTE // len(byte), MEGABYTE + 1)]


def ends_by(*statuses):
    """The run ends with one of these statuses."""
    return lambda text, run: None if run.status in statuses else f"status {run.status}"


def is_event(line):
    """Whether a line of a script is an event's."""
    line = line.removesuffix(b"\r").strip(b" ")
    return line != b"" and not line.startswith(b"#")


def answers_each_line(text, run):
    """The run is done and tells each event of the script, or a line is too long."""
    if run.status == TOO_LONG:
        return None
    wanted = sum(is_event(line) for line in text.split(b"\n"))
    told = sum(line.startswith(b"> ") for line in run.log.split(b"\n"))
    return None if run.status == DONE and told == wanted else f"status {run.status}, {told} events of {wanted}"


def is_too_long(log):
    return any(len(line) > LONGEST_LINE for line in log.split(b"\n"))


def agrees_with_judge(machine_text):
    """`check` accepts exactly the logs that the judge finds lawful with their trees, and prints the judge's counts of them."""
    machine = read_machine(machine_text)

    def fault(log, run):
        if is_too_long(log):
            return None if run.status == TOO_LONG else f"status {run.status} of a line that is too long"
        judge = Judge(machine, needs_trees=True)
        try:
            judge.judge(log)
        except Fault as why:
            return None if run.status == REJECTED else f"status {run.status}, and the judge finds {why}"
        counts = "{events} events {plan} plans {none} nones {budget} budgets".format_map(judge.counts)
        told = run.log.decode().strip()
        return None if run.status == DONE and told == f"accepted {counts}" else f"status {run.status}: {told}, and the judge accepts {counts}"

    return fault


def tells_the_rule(text, run):
    """The run names the first broken rule of a machine text, as the judge does."""
    if len(text) >= MEGABYTE:  # A text of one byte alone.
        wanted = TOO_LONG if len(text) > MEGABYTE else MACHINE
        return None if run.status == wanted else f"status {run.status} of {len(text)} bytes"
    if run.status not in (DONE, MACHINE):
        return f"status {run.status}"
    told = run.said.decode().strip()
    try:
        read_machine(text)
        wanted = ""
    except RecursionError:  # Python's reader of TOML goes no deeper.
        return None
    except MachineFault as fault:
        wanted = f"printer: machine: {fault}"
    if told != wanted and wanted.endswith("not TOML") and NEWER_TABLE.search(text):
        return None
    return None if told == wanted else f"{told or 'no fault'}, and the judge says {wanted or 'no fault'}"


class Kind:
    """A kind of text: sound ones, how the printer is run on one, and what is wrong with a run."""

    def __init__(self, name, sounds, run, fault):
        self.name, self.sounds, self.run, self.fault = name, sounds, run, fault


def in_a_file(program, mode, script=b""):
    """Runs a mode on a text in a file of its own."""

    def run(at, text):
        return program.run([mode, program.file(f"hostile-{at}", text)], script)

    return run


def kinds(program):
    machines = [read(f"machines/{name}.toml") for name in ("duo", "line", "loop", "rack", "tail", "tint", "twin")]
    racks = [read(f"racks/{name}.toml") for name in ("small", "duplex")]
    scripts = [read(f"scripts/{name}.txt") for name in ("duo", "line", "loop", "tail", "tint", "twin")]
    farms = [read("machines/farm.txt")]
    script = b"job j1 t plain 2*M-:F\nclock 6\njam ENG1\n"
    duo, later = "machines/duo.toml", b"job j9 t plain M-:F\nclock 100\n"
    logs = [program.log_of(duo, read("scripts/duo.txt")), program.log_of(duo, script)]
    first_lines = b"".join(read("scripts/duo.txt").splitlines(True)[:3])
    snapshots = [program.snapshot_of(duo, script), program.snapshot_of(duo, first_lines)]
    return [
        Kind("machine texts", machines, in_a_file(program, "run", script), tells_the_rule),
        Kind("rack texts", racks, in_a_file(program, "compose"), ends_by(DONE, RACK, TOO_LONG)),
        Kind("lists of farms", farms, in_a_file(program, "farm", script), ends_by(DONE, FARM, SHELF, TOO_LONG)),
        Kind("scripts", scripts, lambda at, text: program.run(["run", duo], text), answers_each_line),
        Kind("logs", logs, lambda at, text: program.run(["check", duo], text), agrees_with_judge(read(duo))),
        Kind("snapshots", snapshots, in_a_file(program, "resume", later), ends_by(DONE, SNAPSHOT, TOO_LONG)),
    ]


def hostile(program, count):
    """The printer ends each time, by a status that the text may have. Of machine texts and logs it says what the judge says."""
    for kind in kinds(program):
        draw = random.Random(kind.name)
        texts = fixed() + [changed(draw, draw.choice(kind.sounds)) for _ in range(TEXTS)]

        def wrong(numbered):
            at, text = numbered
            fault = kind.fault(text, kind.run(at, text))
            return None if fault is None else f"text {at}: {fault}"

        count.tell(kind.name, side_by_side(wrong, enumerate(texts)), len(texts))
