"""Logs as texts: events, records and the lines of bound trees, read exactly as they are written."""
import re
from dataclasses import dataclass, field

from script import BAD, LARGEST, event_of

NAME = r"[A-Za-z0-9_-]{1,32}"
NUMBER = r"(?:0|[1-9][0-9]{0,9})"
COPY = rf"{NAME}\.{NUMBER}\.{NUMBER}"
STATE = rf"{NAME}:[FB][01][01]"
POINT = rf"(?:\*{NUMBER}|{COPY}@{NUMBER})"
HOLD = rf"(?:\*/{NUMBER}|{COPY}/{NUMBER})"
HOP = rf"(?:d:{POINT}|l:{POINT}|{NAME}:{HOLD}>{HOLD})"
CLOSE = rf"(?:split|dead|chain {POINT}(?: {HOP})*|loop {POINT}(?: {HOP})+)"
HEAD = rf"(?:goal {STATE}|act {NAME}|at {NAME} {NUMBER} {NUMBER}|stop)"
GOAL = rf"(?:\*|{NAME})"
CAUSE = (rf"(?:syntax|waiting|end|back {NUMBER}|(?:tray|media|named|module|out|noton|feeder|endless|stock) {NAME})")

RECORD = re.compile("|".join([
    rf"plan {COPY} {NAME} {NUMBER}(?: {NAME} {NUMBER})+",
    rf"move {COPY} {NUMBER}(?: {NUMBER})+",
    rf"none {COPY} {GOAL}",
    rf"budget {COPY} {GOAL} {NUMBER}",
    rf"(?:full|lost|withdraw|cut|purge|again|drop) {COPY}",
    rf"release {COPY} {NUMBER} {NAME} {NUMBER} {NUMBER}",
    rf"done {COPY} {NAME} {NUMBER}",
    rf"recall {COPY} {NUMBER}",
    rf"stuck {COPY} {NAME}",
    rf"broken {NAME}",
    rf"refused {CAUSE}",
]))
ROOM = re.compile(rf"b room ({STATE}) ({NUMBER})")
NODE = re.compile(rf"b ({NUMBER}) ({HEAD}) ({CLOSE})")


class Fault(Exception):
    """What is wrong with a log, and the line where it is wrong, counted from 1."""

    def __init__(self, line, why):
        super().__init__(f"line {line}: {why}")
        self.line, self.why = line, why


@dataclass
class Record:
    """A record with its words, and the lines of the bound tree that stand directly behind it."""

    line: int
    text: str
    tree: list = field(default_factory=list)

    @property
    def words(self):
        return self.text.split(" ")

    @property
    def kind(self):
        return self.words[0]


@dataclass
class Entry:
    """An event of a log with its records."""

    line: int
    event: object
    records: list = field(default_factory=list)


def read_log(data):
    """The entries of a log of bytes. Raises Fault at the first line that is off the grammar."""
    entries = []
    lines = data.split(b"\n")
    for number, line in enumerate(lines[:-1], 1):
        read_line(line.decode("latin-1"), number, entries)
    if lines[-1]:
        raise Fault(len(lines), "the last line has no LF")
    return entries


def read_line(text, number, entries):
    if text.startswith("> "):
        entries.append(Entry(number, event_echoed(text[2:], number)))
    elif not entries:
        raise Fault(number, "the first line is no event")
    elif text.startswith("b "):
        add_tree_line(text, number, entries[-1])
    else:
        if not RECORD.fullmatch(text):
            raise Fault(number, "no line of a log")
        check_numbers(text, number)
        entries[-1].records.append(Record(number, text))


def event_echoed(echo, number):
    event = BAD if echo == "?" else event_of([it for it in echo.split(" ") if it] or ["?"])
    if event.echo() != echo:
        raise Fault(number, "no event as it is printed")
    return event


def add_tree_line(text, number, entry):
    if not entry.records or entry.records[-1].kind not in ("plan", "move", "none"):
        raise Fault(number, "a tree stands behind a plan, a move or a none alone")
    tree = entry.records[-1].tree
    is_row = ROOM.fullmatch(text)
    if not is_row and not NODE.fullmatch(text):
        raise Fault(number, "no line of a tree")
    if is_row and tree and not ROOM.fullmatch(tree[-1][1]):
        raise Fault(number, "a room row behind a node")
    check_numbers(text, number)
    tree.append((number, text))


def check_numbers(text, number):
    for digits in numbers_in(text):
        if int(digits) > LARGEST:
            raise Fault(number, "a number beyond 32 bits")


def numbers_in(text):
    """The numbers of a record or of a tree's line, without the names between them."""
    words = text.split(" ")
    if words[0] == "plan":
        return numbers_of_copy(words[1]) + words[3::2]
    if words[0] == "b":
        return tree_numbers(words)
    numbers = numbers_of_copy(words[1]) if re.fullmatch(COPY, words[1]) else []
    first = {"move": 2, "budget": 3, "release": 2, "done": 3, "recall": 2, "refused": 2}.get(words[0])
    if words[0] == "release":
        return numbers + [words[2], *words[4:]]
    if words[0] == "refused":
        return words[2:] if words[1] == "back" else []
    return numbers + (words[first:] if first else [])


def numbers_of_copy(copy):
    return copy.split(".")[1:]


def tree_numbers(words):
    if words[1] == "room":
        return [words[3]]
    numbers = [words[1]]
    numbers += words[4:6] if words[2] == "at" else []
    behind = words[{"goal": 4, "act": 4, "at": 6, "stop": 3}[words[2]]:]
    for word in behind[1:]:
        parts = word.split(":")[-1].split(">")
        numbers += [it for part in parts for it in re.split(r"[.@/]", part)[1 if "." in part else 0:]]
    return [it.lstrip("*") for it in numbers if it.lstrip("*")]
