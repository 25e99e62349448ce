"""Lines of scripts: events as they are written and as a log echoes them."""
import re
from typing import NamedTuple

from machine import NAME

GROUP = re.compile(r"(?:([0-9]{1,4})\*)?([-MC])([-MC]):([FB])")
LARGEST = 4_294_967_295


class Event(NamedTuple):
    """An event: its verb (`?` if the line is off the grammar), and its words as a log echoes them."""

    verb: str
    words: tuple

    def echo(self):
        return " ".join([self.verb, *self.words])


BAD = Event("?", ())


def number_of(word):
    """The value of 1 to 10 digits, or None."""
    if not re.fullmatch(r"[0-9]{1,10}", word) or int(word) > LARGEST:
        return None
    return int(word)


def group_of(word):
    """The group as an echo writes it, or None."""
    found = GROUP.fullmatch(word)
    if not found:
        return None
    count = int(found[1]) if found[1] else 1
    if not 1 <= count <= 4096:
        return None
    spec = f"{found[2]}{found[3]}:{found[4]}"
    return spec if count == 1 else f"{count}*{spec}"


def sheets_of(event):
    """The sheets of a job in order, each as its count and its three letters."""
    found = [GROUP.fullmatch(word) for word in event.words[3:]]
    return [(int(it[1] or 1), it[2], it[3], it[4]) for it in found]


def event_of(words):
    """The event of the words of a line."""
    verb, rest = words[0], words[1:]
    if verb == "job" and len(rest) >= 4:
        groups = [group_of(it) for it in rest[3:]]
        if all(groups) and all(NAME.fullmatch(it) for it in rest[:3]):
            return Event(verb, (*rest[:3], *groups))
    elif verb == "clock" and len(rest) == 1 and number_of(rest[0]) is not None:
        return Event(verb, (str(number_of(rest[0])),))
    elif verb in ("jam", "off", "on") and len(rest) == 1 and NAME.fullmatch(rest[0]):
        return Event(verb, (rest[0],))
    elif verb == "refill" and len(rest) == 2 and NAME.fullmatch(rest[0]) and number_of(rest[1]) is not None:
        return Event(verb, (rest[0], str(number_of(rest[1]))))
    return BAD


def lines_of(data):
    """The lines of a script of bytes that are no comments, each as its words."""
    lines = data.split(b"\n")
    ended = [line[:-1] if line.endswith(b"\r") else line for line in lines[:-1]]
    for line in ended + ([lines[-1]] if lines[-1] else []):
        words = [it for it in line.decode("latin-1").split(" ") if it]
        if words and not words[0].startswith("#"):
            yield words


def read_script(data):
    """The events of a script of bytes."""
    return [event_of(words) for words in lines_of(data)]
