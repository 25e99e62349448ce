"""Changed logs: a digit, a word or a line of a log is another one."""
import re


def change_digit(draw, lines):
    at = draw.choice(chosen_lines(draw, lines))
    places = [it.start() for it in re.finditer(rb"[0-9]", lines[at])]
    if places:
        place = draw.choice(places)
        lines[at] = lines[at][:place] + b"%d" % draw.randrange(10) + lines[at][place + 1 :]


def change_number(draw, lines):
    """A number of a line becomes one more or one less."""
    at = draw.choice(chosen_lines(draw, lines))
    places = list(re.finditer(rb"(?<=[ @*/.])[0-9]{1,9}", lines[at]))
    if places:
        place = draw.choice(places)
        number = max(0, int(place[0]) + draw.choice([-1, 1]))
        lines[at] = lines[at][: place.start()] + b"%d" % number + lines[at][place.end() :]


def change_word(draw, lines):
    """A word becomes another word of the log."""
    at, other = draw.choice(chosen_lines(draw, lines)), draw.choice(lines).split()
    words = lines[at].rstrip(b"\n").split(b" ")
    words[draw.randrange(len(words))] = draw.choice(other)
    lines[at] = b" ".join(words) + b"\n"


def drop_line(draw, lines):
    del lines[draw.choice(chosen_lines(draw, lines))]


def double_line(draw, lines):
    at = draw.choice(chosen_lines(draw, lines))
    lines.insert(at, lines[at])


def swap_lines(draw, lines):
    at = draw.choice(chosen_lines(draw, lines))
    if at:
        lines[at - 1], lines[at] = lines[at], lines[at - 1]


def chosen_lines(draw, lines):
    """The places of the lines of trees, or those of the others."""
    is_tree = draw.random() < 0.6
    return [at for at, line in enumerate(lines) if line.startswith(b"b ") == is_tree] or range(len(lines))


CHANGES = [change_digit, change_number, change_number, change_word, drop_line, double_line, swap_lines]


def changed(draw, log):
    """The log with one change, perhaps two."""
    lines = log.splitlines(keepends=True)
    for _ in range(draw.choice([1, 1, 1, 2])):
        if lines:
            draw.choice(CHANGES)(draw, lines)
    return b"".join(lines)
