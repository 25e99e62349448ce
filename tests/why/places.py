"""Judges an answer of `why machine` by the text alone: whether what it names stands there, and is wrong.

It knows the answers from docs/why.md, and the rules from docs/formats.md.
"""
import re

NAME = re.compile(r"[A-Za-z0-9_-]{1,32}\Z", re.ASCII)
SENTENCE = re.compile(
    r"rule (?P<rule>\d+): "
    r"(?:action (?P<action>\d+) (?P<name>\"[^\n]*?\"|a text with control characters)(?:, hold (?P<hold>\d+))?(?:, | (?=may )|(?=: )|(?= is not a table))?)?"
    r"(?P<rest>[^\n]*)\n\Z"
)


class Wrong(Exception):
    pass


def text_at(table, key):
    value = table.get(key) if isinstance(table, dict) else None
    return value if isinstance(value, str) else ""


def texts(table, key):
    value = table.get(key)
    return [it if isinstance(it, str) else "" for it in value] if isinstance(value, list) else []


def keys(table, key):
    value = table.get(key)
    return sorted(value, key=str.encode) if isinstance(value, dict) else []


def quoted(text):
    return "a text with control characters" if any(ord(it) < 32 or ord(it) == 127 for it in text) else f'"{text}"'


def shown(value):
    if isinstance(value, bool):
        return "true" if value else "false"
    if isinstance(value, str):
        return quoted(value)
    if isinstance(value, int):
        return str(value)
    if isinstance(value, float):
        return "a float"
    if isinstance(value, list):
        return f"an array of {len(value)} values"
    if isinstance(value, dict):
        return f"a table of {len(value)} keys"
    return "a date"


def is_whole(value, low, high):
    return isinstance(value, int) and not isinstance(value, bool) and low <= value <= high


def is_point(value):
    return isinstance(value, list) and len(value) == 2 and value[0] in ("start", "end") and isinstance(value[0], str) and is_whole(value[1], -8192, 8192)


TOP = "format lead window budget locations modules trays purge feeders resources actions gaps stock".split()
NOUNS = {
    "a key of a machine text": lambda t, it: it in TOP,
    "a key of an action": lambda t, it: it in "name module from to least most prints flip holds".split(),
    "a key of a hold": lambda t, it: it in "resource begin end mode".split(),
    "a name of 1 to 32 letters, digits, _ or -": lambda t, it: bool(NAME.match(it)),
    "a location": lambda t, it: it in texts(t, "locations"),
    "a module": lambda t, it: it in texts(t, "modules"),
    "a resource": lambda t, it: it in keys(t, "resources"),
    "a tray": lambda t, it: it in texts(t, "trays"),
    "a purge tray": lambda t, it: it in texts(t, "purge"),
    "a feeder": lambda t, it: it in keys(t, "feeders"),
    "a location apart from the trays": lambda t, it: it in texts(t, "locations") and it not in texts(t, "trays"),
    "a location apart from the trays and purge trays": lambda t, it: it in texts(t, "locations") and it not in texts(t, "trays") + texts(t, "purge"),
    "mono or colour": lambda t, it: it in ("mono", "colour"),
}


def is_wrong(table, value, phrase):
    """Whether the phrase is true of the value."""
    if phrase.startswith("is not ") and phrase[7:] in NOUNS:
        return not (isinstance(value, str) and NOUNS[phrase[7:]](table, value))
    if phrase.startswith("is ") and phrase[3:] in NOUNS:
        return isinstance(value, str) and NOUNS[phrase[3:]](table, value)
    if whole := re.match(r"is not a whole number from (-?\d+) to (-?\d+)\Z", phrase):
        return not is_whole(value, int(whole[1]), int(whole[2]))
    if items := re.match(r"is not an array of (\d+) to (\d+) values\Z", phrase):
        return not (isinstance(value, list) and int(items[1]) <= len(value) <= int(items[2]))
    if most := re.match(r"is not a table of at most (\d+) keys\Z", phrase):
        return not (isinstance(value, dict) and len(value) <= int(most[1]))
    simple = {
        "is not an array of at least one value": lambda: not (isinstance(value, list) and value),
        "is not a table of at least one key": lambda: not (isinstance(value, dict) and value),
        "is not an array": lambda: not isinstance(value, list),
        "is not a table": lambda: not isinstance(value, dict),
        "is not true or false": lambda: not isinstance(value, bool),
        "is not start or end with a whole number from -8192 to 8192": lambda: not is_point(value),
        "needs format = 2": lambda: table.get("format") != 2,
    }
    if phrase not in simple:
        raise Wrong(f"no such phrase: {phrase}")
    return simple[phrase]()


def judge_twice(table, owner, siblings, key, value):
    """Whether another action, hold or value has the same text."""
    if siblings is None:
        return [it if isinstance(it, str) else "" for it in owner[key]].count(value) > 1
    return [text_at(it, key) for it in siblings].count(value) > 1


def point(hold, key, least, most):
    """The ticks of an end of the hold, for the least and the most duration."""
    anchor, offset = hold[key]
    return (offset, offset) if anchor == "start" else (least + offset, most + offset)


def judge_hold(action, hold, phrase):
    least, most = action["least"], action["most"]
    begin, end = point(hold, "begin", least, most), point(hold, "end", least, most)
    if phrase == "may begin before its action starts":
        return min(begin) < 0
    if phrase == "may end before it has begun, or as it begins":
        return begin[0] >= end[0] or begin[1] >= end[1]
    raise Wrong(f"no such phrase: {phrase}")


def owner_of(table, found):
    """The action or hold that the sentence names, or the text, with those beside it."""
    if not found["action"]:
        return table, None
    actions = table["actions"]
    action = actions[int(found["action"]) - 1]
    if found["name"] != quoted(text_at(action, "name")):
        raise Wrong("another name of the action")
    if not found["hold"]:
        return action, actions
    return action["holds"][int(found["hold"]) - 1], action["holds"]


def judge_value(table, owner, siblings, rest):
    """Judges what is said of a value: KEY, KEY, item N, or KEY, key "K"."""
    place, value_text = rest.split(": ", 1)
    key, _, more = place.partition(", ")
    value = owner[key]
    single = siblings
    if number := re.match(r"item (\d+)\Z", more):
        value, single = value[int(number[1]) - 1], None
    elif more:
        named = [it for it in value if more == f"key {quoted(it)}"]
        value, single = value[named[0]], None
    text = shown(value)
    if not value_text.startswith(text + " "):
        raise Wrong(f"not the value that stands there: {text}")
    phrase = value_text[len(text) + 1:]
    if phrase == "stands twice":
        return judge_twice(table, owner, single, key, value)
    if phrase == "is less than least":
        return value < owner["least"]
    return is_wrong(table, value, phrase)


def judge_key(table, owner, rest):
    """Judges what is said of a key, of the table or of the table at a key."""
    match = re.match(r"(?:(?P<of>[a-z]+), )?key (?P<key>\".*\"|a text with control characters) (?P<phrase>is not .*)\Z", rest)
    if not match:
        raise Wrong("not of the grammar")
    inside = owner[match["of"]] if match["of"] else owner
    named = [it for it in inside if quoted(it) == match["key"]]
    return bool(named) and any(is_wrong(table, it, match["phrase"]) for it in named)


def judge(table, answer):
    """The rule that the answer tells. Raises `Wrong` if its place is none, or nothing is wrong there."""
    found = SENTENCE.match(answer)
    if not found:
        raise Wrong("not of the grammar")
    rest = found["rest"]
    owner, siblings = owner_of(table, found)
    if rest.endswith(" is missing"):
        right = rest.removesuffix(" is missing") not in owner
    elif rest.startswith("may "):
        right = judge_hold(table["actions"][int(found["action"]) - 1], owner, rest)
    elif rest == " is not a table":
        right = not isinstance(owner, dict)
    elif re.match(r"[a-z]+(, item \d+|, key .*)?: ", rest):
        right = judge_value(table, owner, siblings, rest)
    else:
        right = judge_key(table, owner, rest)
    if not right:
        raise Wrong("nothing is wrong there")
    return int(found["rule"])
