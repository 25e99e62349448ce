"""Machine texts, their rules, and the step of a sheet through an action."""
import re
import tomllib
from dataclasses import dataclass
from typing import NamedTuple

NAME = re.compile(r"[A-Za-z0-9_-]{1,32}")
TOP_KEYS = {"format", "lead", "window", "budget", "locations", "modules", "trays", "purge", "feeders",
            "resources", "actions", "gaps", "stock"}
ACTION_KEYS = {"name", "module", "from", "to", "least", "most", "prints", "flip", "holds"}


class MachineFault(Exception):
    """The text is no machine; the message is `not TOML` or `rule N`."""


class State(NamedTuple):
    """Where a sheet is, the side that is up (`F` or `B`), and which sides are done."""

    place: str
    up: str
    front: bool
    back: bool


class Sheet(NamedTuple):
    """What is wanted of a sheet: its medium, each side (`-`, `M` or `C`), and the side that ends up."""

    medium: str
    front: str
    back: str
    face: str


@dataclass(frozen=True)
class Hold:
    """A hold of a resource between two moments, each an offset from the action's start or end."""

    resource: str
    begin: str
    begin_offset: int
    end: str
    end_offset: int
    mode: int

    def span(self, start, end):
        """The first tick that is held, and the first tick behind them that is not."""
        anchors = {"start": start, "end": end}
        return anchors[self.begin] + self.begin_offset, anchors[self.end] + self.end_offset


@dataclass(frozen=True)
class Action:
    """An action, with the modules that it uses: its own and those of the resources that it holds."""

    name: str
    module: str
    source: str
    target: str
    least: int
    most: int
    prints: frozenset
    flip: bool
    holds: tuple
    uses: frozenset


@dataclass
class Machine:
    """A machine. Feeders and resources stand in byte order, all else in the order of the text."""

    lead: int
    window: int
    budget: int
    locations: list
    modules: list
    trays: list
    purge: list
    feeders: dict
    resources: dict
    actions: list
    gaps: dict
    stock: dict

    def __post_init__(self):
        self.action_named = {action.name: action for action in self.actions}
        self.leaving = {place: [] for place in self.locations}
        for action in self.actions:
            self.leaving[action.source].append(action)

    def gap(self, before, after):
        """The ticks that must lie between two holds of one resource, the first before the second."""
        return self.gaps[before.resource] if before.mode != after.mode else 0


def step(action, sheet, state):
    """The state after the action, or None if the action does not take the sheet from this state."""
    if action.source != state.place:
        return None
    front, back = state.front, state.back
    if action.prints:
        done, wanted = (front, sheet.front) if state.up == "F" else (back, sheet.back)
        if done or wanted not in action.prints:
            return None
        front, back = (True, back) if state.up == "F" else (front, True)
    return State(action.target, other_side(state.up) if action.flip else state.up, front, back)


def step_back(action, sheet, state):
    """The one state from which the action leads to this state, or None."""
    if action.target != state.place:
        return None
    up = other_side(state.up) if action.flip else state.up
    front, back = state.front, state.back
    if action.prints:
        front, back = (False, back) if up == "F" else (front, False)
    before = State(action.source, up, front, back)
    return before if step(action, sheet, before) == state else None


def other_side(side):
    return "B" if side == "F" else "F"


def read_machine(data):
    """The machine of a text of bytes. Raises MachineFault with the first broken rule."""
    try:
        table = tomllib.loads(data.decode("utf-8"))
    except (UnicodeDecodeError, tomllib.TOMLDecodeError) as fault:
        raise MachineFault("not TOML") from fault
    if not fits(table):
        raise MachineFault("not TOML")
    for number, rule in enumerate(RULES, 1):
        try:
            kept = rule(table)
        except (KeyError, TypeError, AttributeError, ValueError):
            kept = False
        if not kept:
            raise MachineFault(f"rule {number}")
    return machine_of(table)


def fits(value):
    """Whether each whole number has 64 bits, as TOML has them. Python reads longer ones too."""
    if isinstance(value, int):
        return -(2**63) <= value < 2**63
    inner = value.values() if isinstance(value, dict) else value if isinstance(value, list) else ()
    return all(map(fits, inner))


def machine_of(table):
    """The machine of a table that keeps all rules."""
    resources = dict(sorted(table.get("resources", {}).items()))
    return Machine(
        table.get("lead", 0), table.get("window", 2000), table.get("budget", 20000),
        table["locations"], table["modules"], table["trays"], table.get("purge", []),
        dict(sorted(table["feeders"].items())), resources,
        [action_of(item, resources) for item in table["actions"]],
        {it: table.get("gaps", {}).get(it, 0) for it in resources}, table.get("stock", {}),
    )


def action_of(item, resources):
    holds = tuple(hold_of(hold) for hold in item.get("holds", []))
    uses = frozenset([item["module"], *(resources[hold.resource] for hold in holds)])
    prints = frozenset({"mono": "M", "colour": "C"}[word] for word in item.get("prints", []))
    return Action(item["name"], item["module"], item["from"], item["to"], item["least"], item["most"],
                  prints, item.get("flip", False), holds, uses)


def hold_of(item):
    return Hold(item["resource"], *item["begin"], *item["end"], item.get("mode", 0))


# The rules, each over a table in which the rules before it hold.


def whole(value, least, most):
    return type(value) is int and least <= value <= most


def is_name(value):
    return isinstance(value, str) and NAME.fullmatch(value) is not None


def differ(values):
    return len(set(values)) == len(values)


def names(table, key, most):
    value = table[key]
    return isinstance(value, list) and 1 <= len(value) <= most and all(map(is_name, value)) and differ(value)


def places(table, key):
    value = table[key]
    return isinstance(value, list) and all(isinstance(it, str) and it in table["locations"] for it in value) and differ(value)


def number_or_absent(key, least, most):
    return lambda table: key not in table or whole(table[key], least, most)


def keys_known(table):
    return set(table) <= TOP_KEYS


def format_known(table):
    return whole(table["format"], 1, 2)


def purge_apart(table):
    return "purge" not in table or (places(table, "purge") and not set(table["purge"]) & set(table["trays"]))


def feeders_placed(table):
    ends = [*table["trays"], *table.get("purge", [])]
    feeders = table["feeders"]
    return isinstance(feeders, dict) and len(feeders) > 0 and all(it in table["locations"] and it not in ends for it in feeders)


def resources_named(table):
    value = table.get("resources", {})
    return isinstance(value, dict) and len(value) <= 256 and all(map(is_name, value))


def resources_owned(table):
    return all(isinstance(it, str) and it in table["modules"] for it in table.get("resources", {}).values())


def actions_are_tables(table):
    value = table["actions"]
    return isinstance(value, list) and 1 <= len(value) <= 512 and all(isinstance(it, dict) for it in value)


def actions_named(table):
    found = [it["name"] for it in table["actions"]]
    return all(map(is_name, found)) and differ(found)


def in_list(key, where):
    return lambda table: all(isinstance(it[key], str) and it[key] in table[where] for it in table["actions"])


def ends_known(table):
    return in_list("from", "locations")(table) and in_list("to", "locations")(table)


def ends_placed(table):
    ends = [*table["trays"], *table.get("purge", [])]
    return all(it["from"] not in ends and it["to"] not in table["feeders"] for it in table["actions"])


def durations_sound(table):
    return all(whole(it["least"], 1, 4096) and whole(it["most"], it["least"], 4096) for it in table["actions"])


def prints_known(table):
    def sound(item):
        words = item.get("prints", [])
        known = isinstance(words, list) and all(isinstance(it, str) and it in ("mono", "colour") for it in words)
        return known and differ(words) and isinstance(item.get("flip", False), bool)

    return all(map(sound, table["actions"]))


def moment_sound(value):
    is_pair = isinstance(value, list) and len(value) == 2
    return is_pair and isinstance(value[0], str) and value[0] in ("start", "end") and whole(value[1], -8192, 8192)


def hold_sound(item, table):
    keys = {"resource", "begin", "end"} | ({"mode"} if table["format"] == 2 else set())
    known = isinstance(item, dict) and {"resource", "begin", "end"} <= set(item) <= keys
    return (known and isinstance(item["resource"], str) and item["resource"] in table.get("resources", {})
            and moment_sound(item["begin"]) and moment_sound(item["end"]) and whole(item.get("mode", 0), 0, 255))


def holds_sound(table):
    def sound(item):
        holds = item.get("holds", [])
        kept = isinstance(holds, list) and len(holds) <= 4 and all(hold_sound(it, table) for it in holds)
        return kept and differ([it["resource"] for it in holds])

    return all(map(sound, table["actions"]))


def all_holds(table):
    return ((item, hold) for item in table["actions"] for hold in item.get("holds", []))


def begins_late(table):
    return all((item["least"] if hold["begin"][0] == "end" else 0) + hold["begin"][1] >= 0 for item, hold in all_holds(table))


def never_empty(table):
    def sound(item, hold):
        (begin, first), (end, last) = hold["begin"], hold["end"]
        if begin == end:
            return last > first
        return item["least"] + last > first if begin == "start" else last > item["most"] + first

    return all(sound(item, hold) for item, hold in all_holds(table))


def second_format(key, owners, most):
    def sound(table):
        if key not in table:
            return True
        value = table[key]
        return (table["format"] == 2 and isinstance(value, dict)
                and all(it in table.get(owners, {}) and whole(count, 0, most) for it, count in value.items()))

    return sound


RULES = [
    keys_known,
    format_known,
    number_or_absent("lead", 0, 4096),
    number_or_absent("window", 1, 32768),
    number_or_absent("budget", 1, 200_000),
    lambda table: names(table, "locations", 256),
    lambda table: names(table, "modules", 64),
    lambda table: len(table["trays"]) > 0 and places(table, "trays"),
    purge_apart,
    feeders_placed,
    lambda table: all(map(is_name, table["feeders"].values())),
    resources_named,
    resources_owned,
    actions_are_tables,
    lambda table: all(set(it) <= ACTION_KEYS for it in table["actions"]),
    actions_named,
    in_list("module", "modules"),
    ends_known,
    ends_placed,
    durations_sound,
    prints_known,
    holds_sound,
    begins_late,
    never_empty,
    second_format("gaps", "resources", 4096),
    second_format("stock", "feeders", 1_000_000),
]
