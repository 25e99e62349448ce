"""The schedule that a log tells up to a moment, and the parts that its picture has to have, by docs/chart.md alone."""
from dataclasses import dataclass, field
from typing import NamedTuple

from log import read_log
from script import sheets_of

CLOCK_END = 1_000_000_000
COLOURS = 8
# So many ticks are drawn, if nothing else is asked for.
MOST_TICKS = 5000


class Bar(NamedTuple):
    """A bar on a row, from a tick up to another one, and how it is drawn."""

    row: int
    begin: int
    end: int
    title: str
    colour: int
    is_released: bool
    is_crossed: bool
    is_striped: bool


class Outage(NamedTuple):
    """When a module was out, and why; an open end is None."""

    module: str
    kind: str
    begin: int
    end: int | None


@dataclass
class Way:
    """The way of a copy: action i runs from point i to point i + 1."""

    copy: str
    actions: list
    points: list
    place: str
    released: int = 0
    is_lost: bool = False
    done: int | None = None

    def cut(self, now):
        """Leaves the actions that have started, all of them released."""
        count = sum(tick <= now for tick in self.points[:-1])
        self.actions, self.points, self.released = self.actions[:count], self.points[: count + 1], count


@dataclass
class Schedule:
    """The ways of copies in the order of their plans, the moment, when which module was out, and the copies that wait."""

    now: int = 0
    ways: dict = field(default_factory=dict)
    outs: list = field(default_factory=list)
    waiting: set = field(default_factory=set)

    def tell_event(self, event, is_refused):
        if is_refused:
            return
        if event.verb == "clock" and self.now <= int(event.words[0]) <= CLOCK_END:
            self.now = int(event.words[0])
        elif event.verb == "job":
            count = sum(it[0] for it in sheets_of(event))
            self.waiting |= {f"{event.words[0]}.{number}.1" for number in range(1, count + 1)}
        elif event.verb in ("jam", "off"):
            self.go_out(event.words[0], event.verb)
        elif event.verb == "on":
            self.outs = [it._replace(end=self.now) if (it.module, it.end) == (event.words[0], None) else it for it in self.outs]

    def go_out(self, module, kind):
        if not any((it.module, it.end) == (module, None) for it in self.outs):
            self.outs.append(Outage(module, kind, self.now, None))

    def tell_record(self, words):
        kind, copy = words[0], words[1]
        if kind in ("withdraw", "again"):
            self.waiting.add(copy)
        elif kind in ("plan", "drop"):
            self.waiting.discard(copy)
        if kind == "stuck":
            self.go_out(words[2], "stuck")
        elif kind == "plan":
            self.tell_plan(copy, words[2], words[4::2], [int(it) for it in words[3::2]])
        elif kind in ("withdraw", "drop"):
            self.ways.pop(copy, None)
        elif copy in self.ways:
            self.change(self.ways[copy], kind, words[2:])

    def tell_plan(self, copy, place, actions, points):
        if copy not in self.ways:
            self.ways[copy] = Way(copy, actions, points, place)
            return
        way = self.ways[copy]
        way.actions, way.points, way.place = way.actions + actions, way.points + points[1:], place

    def change(self, way, kind, words):
        if kind == "move":
            way.points = [int(it) for it in words]
        elif kind == "release":
            way.released = int(words[0])
        elif kind == "recall":
            way.released = min(way.released, int(words[0]) - 1)
        elif kind == "done":
            way.done = int(words[1])
        elif kind in ("lost", "cut", "purge"):
            way.cut(self.now)
            way.is_lost = way.is_lost or kind == "lost"


def schedule_of(log, until=None, start=None):
    """The schedule of a log of bytes, begun with another one or none, after the last event at or before a moment, or after all."""
    schedule = start or Schedule()
    for entry in read_log(log):
        if until is not None and entry.event.verb == "clock" and until < int(entry.event.words[0]) <= CLOCK_END:
            break
        schedule.tell_event(entry.event, any(it.kind == "refused" for it in entry.records))
        for record in entry.records:
            schedule.tell_record(record.words)
    return schedule


class Wanted:
    """The parts of the picture of a schedule on a machine, from a tick on. With `by_copies` each copy has a row, else each resource and tray."""

    def __init__(self, machine, schedule, by_copies, first):
        self.machine, self.schedule, self.by_copies = machine, schedule, by_copies
        last = max((tick for way in schedule.ways.values() for tick in way.points), default=0)
        self.first = first if first is not None or last <= MOST_TICKS else last - MOST_TICKS
        # The rows of resources and modules without one, as pairs of the module and the resource, which may be None.
        self.rows = [row for module in machine.modules for row in self.rows_of(module)]
        self.ways = [it for it in schedule.ways.values() if self.first is None or any(tick > self.first for tick in it.points)]
        named = [it.copy for it in self.ways] + [bar.title for way in schedule.ways.values() for bar in self.bars_of(way, 0, ["?"])]
        self.jobs = list(dict.fromkeys(it.split(".")[0] for it in named))

    def rows_of(self, module):
        names = [name for name, owner in self.machine.resources.items() if owner == module]
        was_out = any(it.module == module and (self.first is None or it.end is None or it.end > self.first) for it in self.schedule.outs)
        return [(module, name) for name in names] or ([(module, None)] if was_out else [])

    def title(self):
        ended = [it.place in self.machine.purge for it in self.schedule.ways.values() if it.done is not None]
        lost = sum(it.is_lost for it in self.schedule.ways.values())
        begin = f", from {self.first} on" if self.first is not None else ""
        outs = "".join(f", {it.module} {it.kind}" for it in self.schedule.outs if it.end is None)
        counts = f"{len(self.schedule.waiting)} waiting, {ended.count(False)} delivered, {ended.count(True)} purged, {lost} lost"
        return f"The schedule at {self.schedule.now}{begin}{outs}: {counts}"

    def labels(self):
        if self.by_copies:
            return [it.copy for it in self.ways]
        return [*(name or module for module, name in self.rows), *(f"tray {it}" for it in self.machine.trays), *(f"purge {it}" for it in self.machine.purge)]

    def bars(self):
        row_of = {way.copy: row for row, way in enumerate(self.ways)}
        return [bar for way in self.schedule.ways.values() for bar in self.bars_of(way, row_of.get(way.copy, 0), self.jobs)]

    def holds_of(self, way):
        """The number of the action, the row, the hold and its ticks, of each hold of a way that ends behind the first tick."""
        names = [name for _, name in self.rows]
        for at, name in enumerate(way.actions):
            action = self.machine.action_named.get(name)
            for hold in action.holds if action else ():
                begin, end = hold.span(way.points[at], way.points[at + 1])
                if self.first is None or end > self.first:
                    yield at, names.index(hold.resource), hold, begin, end

    def bars_of(self, way, row, jobs):
        """The bars of a way that end behind the first tick."""
        job = way.copy.split(".")[0]
        colour = jobs.index(job) % COLOURS if job in jobs else 0
        if self.by_copies:
            for at, name in enumerate(way.actions):
                start, end = way.points[at], way.points[at + 1]
                if self.first is None or end > self.first:
                    yield Bar(row, start, end, f"{way.copy} {name} {start} to {end}", colour, at < way.released, way.is_lost, False)
            return
        for at, on, hold, begin, end in self.holds_of(way):
            action = f"action {way.points[at]} to {way.points[at + 1]}"
            title = f"{way.copy} {way.actions[at]} holds {hold.resource} {begin} to {end}, {action}"
            yield Bar(on, begin, end, title, colour, at < way.released, way.is_lost, hold.mode > 0)

    def deliveries(self):
        """The row, the tick and the title of each mark, and whether it is hollow."""
        labels = self.labels()
        for row, way in enumerate(self.ways):
            if way.done is not None and (self.first is None or way.done >= self.first):
                is_purge = way.place in self.machine.purge
                on = row if self.by_copies else labels.index(f"{'purge' if is_purge else 'tray'} {way.place}")
                yield on, way.done, f"{way.copy} in {way.place} at {way.done}", is_purge

    def bands(self, first, last):
        """The row, the first and last tick, the kind and the title of each time in which a module was out, as far as it is in the picture."""
        for it in [] if self.by_copies else self.schedule.outs:
            begin, end = max(it.begin, first), last if it.end is None else min(it.end, last)
            ticks = f"from {it.begin} on" if it.end is None else f"{it.begin} to {it.end}"
            for row, (module, _) in enumerate(self.rows):
                if module == it.module and begin < end:
                    yield row, begin, end, it.kind, f"{module} {it.kind} {ticks}"

    def changeovers(self):
        """The row, the first and last tick and the title of each changeover between two drawn holds of a resource."""
        if self.by_copies:
            return
        holds = sorted((row, begin, end, hold.mode, hold.resource) for way in self.schedule.ways.values() for _, row, hold, begin, end in self.holds_of(way))
        for (one, _, end, mode, _), (row, begin, _, next_mode, resource) in zip(holds, holds[1:]):
            begun = max(begin - self.machine.gaps[resource], end)
            if one == row and mode != next_mode and begun < begin:
                yield row, begun, begin, f"{resource} changes over {begun} to {begin}"
