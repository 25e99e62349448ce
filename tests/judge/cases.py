"""Small machines and scripts, made from a generator of random numbers."""
from itertools import product

from machine import Sheet
from schedule import Copy
from script import Event
from search import Ask, steps_from, ticks_to_go


def text_of(table):
    """The machine text of a table."""
    lines = [f"{key} = {value_of(table[key])}" for key in table if key not in ("feeders", "resources", "gaps", "stock", "actions")]
    for key in ("feeders", "resources", "gaps", "stock"):
        if key in table:
            lines += [f"[{key}]", *(f"{name} = {value_of(value)}" for name, value in table[key].items())]
    for action in table["actions"]:
        lines += ["[[actions]]", *(f"{key} = {value_of(value)}" for key, value in action.items())]
    return "".join(f"{line}\n" for line in lines)


def value_of(value):
    if isinstance(value, bool):
        return "true" if value else "false"
    if isinstance(value, list):
        return "[" + ", ".join(map(value_of, value)) + "]"
    if isinstance(value, dict):
        return "{ " + ", ".join(f"{key} = {value_of(it)}" for key, it in value.items()) + " }"
    return f'"{value}"' if isinstance(value, str) else str(value)


class Maker:
    """A machine on its way. Each `make_` method adds a part."""

    def __init__(self, draw):
        self.draw = draw
        self.table = {
            "format": 2, "lead": draw.randrange(4), "window": draw.choice([draw.randrange(12, 30), draw.randrange(20, 80)]),
            "budget": draw.choice([draw.randrange(1, 21), draw.randrange(1, 21), 20_000, 20_000]),
            "locations": [], "modules": [], "trays": [], "purge": [], "feeders": {}, "resources": {}, "actions": [],
        }

    def place(self, name):
        if name not in self.table["locations"]:
            self.table["locations"].append(name)
        return name

    def module(self, name):
        if name not in self.table["modules"]:
            self.table["modules"].append(name)
        return name

    def action(self, name, source, target, least, **more):
        """Adds an action of its own module, with holds of its own resource if it has any."""
        draw = self.draw
        most = least + draw.choice([0, 0, 1, 3, 9])
        action = {"name": name, "module": self.module(name.upper()), "from": self.place(source), "to": self.place(target),
                  "least": least, "most": most, **more}
        if draw.random() < 0.6:
            action["holds"] = [self.hold(self.resource(f"r{name}"), least, most)]
            if self.table["resources"] and draw.random() < 0.2:
                other = draw.choice(list(self.table["resources"]))
                if other != action["holds"][0]["resource"]:
                    action["holds"].append(self.hold(other, least, most))
        self.table["actions"].append(action)

    def resource(self, name):
        self.table["resources"][name] = self.draw.choice(self.table["modules"])
        return name

    def hold(self, resource, least, most):
        """A hold that is never empty and never before its action, its ends of any of the four kinds."""
        draw = self.draw
        while True:
            begin, first = draw.choice(["start", "end"]), draw.randrange(-3, 4)
            end, last = draw.choice(["start", "end"]), draw.randrange(-3, 6)
            if first + (least if begin == "end" else 0) < 0:
                continue
            length = {"startend": least + last - first, "endstart": last - most - first}.get(begin + end, last - first)
            if length > 0:
                found = {"resource": resource, "begin": [begin, first], "end": [end, last]}
                return {**found, "mode": draw.randrange(3)} if draw.random() < 0.4 else found

    def feeder(self, name, medium):
        self.place(name)
        self.table["feeders"][name] = medium
        if self.draw.random() < 0.3:
            self.table.setdefault("stock", {})[name] = self.draw.randrange(5)

    def ends(self, source):
        """Trays behind a location, and perhaps a purge tray."""
        draw = self.draw
        for number in range(1, draw.choice([1, 1, 2]) + 1):
            self.action(f"out{number}", source, f"t{number}", draw.randrange(1, 8))
            self.table["trays"].append(f"t{number}")
            if draw.random() < 0.4:
                self.action(f"way{number}", source, f"t{number}", draw.randrange(1, 8))
        if draw.random() < 0.7:
            self.action("dump", source, "p1", draw.randrange(1, 4))
            self.table["purge"].append("p1")

    def gaps(self):
        chosen = [it for it in self.table["resources"] if self.draw.random() < 0.3]
        if chosen:
            self.table["gaps"] = {it: self.draw.randrange(1, 5) for it in chosen}

    def feeders(self, target):
        for number in range(1, self.draw.choice([1, 1, 2]) + 1):
            self.feeder(f"f{number}", self.draw.choice(["plain", "card"]) if number > 1 else "plain")
            self.action(f"feed{number}", f"f{number}", target, self.draw.randrange(1, 4))

    def kinds(self):
        return self.draw.choice([["mono"], ["colour"], ["mono", "colour"]])

    # The layouts.

    def engines(self):
        """Engines side by side, and perhaps a loop that turns sheets over."""
        self.feeders("a")
        for number in range(1, self.draw.randrange(2, 4)):
            flip = {"flip": True} if self.draw.random() < 0.2 else {}
            self.action(f"print{number}", "a", "b", self.draw.randrange(1, 7), prints=self.kinds(), **flip)
        if self.draw.random() < 0.4:
            self.action("turn", "b", "a", self.draw.randrange(2, 5), flip=self.draw.random() < 0.8)
        if self.draw.random() < 0.4:
            self.action("pass", "a", "b", self.draw.randrange(1, 4))
        self.ends("b")

    def grid(self):
        """Cells of two rows, each of which holds one sheet as it comes in."""
        width = self.draw.randrange(2, 4)
        self.feeders("c00")
        for row in range(2):
            for column in range(width):
                for to_row, to_column in ((row, column + 1), (1 - row, column)):
                    if to_column < width and self.draw.random() < 0.8:
                        prints = {"prints": self.kinds()} if self.draw.random() < 0.3 else {}
                        self.action(f"m{row}{column}{to_row}{to_column}", f"c{row}{column}", f"c{to_row}{to_column}",
                                    self.draw.randrange(2, 4), **prints)
        self.ends(self.place(f"c{self.draw.randrange(2)}{width - 1}"))

    def buffers(self):
        """An engine between buffers in which sheets may wait."""
        self.feeders("a")
        for number in range(1, self.draw.randrange(2, 4)):
            self.action(f"buffer{number}", "a", "b", self.draw.randrange(1, 4))
            self.table["actions"][-1]["most"] += self.draw.randrange(12)
            self.table["actions"][-1].pop("holds", None)
        self.action("print1", "b", "c", self.draw.randrange(1, 6), prints=self.kinds())
        if self.draw.random() < 0.5:
            self.action("skip", "b", "c", self.draw.randrange(1, 4))
        self.ends("c")


    def twins(self):
        """Ways of unlike lengths to one tray, on which sheets overtake one another."""
        self.feeders("a")
        self.table["trays"].append(self.place("t1"))
        for number in range(1, self.draw.randrange(2, 4)):
            self.action(f"way{number}", "a", "t1", self.draw.randrange(2, 10))
            self.table["actions"][-1]["most"] += self.draw.choice([0, 8])
        if self.draw.random() < 0.5:
            self.action("dump", "a", self.place("p1"), self.draw.randrange(1, 4))
            self.table["purge"].append("p1")

    def crowd(self):
        """A short way to each of two trays, and a window in which more sheets fit than may be live."""
        self.table |= {"window": 2_000, "budget": 20_000}
        self.feeder("f1", "plain")
        self.table.pop("stock", None)
        for number in (1, 2):
            self.action(f"go{number}", "f1", f"t{number}", self.draw.randrange(1, 4))
            self.table["trays"].append(f"t{number}")


def make_machine(draw):
    """The text of a small machine."""
    maker = Maker(draw)
    draw.choice([maker.engines, maker.engines, maker.grid, maker.buffers, maker.twins])()
    maker.gaps()
    return text_of(maker.table)


def make_crowded_machine(draw):
    """The text of a machine on which as many sheets as allowed are soon live."""
    maker = Maker(draw)
    maker.crowd()
    return text_of(maker.table)


def ways_of(machine):
    """The kinds of sheets that the machine can make with nothing out: each as its SPEC, tray and medium."""
    for medium, tray in product(sorted(set(machine.feeders.values())), machine.trays):
        for front, back, face in product("-MC", "-MC", "FB"):
            ask = Ask(Copy(0, 1, 1), Sheet(medium, front, back, face), tray, None, set(), set(), 0)
            to_go = ticks_to_go(machine, ask, steps_from(machine, ask))
            if any(to_go.get(it, machine.window) + machine.lead < machine.window for it in ask.starts(machine)):
                yield f"{front}{back}:{face}", tray, medium


class Story:
    """The events of a script on a machine, one after another."""

    def __init__(self, draw, machine):
        self.draw, self.machine = draw, machine
        self.now, self.jobs, self.out = 0, 0, []
        self.ways = list(ways_of(machine))

    def group(self, wants):
        """A group of sheets that there is a way for, or now and then one for which there is none."""
        count = self.draw.choice([1, 1, 2, 4])
        spec = self.draw.choice(wants) if wants and self.draw.random() < 0.93 else "".join(self.draw.choices("-MC", k=2)) + ":F"
        return spec if count == 1 else f"{count}*{spec}"

    def job(self):
        draw = self.draw
        self.jobs += 1
        tray, medium = draw.choice(self.machine.trays), draw.choice(list(self.machine.feeders.values()))
        wants = [spec for spec, *ends in self.ways if ends == [tray, medium]]
        groups = [self.group(wants) for _ in range(draw.choice([1, 1, 2]))]
        return Event("job", (f"j{self.jobs}", tray, medium, *groups))

    def clock(self):
        self.now += self.draw.choices([0, 1, 2, 4, 9, 30, 200], [1, 5, 6, 6, 4, 2, 1])[0]
        return Event("clock", (str(self.now),))

    def outage(self):
        module = self.draw.choice([it.module for it in self.machine.actions])
        verb = self.draw.choice(["jam", "jam", "jam", "off"])
        self.out.append(module)
        return Event(verb, (module,))

    def back(self):
        return Event("on", (self.out.pop(self.draw.randrange(len(self.out))),)) if self.out else self.clock()

    def refill(self):
        return Event("refill", (self.draw.choice(list(self.machine.feeders)), str(self.draw.randrange(4))))

    def refused(self):
        return self.draw.choice([
            Event("job", ("j1", self.machine.trays[0], "plain", "M-:F")), Event("job", ("jx", "nowhere", "plain", "M-:F")),
            Event("job", ("jy", self.machine.trays[0], "paper", "M-:F")), Event("clock", (str(max(0, self.now - 1)),)),
            Event("jam", ("NONE",)), Event("on", (self.machine.modules[0],)), Event("?", ()), Event("refill", ("none", "1")),
            Event("clock", ("1000000001",)), Event("refill", (next(iter(self.machine.feeders)), "1000000")),
        ])

    def rushes(self):
        """The kinds of sheets for trays that several modules lead to, each with one of these modules."""
        for spec, tray, medium in self.ways:
            lasts = sorted({it.module for it in self.machine.actions if it.target == tray})
            if len(lasts) > 1:
                yield from ((spec, tray, medium, module) for module in lasts)

    def rush(self, spec, tray, medium, module):
        """A job of many sheets, and a jam in a module that leads to its tray while some of them are on their way."""
        self.jobs += 1
        self.now += self.draw.randrange(3, 18)
        self.out.append(module)
        job = Event("job", (f"j{self.jobs}", tray, medium, f"{self.draw.randrange(4, 9)}*{spec}"))
        return [job, Event("clock", (str(self.now),)), Event("jam", (module,))]

    def events(self, count):
        rushes = list(self.rushes())
        made = self.rush(*self.draw.choice(rushes)) if rushes and self.draw.random() < 0.5 else [self.job()]
        while len(made) < count:
            kinds = [self.job, self.clock, self.outage, self.back, self.refill, self.refused]
            rest = 1 + 6 * len(self.out)
            made.append(self.draw.choices(kinds, [4, 10, 4, rest, 1, 1])[0]())
        return made

    def crowded_events(self):
        """Jobs of more sheets than may be live, and moves of the clock that make room for some."""
        draw = self.draw
        first, second = draw.sample(self.machine.trays, 2)
        ticks = sorted(draw.sample(range(1, 16), 2))
        jobs = [("j1", first, f"{draw.randrange(200, 254)}*--:F"), ("j2", second, "60*--:F"), ("j3", first, "4*--:F")]
        made = [Event("job", (name, tray, "plain", group)) for name, tray, group in jobs]
        return [*made[:2], Event("clock", (str(ticks[0]),)), made[2], Event("clock", (str(ticks[1]),))]


def make_events(draw, machine):
    """The events of a script for a machine."""
    return Story(draw, machine).events(draw.randrange(5, 18))


def make_crowded_events(draw, machine):
    """The events of a script for a crowded machine."""
    return Story(draw, machine).crowded_events()
