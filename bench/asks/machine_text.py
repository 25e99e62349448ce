"""Machine texts in the making: parts are added, and `text` writes them in the order in which they came."""


def whole(resource, mode=0):
    """A hold of a resource from an action's start to its end."""
    return resource, ("start", 0), ("end", 0), mode


def first(resource, ticks):
    """A hold of a resource for the first ticks of an action."""
    return resource, ("start", 0), ("start", ticks), 0


def last(resource, ticks):
    """A hold of a resource for the last ticks of an action."""
    return resource, ("end", -ticks), ("end", 0), 0


def past(resource, ticks, mode=0):
    """A hold of a resource from an action's start to some ticks after its end."""
    return resource, ("start", 0), ("end", ticks), mode


class MachineText:
    """A machine text in the making. Locations, modules and resources are declared by their first use."""

    def __init__(self, window):
        self.window = window
        self.locations, self.modules, self.trays, self.purge = [], [], [], []
        self.feeders, self.stock, self.gaps, self.resources, self.actions = {}, {}, {}, {}, []

    def feeder(self, location, medium, stock=None):
        self.add_location(location)
        self.feeders[location] = medium
        if stock is not None:
            self.stock[location] = stock

    def tray(self, location):
        self.add_location(location)
        self.trays.append(location)

    def purge_tray(self, location):
        self.add_location(location)
        self.purge.append(location)

    def gap(self, resource, ticks):
        self.gaps[resource] = ticks

    def add_location(self, name):
        if name not in self.locations:
            self.locations.append(name)

    def action(self, name, way, ticks, holds=(), prints=(), flip=False):
        """Adds an action. Its name is MODULE.ACTION, its way two locations, its ticks the least and the most."""
        module, _, word = name.partition(".")
        if module not in self.modules:
            self.modules.append(module)
        for location in way:
            self.add_location(location)
        for hold in holds:
            self.resources.setdefault(hold[0], module)
        self.actions.append(action_text(word, module, way, ticks, holds, prints, flip))

    def text(self):
        """The machine text."""
        head = ["format = 2", "lead = 2", f"window = {self.window}"]
        for key in ("locations", "modules", "trays", "purge"):
            head.append(f"{key} = {quoted(getattr(self, key))}")
        parts = ["\n".join(head) + "\n", table("feeders", self.feeders), table("resources", self.resources)]
        parts += [table(key, values) for key, values in (("gaps", self.gaps), ("stock", self.stock)) if values]
        return "\n".join(parts + self.actions)


def quoted(names):
    return "[" + ", ".join(f'"{name}"' for name in names) + "]"


def table(key, values):
    rows = [f"{name} = {value}" if isinstance(value, int) else f'{name} = "{value}"' for name, value in values.items()]
    return "\n".join([f"[{key}]", *rows]) + "\n"


def hold_text(hold):
    resource, begin, end, mode = hold
    tail = f", mode = {mode}" if mode else ""
    return f'{{ resource = "{resource}", begin = ["{begin[0]}", {begin[1]}], end = ["{end[0]}", {end[1]}]{tail} }}'


def action_text(name, module, way, ticks, holds, prints, flip):
    lines = [f'name = "{name}"', f'module = "{module}"', f'from = "{way[0]}"', f'to = "{way[1]}"']
    lines += [f"least = {ticks[0]}", f"most = {ticks[1]}"]
    if prints:
        lines.append(f"prints = {quoted(prints)}")
    if flip:
        lines.append("flip = true")
    if holds:
        lines.append("holds = [" + ", ".join(map(hold_text, holds)) + "]")
    return "\n".join(["[[actions]]", *lines]) + "\n"
