"""The data of whole.mzn: the whole script of an ask, planned at once."""
from ask_state import Copy, JudgeAsk, Sheet, read_machine
from minizinc_data import edge_rows, hold_rows, numbered, text_of_rows
from route import Route


def can_plan_whole(machine, script):
    """Whether the script has jobs and clocks alone, and the feeders are endless."""
    return {line.split(" ")[0] for line in script.splitlines()} <= {"job", "clock"} and "[stock]" not in machine


def sheets_of(script):
    """The sheets of a script, each with its tray and the moment at which its job came."""
    now, found = 0, []
    for line in script.splitlines():
        words = line.split(" ")
        if words[0] == "clock":
            now = int(words[1])
            continue
        for group in words[4:]:
            count, _, spec = group.rpartition("*")
            found += [(Sheet(words[3], spec[0], spec[1], spec[3]), words[2], now)] * int(count or 1)
    return found


def whole_data(machine, script, latest):
    """The text of the data of a script, whose last sheet is to end by `latest`."""
    whole, sheets = Whole(read_machine(machine.encode("utf-8"))), sheets_of(script)
    for number, (sheet, tray, now) in enumerate(sheets):
        # Ends rise along the line, so an earlier sheet ends a tick sooner at least.
        whole.add(sheet, tray, now, latest - (len(sheets) - 1 - number))
    return text_of_rows(whole.rows(latest))


class Whole:
    """Sheets whose routes are numbered on from sheet to sheet."""

    def __init__(self, machine):
        self.machine, self.sheets, self.edges, self.layers, self.own, self.slots, self.meetings = machine, [], [], [], [], [], []
        self.states = self.points = 0
        self.step_points = []

    def add(self, sheet, tray, now, latest):
        """Adds a sheet that may start after its job came and ends by `latest`."""
        route = Route(self.machine, JudgeAsk(Copy(0, 1, 1), sheet, tray, None, set(), set(), now))
        floor = now + self.machine.lead + 1
        route.limit(floor, latest)
        edges, slots, steps = len(self.edges), len(self.slots), len(self.layers)
        self.sheets.append((self.points, self.points + len(route.layers), floor, {it + self.states for it in route.starts}, route.goal + self.states))
        self.edges += [it._replace(source=it.source + self.states, target=it.target + self.states) for it in route.edges]
        self.layers += [{it + edges for it in layer} for layer in route.layers]
        self.slots += [(step + steps, own + len(self.own)) for step, own in route.slots]
        self.meetings += [(one + slots, two + slots) for one, two in route.meetings()]
        self.own += [(hold, [it + edges for it in its]) for hold, its in route.own]
        self.meetings += [(one, two) for one in range(slots) for two in range(slots, len(self.slots)) if self.hold(one).resource == self.hold(two).resource]
        self.step_points += [self.points + step for step in range(len(route.layers))]
        self.states += len(route.to_go)
        self.points += len(route.layers) + 1

    def hold(self, slot):
        return self.own[self.slots[slot][1]][0]

    def rows(self, latest):
        firsts, lasts, floors, starts, goals = zip(*self.sheets)
        resources = list(self.machine.resources)
        return {
            "SHEETS": len(self.sheets), "STATES": self.states, "EDGES": len(self.edges), "STEPS": len(self.layers), "POINTS": self.points,
            "latest": latest, "first_point": [it + 1 for it in firsts], "last_point": [it + 1 for it in lasts], "floor": list(floors),
            "starts": [numbered(it) for it in starts], "goal": [it + 1 for it in goals],
            "step_point": [it + 1 for it in self.step_points], "layer": [numbered(it) for it in self.layers], **edge_rows(self.edges),
            **hold_rows(self.own, resources), "RESOURCES": len(resources), "gap": [self.machine.gaps[it] for it in resources],
            "SLOTS": len(self.slots), "slot_step": [step + 1 for step, _ in self.slots], "slot_own": [own + 1 for _, own in self.slots],
            "MEETINGS": len(self.meetings), "one": [one + 1 for one, _ in self.meetings], "two": [two + 1 for _, two in self.meetings],
        }
