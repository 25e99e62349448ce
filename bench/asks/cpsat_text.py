"""An ask as a CpModelProto of OR-tools, in the text format of protocol buffers."""

LARGEST = 2**62


class CpModel:
    """A model in the making. A variable is its number; the literal -n - 1 is the negation of the boolean n."""

    def __init__(self):
        self.parts, self.count = [], 0

    def variable(self, name, low, high):
        self.parts.append(f'variables {{ name: "{name}" domain: [{low}, {high}] }}')
        self.count += 1
        return self.count - 1

    def boolean(self, name):
        return self.variable(name, 0, 1)

    def linear(self, terms, low, high, literals=()):
        """Asks that a sum of (coefficient, variable) lies from `low` to `high`, if all literals hold."""
        coefficients, variables = zip(*terms)
        text = f"linear {{ vars: {list(variables)} coeffs: {list(coefficients)} domain: [{low}, {high}] }}"
        self.parts.append(f"constraints {{ {enforced(literals)}{text} }}")

    def at_least(self, after, before, ticks, literals=()):
        """Asks that `after` is at least `ticks` behind `before`, if all literals hold."""
        if after != before:
            self.linear([(1, after), (-1, before)], ticks, LARGEST, literals)
        elif ticks > 0:
            self.never(literals)

    def never(self, literals):
        """Asks that not all literals hold."""
        self.parts.append(f"constraints {{ bool_or {{ literals: {[negated(it) for it in literals]} }} }}")

    def exactly_one(self, literals):
        self.parts.append(f"constraints {{ exactly_one {{ literals: {list(literals)} }} }}")

    def minimise(self, variable):
        self.parts.append(f"objective {{ vars: [{variable}] coeffs: [1] }}")

    def text(self):
        return "\n".join(self.parts) + "\n"


def negated(literal):
    return -literal - 1


def enforced(literals):
    return f"enforcement_literal: {list(literals)} " if literals else ""


class AskText:
    """The model of an AskModel."""

    def __init__(self, model):
        self.model, self.route, self.cp = model, model.route, CpModel()
        self.x = [self.cp.variable(f"x{at}", low, high) for at, (low, high) in enumerate(model.points)]
        self.t = [self.cp.variable(f"t{at}", model.floor, model.latest) for at in range(len(self.route.layers) + 1)]
        self.y = [{number: self.cp.boolean(f"y{step}_{number}") for number in layer} for step, layer in enumerate(self.route.layers)]
        self.taken = [self.cp.boolean(f"taken{slot}") for slot in range(len(self.route.slots))]
        self.add_kept()
        self.add_route()
        for slot in range(len(self.route.slots)):
            self.add_slot(slot)
        for one, two in self.route.meetings():
            self.add_meeting(one, two)
        self.cp.minimise(self.t[-1])

    def add_kept(self):
        for it in self.model.differences:
            self.cp.at_least(self.x[it.after], self.x[it.before], it.ticks)
        if self.model.line_end is not None:
            self.cp.at_least(self.t[-1], self.x[self.model.line_end], 1)

    def add_route(self):
        """One edge for each step, each from the state to which the one before leads, and the last one to the goal."""
        edges = self.route.edges
        for step, layer in enumerate(self.y):
            self.cp.exactly_one(layer.values())
            after = self.y[step + 1] if step + 1 < len(self.y) else {}
            for state in range(len(self.route.states)):
                terms = [(1, it) for number, it in layer.items() if edges[number].target == state]
                terms += [(-1, it) for number, it in after.items() if edges[number].source == state]
                if terms and (after or state != self.route.goal):
                    self.cp.linear(terms, 0, 0)
            for number, it in layer.items():
                self.cp.linear([(1, self.t[step + 1]), (-1, self.t[step])], edges[number].least, edges[number].most, [it])
        if not self.y:
            self.cp.never([])

    def side(self, slot, is_end):
        """The point and the ticks of a slot's begin or end."""
        step, own = self.route.slots[slot]
        hold = self.route.own[own][0]
        tied, ticks = (hold.end, hold.end_ticks) if is_end else (hold.begin, hold.begin_ticks)
        return self.t[step + tied], ticks

    def add_slot(self, slot):
        """A slot is taken if its step takes an edge with the hold. The booleans say which kept holds are before it."""
        step, own = self.route.slots[slot]
        hold, its = self.route.own[own]
        terms = [(1, self.y[step][number]) for number in its if number in self.y[step]]
        self.cp.linear([*terms, (-1, self.taken[slot])], 0, 0)
        (begin, begin_ticks), (end, end_ticks) = self.side(slot, False), self.side(slot, True)
        last = self.taken[slot]
        for at, kept in enumerate(self.model.kept[hold.resource]):
            gap = self.model.gap(hold.resource, hold.mode, kept.mode)
            is_before = self.cp.boolean(f"place{slot}_{at}")
            self.cp.never([is_before, negated(last)])
            self.cp.at_least(begin, self.x[kept.end], kept.end_ticks + gap - begin_ticks, [is_before])
            self.cp.at_least(self.x[kept.begin], end, end_ticks + gap - kept.begin_ticks, [self.taken[slot], negated(is_before)])
            last = is_before

    def add_meeting(self, one, two):
        """Two own holds that are both taken stand one before the other."""
        hold, other = (self.route.own[self.route.slots[slot][1]][0] for slot in (one, two))
        gap, first = self.model.gap(hold.resource, hold.mode, other.mode), self.cp.boolean(f"first{one}_{two}")
        for before, after, literal in ((one, two, first), (two, one, negated(first))):
            (end, end_ticks), (begin, begin_ticks) = self.side(before, True), self.side(after, False)
            self.cp.at_least(begin, end, end_ticks + gap - begin_ticks, [self.taken[one], self.taken[two], literal])


def text_of(model):
    """The text of an AskModel's CpModelProto."""
    return AskText(model).cp.text()
