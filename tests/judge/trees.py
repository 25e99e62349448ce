"""Checks bound trees by their rules: a tree proves that no alternative ends by a limit."""
from itertools import product

from log import Fault
from machine import State, step, step_back
from schedule import Grip, orders


def read_state(word):
    place, flags = word.split(":")
    return State(place, flags[0], flags[1] == "1", flags[2] == "1")


class Reading:
    """The lines of a tree, taken one after another. `behind` is the number of the line behind the tree."""

    def __init__(self, lines, behind):
        self.rows = [(number, text.split(" ")) for number, text in lines if text.startswith("b room ")]
        self.nodes = [(number, text.split(" ")) for number, text in lines if not text.startswith("b room ")]
        self.at, self.behind = 0, behind

    def is_over(self):
        return self.at == len(self.nodes)

    def peek(self):
        """The next node's line, depth and other words. Raises Fault if there is none."""
        if self.is_over():
            raise Fault(self.behind, "tree uncovered: a node is due")
        number, words = self.nodes[self.at]
        return number, int(words[1]), words[2:]

    def take(self):
        found = self.peek()
        self.at += 1
        return found


def check_tree(machine, plans, ask, limit, lines, behind, names):
    """Raises Fault if the lines are no proof that the ask has no plan that ends by the limit.

    `plans` are the live plans, the front of a copy in flight among them. `names` gives the copy of a name.
    """
    reading = Reading(lines, behind)
    rooms = check_rows(machine, ask, reading)
    Tree(machine, plans, ask, limit, rooms, names).check(reading)


def check_rows(machine, ask, reading):
    """The number of each state that has a row."""
    rooms = {}
    for number, words in reading.rows:
        state = read_state(words[2])
        if state.place not in machine.locations or state in rooms:
            raise Fault(number, "tree room row: of no location, or a second one of its state")
        rooms[state] = int(words[3])
    for number, words in reading.rows:
        state = read_state(words[2])
        for action in machine.leaving[state.place]:
            after = step(action, ask.sheet, state) if ask.allows(action) else None
            if after and rooms.get(after, limitless(rooms)) > rooms[state] + action.least:
                raise Fault(number, f"tree room row: {action.name} leads to a state without a row as small")
    for state in ask.starts(machine):
        if rooms.get(state) != 0:
            raise Fault(reading.behind, "tree room row: a start state has no row of 0")
    return rooms


def limitless(rooms):
    """A number above each that a row could ask for."""
    return max(rooms.values(), default=0) + 1_000_000


class Tree:
    """A tree's walk: the choices above the node that is due, and the orders of holds with them."""

    def __init__(self, machine, plans, ask, limit, rooms, names):
        self.machine, self.ask, self.limit, self.rooms, self.names = machine, ask, limit, rooms, names
        self.plans = {plan.copy: plan for plan in plans}
        self.orders = orders(machine, plans)
        self.floor = ask.floor(machine)
        self.front = ask.starts(machine)[0] if ask.front else None
        # The states of the asked plan from its end, and the actions between them.
        self.states, self.actions = [], []
        self.is_stopped, self.range = False, None

    def check(self, reading):
        for goal in self.goals():
            number, depth, words = reading.take()
            if depth != 0 or words[0] != "goal" or read_state(words[1]) != goal:
                raise Fault(number, "tree uncovered: another goal is due")
            self.states = [goal]
            self.close(reading, number, 0, words[2:], True)
        if not reading.is_over():
            raise Fault(reading.peek()[0], "tree uncovered: no node is due")

    def goals(self):
        sheet = self.ask.sheet
        if self.ask.goal is not None:
            return [State(self.ask.goal, sheet.face, sheet.front != "-", sheet.back != "-")]
        fronts = [False, True] if sheet.front != "-" else [False]
        backs = [False, True] if sheet.back != "-" else [False]
        ends = [it for it in self.machine.locations if it in self.machine.purge]
        return [State(*it) for it in product(ends, "FB", fronts, backs)]

    # Nodes. `holds` are the holds of the newest action that have no place yet.

    def close(self, reading, number, depth, words, may_be_dead, holds=()):
        """Checks the close of a node, and its children if it is split."""
        if words[0] == "split":
            self.split(reading, number, depth, holds)
        elif words[0] == "dead":
            if not may_be_dead or self.states[-1] in self.rooms:
                raise Fault(number, "tree not dead")
        else:
            self.walk(number, words)

    def split(self, reading, number, depth, holds):
        if self.is_stopped or self.range:
            raise Fault(number, "tree uncovered: this node may not be split")
        if holds:
            self.split_places(reading, depth, holds)
        else:
            self.split_actions(reading, number, depth)

    def split_actions(self, reading, number, depth):
        state = self.states[-1]
        if not self.ask.front and state in self.ask.starts(self.machine):
            raise Fault(number, "tree uncovered: a complete way may not be split")
        if self.ask.front and self.actions and state == self.front:
            self.stop(reading, depth)
        if len(self.actions) + self.ask.kept() == 64:
            return
        for action in self.machine.actions:
            before = step_back(action, self.ask.sheet, state) if self.ask.allows(action) else None
            if before:
                self.act(reading, depth, action, before)

    def stop(self, reading, depth):
        number, words = self.due(reading, depth, ["stop"])
        self.is_stopped = True
        self.close(reading, number, depth + 1, words, False)
        self.is_stopped = False

    def act(self, reading, depth, action, before):
        number, words = self.due(reading, depth, ["act", action.name])
        self.states.append(before)
        self.actions.append(action)
        self.close(reading, number, depth + 1, words, True, action.holds)
        self.actions.pop()
        self.states.pop()

    def split_places(self, reading, depth, holds):
        hold, first = holds[0], 0
        order = self.orders[hold.resource]
        grip = Grip(0, 0, None, len(self.actions), hold)
        while first <= len(order):
            first = self.places(reading, depth, grip, holds[1:], first) + 1

    def places(self, reading, depth, grip, holds, first):
        """Checks the node of a range of places from `first` on, and gives its last place."""
        order = self.orders[grip.hold.resource]
        number, words = self.due(reading, depth, ["at", grip.hold.resource, str(first)])
        last = int(words[0])
        if not first <= last <= len(order):
            raise Fault(number, "tree uncovered: no such places")
        if first == last:
            order.insert(first, grip)
            self.close(reading, number, depth + 1, words[1:], False, holds)
            order.pop(first)
        else:
            self.range = (grip, first, last)
            self.close(reading, number, depth + 1, words[1:], False, holds)
            self.range = None
        return last

    def due(self, reading, depth, head):
        """Takes the child that is due; gives its line and the words behind its head."""
        number, given, words = reading.take()
        if given != depth + 1 or words[: len(head)] != head:
            raise Fault(number, f"tree uncovered: {' '.join(head)} is due")
        return number, words[len(head):]

    # Chains and loops.

    def walk(self, number, words):
        """Checks that the hops of a chain lead past the last point's greatest tick, or those of a loop take time."""
        first = self.point(number, 0, words[1])
        point, total = first, 0
        for hop, word in enumerate(words[2:]):
            point, weight = self.hop(number, hop, point, word)
            total += weight
        if words[0] == "loop":
            if point != first:
                raise Fault(number, "tree no such hop: the loop does not come back")
            if total <= 0:
                raise Fault(number, f"tree reach {total} cap 0")
        elif self.low(first) + total <= self.cap(point):
            raise Fault(number, f"tree reach {self.low(first) + total} cap {self.cap(point)}")

    def point(self, number, hop, word):
        """The point of a word: its copy (None for the asked one's own) and its number."""
        if word.startswith("*"):
            copy, at, most = None, int(word[1:]), len(self.actions)
        else:
            name, count = word.split("@")
            copy, at = self.names(name), int(count)
            most = len(self.plans[copy].actions) if copy in self.plans else -1
        if at > most:
            raise Fault(number, f"tree no such hop {hop}: {word} is no point")
        return copy, at

    def hop(self, number, hop, point, word):
        """The point to which a hop leads, and its weight."""
        if ">" in word:
            found = self.resource_hop(point, word)
        else:
            kind, target = word.split(":")
            after = self.point(number, hop, target)
            found = self.duration_hop(point, after) if kind == "d" else self.line_hop(point, after)
        if found is None:
            raise Fault(number, f"tree no such hop {hop}: {word}")
        return found

    def duration_hop(self, point, after):
        if point[0] != after[0] or abs(point[1] - after[1]) != 1:
            return None
        earlier = min(point[1], after[1])
        if point[0] is None:
            action, is_forward = self.actions[earlier], after[1] < point[1]
        else:
            action, is_forward = self.plans[point[0]].actions[earlier], after[1] > point[1]
        return after, action.least if is_forward else -action.most

    def line_hop(self, point, after):
        one, two = self.place_in_line(point), self.place_in_line(after)
        if not one or not two or one[0] != two[0] or one[1] >= two[1]:
            return None
        return after, 1

    def place_in_line(self, point):
        """The tray and the copy of a point that is the end of a whole plan to a tray, or of the asked one."""
        copy, at = point
        if copy is None:
            return (self.ask.goal, self.ask.copy) if at == 0 and self.ask.goal is not None else None
        plan = self.plans[copy]
        return (plan.goal, copy) if plan.whole and plan.goal is not None and at == len(plan.actions) else None

    def resource_hop(self, point, word):
        resource, ends = word.split(":")
        before, after = (self.grip(resource, it) for it in ends.split(">"))
        if before is None or after is None or not self.stands_before(before, after):
            return None
        if self.anchor(before, before.hold.end) != point:
            return None
        weight = before.hold.end_offset - after.hold.begin_offset + self.machine.gap(before.hold, after.hold)
        return self.anchor(after, after.hold.begin), weight

    def grip(self, resource, word):
        """The hold of a word on a resource, or None. A kept action is counted from 1 in the word."""
        if word.startswith("*/"):
            copy, at = None, int(word[2:])
        else:
            name, count = word.split("/")
            copy, at = self.names(name), int(count) - 1
            if copy is None:
                return None
        held = self.orders.get(resource, [])
        ranged = [self.range[0]] if self.range and self.range[0].hold.resource == resource else []
        return next((it for it in [*held, *ranged] if (it.copy, it.at) == (copy, at)), None)

    def stands_before(self, before, after):
        order = self.orders[before.hold.resource]
        if self.range and after == self.range[0]:
            return before != after and order.index(before) < self.range[1]
        if self.range and before == self.range[0]:
            return order.index(after) >= self.range[2]
        return order.index(before) < order.index(after)

    def anchor(self, grip, moment):
        """The point of a hold's moment. Action n of the asked plan, from its end, runs from point n to n - 1."""
        if grip.copy is None:
            return None, grip.at - (moment == "end")
        return grip.copy, grip.at + (moment == "end")

    def low(self, point):
        copy, at = point
        if copy is None:
            return self.floor + self.rooms.get(self.states[at], 0)
        plan = self.plans[copy]
        if plan.is_fixed(at):
            return plan.points[at]
        return self.ask.now + self.machine.lead + 1 if at < len(plan.actions) else 0

    def cap(self, point):
        copy, at = point
        horizon = self.ask.now + self.machine.window
        if copy is None:
            if self.is_stopped and at == len(self.actions):
                return self.floor
            return self.limit if at == 0 else horizon
        plan = self.plans[copy]
        return plan.points[at] if plan.is_fixed(at) else horizon
