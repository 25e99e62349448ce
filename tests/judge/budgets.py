"""Decides the tick of a budget: how many choice lists a search stores before it opens lists of a bound.

A choice list is a way from its end: a goal state with actions before it, each with a place for each of its
holds. Its bound is the least end over all times that are left with it.
"""
from machine import step_back
from schedule import Grip, is_goal
from search import Trial, steps_from


# The number of the asked plan's end. The start of its nth action from the end is point LAST - n.
LAST = 1_000


class Enough(Exception):
    """More lists are counted than were to be counted."""


def rooms(machine, ask):
    """For each state the least sum of durations from a start state to it."""
    found = {state: 0 for state in ask.starts(machine)}
    steps, changed = steps_from(machine, ask), True
    while changed:
        changed = False
        for state in [it for it in steps if it in found]:
            for action, after in steps[state]:
                if found[state] + action.least < found.get(after, found[state] + action.least + 1):
                    found[after], changed = found[state] + action.least, True
    return found


class Lists(Trial):
    """The open choice lists of an ask, counted by the bounds of their parents."""

    def __init__(self, machine, plans, ask, work):
        super().__init__(machine, plans, ask, work)
        self.rooms, self.floor = rooms(machine, ask), ask.floor(machine)
        self.horizon = ask.now + machine.window
        self.front = ask.starts(machine)[0] if ask.front else None

    def count(self, bound, most):
        """How many open lists with a choice have a parent of at most this bound; `most` + 1 stands for more."""
        self.bound, self.most, self.counted = bound, most, 0
        try:
            for goal in [it for it in self.rooms if is_goal(self.machine, self.ask.sheet, self.ask.goal, it)]:
                self.load(self.horizon)
                self.net.low[self.end] = self.floor + self.rooms[goal]
                self.constraints.places[self.ask.copy, LAST] = self.end
                times = self.net.least()
                if times is not None:
                    self.open(goal, 0, times)
        except Enough:
            pass
        return self.counted

    def open(self, state, count, times):
        """Counts the open children of a list of `count` choices, if its bound is small enough, and theirs."""
        if times[self.end] > self.bound:
            return
        if self.front and count and state == self.front:
            self.stop(count, times)
        if count + self.ask.kept() == 64:
            return
        for action in self.machine.actions:
            before = step_back(action, self.ask.sheet, state) if self.ask.allows(action) else None
            if before in self.rooms:
                self.act(action, before, count, times)

    def add(self):
        self.counted += 1
        if self.counted > self.most:
            raise Enough

    def stop(self, count, times):
        """The stopped list: its first point is the front's end."""
        first, kept = self.constraints.places[self.ask.copy, LAST - count], self.ask.kept()
        edge = (first, self.constraints.places[self.ask.copy, kept], 0)
        self.with_edges([edge], times, lambda raised: self.add())

    def act(self, action, before, count, times):
        """The lists with one action more, in all its places."""
        end, start, low = self.constraints.places[self.ask.copy, LAST - count], len(times), self.floor + self.rooms[before]
        edges = [(start, end, action.least), (end, start, -action.most)]
        grips = [Grip(0, 0, self.ask.copy, LAST - count - 1, hold) for hold in action.holds]

        def child(placed):
            self.add()
            self.open(before, count + 1, placed)

        def further(raised):
            return self.with_places(grips, raised, child)

        self.with_point(LAST - count - 1, (low, self.horizon), [*times, low], edges, further)


def flaw_of_budget(machine, plans, ask, tick, budget, work):
    """Why a search with this budget is not spent at a tick, or None. Raises Undecided."""
    lists = Lists(machine, plans, ask, work)
    if lists.count(tick - 1, budget) > budget:
        return f"more than {budget} lists are stored before lists of bound {tick} are opened"
    if lists.count(tick, budget) <= budget:
        return f"no more than {budget} lists are stored as lists of bound {tick} are opened"
    return None
