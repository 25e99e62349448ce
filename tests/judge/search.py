"""Decides whether an ask has a plan that ends by a tick, by a search from the feeders forwards.

The search takes the actions of a route in turn from where the sheet starts, and tries each place of each
hold among the holds of its resource. Times come from difference constraints. It is exact: it gives up
with Undecided where it takes more work than is allowed.
"""
import heapq
from dataclasses import dataclass

from machine import Sheet, step
from schedule import Constraints, Copy, Grip, Plan, is_goal, start_state, state_behind


class Undecided(Exception):
    """The work that is allowed was not enough."""


@dataclass
class Ask:
    """What is asked: a copy to its goal (a tray, or None for a purge) at a moment.

    `front` is the plan of a copy in flight as far as it goes, and None for a new copy. `out` are the
    modules that are out, `empty` the feeders that are empty.
    """

    copy: Copy
    sheet: Sheet
    goal: str | None
    front: Plan | None
    out: set
    empty: set
    now: int

    def starts(self, machine):
        """The states from which the new actions may lead."""
        if self.front:
            return [state_behind(self.front)]
        return [start_state(it) for it, medium in machine.feeders.items() if medium == self.sheet.medium and it not in self.empty]

    def kept(self):
        return len(self.front.actions) if self.front else 0

    def floor(self, machine):
        """The first tick at which the first new action may start."""
        return self.front.end if self.front else self.now + machine.lead + 1

    def allows(self, action):
        return not action.uses & self.out


def steps_from(machine, ask):
    """All steps by allowed actions between states that can be reached: for each state its actions and next states."""
    found, waiting = {}, ask.starts(machine)
    while waiting:
        state = waiting.pop()
        if state in found:
            continue
        found[state] = []
        for action in machine.leaving[state.place]:
            after = step(action, ask.sheet, state) if ask.allows(action) else None
            if after:
                found[state].append((action, after))
                waiting.append(after)
    return found


def ticks_to_go(machine, ask, steps):
    """For each state from which a goal can be reached, the least sum of durations to it."""
    before = {}
    for state, ways in steps.items():
        for action, after in ways:
            before.setdefault(after, []).append((action.least, state))
    found, queue = {}, [(0, it) for it in steps if is_goal(machine, ask.sheet, ask.goal, it)]
    while queue:
        ticks, state = heapq.heappop(queue)
        if state not in found:
            found[state] = ticks
            for least, source in before.get(state, []):
                heapq.heappush(queue, (ticks + least, source))
    return found


class Trial:
    """The constraints of the live plans, with points and edges of the asked plan that come and go again.

    The front of a copy in flight is among the plans. `work` is how often edges may still be added.
    """

    def __init__(self, machine, plans, ask, work):
        self.machine, self.plans, self.ask, self.work = machine, plans, ask, work

    def load(self, limit):
        """Loads the other plans, and a point for the end of the asked one by a limit, with its place in its line."""
        self.constraints = Constraints(self.machine, self.plans, self.ask.now, self.ask.copy)
        self.net, self.orders = self.constraints.net, self.constraints.orders
        self.end = self.net.point(0, limit, rank=limit)
        for plan in self.constraints.lines.get(self.ask.goal, []) if self.ask.goal is not None else []:
            if plan.copy < self.ask.copy:
                self.net.edge(self.constraints.end_of(plan), self.end, 1)
            else:
                self.net.edge(self.end, self.constraints.end_of(plan), 1)

    def with_point(self, at, bounds, times, edges, further):
        """Adds the point `at` of the asked plan and edges, goes on, and takes them away again.

        The last of the times is the point's.
        """
        point = self.net.point(*bounds)
        self.constraints.places[self.ask.copy, at] = point
        found = None
        if bounds[0] <= bounds[1]:
            found = self.with_edges(edges, times, further)
        del self.constraints.places[self.ask.copy, at]
        self.net.pop_point()
        return found

    def with_edges(self, edges, times, further):
        """Adds edges, raises the times, goes on if there are any, and takes the edges away again."""
        self.work -= 1
        if self.work < 0:
            raise Undecided
        for before, after, weight in edges:
            self.net.edge(before, after, weight)
        raised = list(times)
        found = None
        if self.net.raise_from(raised, [before for before, _, _ in edges]):
            found = further(raised)
        for before, _, _ in edges:
            self.net.edges[before].pop()
        return found

    def with_places(self, grips, times, further):
        """Tries all places of the first of these holds, from the last place on, then of the others."""
        if not grips:
            return further(times)
        grip, order = grips[0], self.orders[grips[0].hold.resource]
        for at in range(len(order), -1, -1):
            if at < len(order) and not self.may_precede(grip, order[at], times):
                return None
            edges = [self.constraints.edge_between(order[at - 1], grip)] if at else []
            edges += [self.constraints.edge_between(grip, order[at])] if at < len(order) else []
            order.insert(at, grip)
            found = self.with_edges(edges, times, lambda raised: self.with_places(grips[1:], raised, further))
            order.pop(at)
            if found is not None:
                return found
        return None

    def may_precede(self, grip, other, times):
        """Whether times are left with the hold before the other one. If not, it precedes no earlier one either."""
        return self.with_edges([self.constraints.edge_between(grip, other)], times, lambda raised: True) is not None


class Search(Trial):
    """A search for a plan that answers an ask."""

    def __init__(self, machine, plans, ask, work):
        super().__init__(machine, plans, ask, work)
        self.steps = steps_from(machine, ask)
        self.to_go = ticks_to_go(machine, ask, self.steps)

    def find(self, limit):
        """The end of some alternative that ends by the limit, or None if there is none."""
        limit = min(limit, self.ask.now + self.machine.window)
        self.limit = limit
        starts = [it for it in self.ask.starts(self.machine) if it in self.to_go]
        if not starts:
            return None
        self.load(limit)
        times = self.net.least()
        if times is None:
            return None
        for state in sorted(set(starts), key=self.to_go.get):
            found = self.start(state, times)
            if found is not None:
                return found
        return None

    def start(self, state, times):
        floor, kept = self.ask.floor(self.machine), self.ask.kept()
        if kept:
            return self.extend(state, kept, times)
        edges = [(len(times), self.end, self.to_go[state])]
        return self.with_point(0, self.bounds(state, floor), [*times, floor], edges, lambda raised: self.extend(state, 0, raised))

    def bounds(self, state, low):
        """The least and the greatest tick at which the sheet may be in a state."""
        return low, self.limit - self.to_go[state]

    def extend(self, state, count, times):
        """Goes on from a state behind `count` actions."""
        if is_goal(self.machine, self.ask.sheet, self.ask.goal, state):
            last = self.constraints.places[self.ask.copy, count]
            return self.with_edges([(self.end, last, 0)], times, lambda raised: raised[self.end])
        if count == 64:
            return None
        ways = [it for it in self.steps[state] if it[1] in self.to_go]
        for action, after in sorted(ways, key=lambda it: it[0].least + self.to_go[it[1]]):
            found = self.act(action, after, count, times)
            if found is not None:
                return found
        return None

    def act(self, action, after, count, times):
        before, point = self.constraints.places[self.ask.copy, count], len(times)
        edges = [(before, point, action.least), (point, before, -action.most), (point, self.end, self.to_go[after])]
        grips = [Grip(0, 0, self.ask.copy, count, hold) for hold in action.holds]

        def further(raised):
            return self.with_places(grips, raised, lambda placed: self.extend(after, count + 1, placed))

        low = times[before] + action.least
        return self.with_point(count + 1, self.bounds(after, low), [*times, low], edges, further)


def least_end(machine, plans, ask, work):
    """The least end of all alternatives, or None if there is none."""
    search = Search(machine, plans, ask, work)
    best, limit = None, ask.now + machine.window
    while True:
        found = search.find(limit)
        if found is None:
            return best
        best, limit = found, found - 1
