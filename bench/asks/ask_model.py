"""The data of an ask's model, with the names of model.md: the points, differences and holds of the kept plans, and the route."""
from typing import NamedTuple

from ask_state import lines, orders
from route import Route


class Difference(NamedTuple):
    """Point `after` is at least `ticks` behind point `before`."""

    before: int
    after: int
    ticks: int


class KeptHold(NamedTuple):
    """A hold of a kept plan: it begins and ends so many ticks after two points."""

    begin: int
    begin_ticks: int
    end: int
    end_ticks: int
    mode: int


class AskModel:
    """The model of an ask. Points are numbered from 0.

    `points` has a least and a greatest tick each, `ticks` the snapshot's. `kept` has for each resource its kept holds in order.
    `line_end` is the last point of the sheet's line, or None. Some plan ends by `latest`, or it is the horizon.
    """

    def __init__(self, state):
        self.state, self.machine = state, state.machine
        self.floor, self.horizon = state.now + state.machine.lead + 1, state.horizon()
        self.set_points()
        self.set_differences()
        self.set_kept_holds()
        self.route = Route(self.machine, state.ask)
        self.latest = self.latest_end() if self.route.starts else self.horizon
        self.route.limit(self.floor, self.latest)

    def set_points(self):
        """Sets `points` and `ticks`; `place` finds a plan's point."""
        self.points, self.ticks, self.place = [], [], {}
        for plan in self.state.plans:
            for at, tick in enumerate(plan.points):
                self.place[plan.copy, at] = len(self.points)
                self.ticks.append(tick)
                low = self.floor if at < len(plan.actions) else 0
                self.points.append((tick, tick) if plan.is_fixed(at) else (low, self.horizon))

    def set_differences(self):
        """Sets the differences by durations and lines."""
        self.differences, self.line_end = [], None
        for plan in self.state.plans:
            for at, action in enumerate(plan.actions):
                start, end = self.place[plan.copy, at], self.place[plan.copy, at + 1]
                self.differences += [Difference(start, end, action.least), Difference(end, start, -action.most)]
        for tray, line in lines(self.state.plans).items():
            ends = [self.place[plan.copy, len(plan.actions)] for plan in line]
            self.differences += [Difference(before, after, 1) for before, after in zip(ends, ends[1:])]
            if tray == self.state.ask.goal:
                self.line_end = ends[-1]

    def set_kept_holds(self):
        """Sets `kept`, and adds the differences by orders."""
        self.kept = {}
        for resource, grips in orders(self.machine, self.state.plans).items():
            held = [KeptHold(self.tie(it, it.hold.begin), it.hold.begin_offset, self.tie(it, it.hold.end), it.hold.end_offset, it.hold.mode)
                    for it in grips]
            for before, after in zip(held, held[1:]):
                ticks = before.end_ticks + self.gap(resource, before.mode, after.mode) - after.begin_ticks
                self.differences.append(Difference(before.end, after.begin, ticks))
            self.kept[resource] = held

    def tie(self, grip, moment):
        return self.place[grip.copy, grip.at + (moment == "end")]

    def gap(self, resource, mode, other):
        return self.machine.gaps[resource] if mode != other else 0

    def latest_end(self):
        """The end of a shortest route that starts behind all kept holds. The horizon if it is sooner, or if the route meets itself."""
        clear = [self.floor]
        for resource, held in self.kept.items():
            clear += [self.ticks[hold.end] + hold.end_ticks + self.machine.gaps[resource] for hold in held]
        if self.line_end is not None:
            clear.append(self.ticks[self.line_end] + 1)
        route = self.route.shortest()
        end = max(clear) + sum(edge.least for edge in route)
        return min(end, self.horizon) if self.route.is_apart(route) else self.horizon
