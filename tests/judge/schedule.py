"""Plans and schedules: what is legal, held and live, and least times by difference constraints."""
import heapq
from dataclasses import dataclass, replace
from typing import NamedTuple

from machine import Sheet, State, step


class Copy(NamedTuple):
    """A physical sheet: its job's place in the order of arrival, its sheet's number, its own number."""

    job: int
    sheet: int
    number: int


@dataclass
class Plan:
    """A plan of a copy. Action i, counted from 0, runs from point i to point i + 1.

    The goal is a tray's name, or None for a purge. A front is not whole, and all its actions are released.
    """

    copy: Copy
    sheet: Sheet
    goal: str | None
    whole: bool
    actions: list
    points: list
    released: int

    @property
    def end(self):
        return self.points[-1]

    def changed(self, **values):
        return replace(self, **values)

    def is_fixed(self, point):
        """Whether the point is the start or the end of a released action."""
        return not self.whole or 0 < self.released >= point

    def running(self, now):
        """The place of the action that runs at the moment, or None."""
        for at in range(len(self.actions)):
            if self.points[at] <= now < self.points[at + 1]:
                return at
        return None

    def is_unstarted(self, now):
        return self.points[0] > now

    def is_entering(self, now):
        """Whether the last action of a whole plan to a tray runs."""
        return self.whole and self.goal is not None and self.running(now) == len(self.actions) - 1


class Grip(NamedTuple):
    """A hold of an action of a plan, with the ticks from the first that is held to the first behind."""

    begin: int
    end: int
    copy: Copy
    at: int
    hold: object


def grips(plan):
    """All holds of a plan."""
    for at, action in enumerate(plan.actions):
        for hold in action.holds:
            yield Grip(*hold.span(plan.points[at], plan.points[at + 1]), plan.copy, at, hold)


def is_live(machine, plan, now):
    """Whether a point, or the end of a hold with the gap behind it, is after the moment."""
    if plan.end > now:
        return True
    return any(grip.end + machine.gaps[grip.hold.resource] > now for grip in grips(plan))


def orders(machine, plans):
    """For each resource its holds by their times."""
    found = {resource: [] for resource in machine.resources}
    for plan in plans:
        for grip in grips(plan):
            found[grip.hold.resource].append(grip)
    return {resource: sorted(held) for resource, held in found.items()}


def lines(plans):
    """For each tray the whole plans to it, in the order of copies."""
    found = {}
    for plan in sorted(plans, key=lambda it: it.copy):
        if plan.whole and plan.goal is not None:
            found.setdefault(plan.goal, []).append(plan)
    return found


def start_state(feeder):
    return State(feeder, "F", False, False)


def state_behind(plan):
    """The state after all actions of a plan, or None if they do not lead from a feeder of the sheet on."""
    state = start_state(plan.actions[0].source)
    for action in plan.actions:
        state = state and step(action, plan.sheet, state)
    return state


def is_goal(machine, sheet, goal, state):
    """Whether a sheet in this state has reached its tray, or any purge tray."""
    if goal is None:
        return state.place in machine.purge
    return state == State(goal, sheet.face, sheet.front != "-", sheet.back != "-")


def flaw_of_plan(machine, plan):
    """Why this is no timed plan, or None."""
    count = len(plan.actions)
    if not 1 <= count <= 64 or len(plan.points) != count + 1:
        return "a plan has 1 to 64 actions, and a point more"
    for action, start, end in zip(plan.actions, plan.points, plan.points[1:]):
        if not action.least <= end - start <= action.most:
            return f"{action.name} lasts {end - start}"
    if machine.feeders.get(plan.actions[0].source) != plan.sheet.medium:
        return "the first action leaves no feeder of the medium"
    state = state_behind(plan)
    if state is None:
        return "an action does not take the sheet as it is"
    if plan.whole and not is_goal(machine, plan.sheet, plan.goal, state):
        return "the actions do not lead to the goal"
    return None


def flaw_of_schedule(machine, plans):
    """Why the schedule is not legal, or None."""
    for plan in plans:
        flaw = flaw_of_plan(machine, plan)
        if flaw:
            return flaw
    for resource, held in orders(machine, plans).items():
        for before, after in zip(held, held[1:]):
            if before.end + machine.gap(before.hold, after.hold) > after.begin:
                return f"{resource} is held until {before.end} and from {after.begin} on"
    for tray, line in lines(plans).items():
        for before, after in zip(line, line[1:]):
            if before.end >= after.end:
                return f"ends at {tray} at {before.end} and {after.end} do not rise"
    return None


class Network:
    """Points with a least and a greatest tick, and edges that ask that a point be so far behind another.

    The rank of a point is a guess at its tick. It decides in which order points are raised, and no time.
    """

    def __init__(self):
        self.low, self.cap, self.edges, self.rank = [], [], [], []

    def point(self, low, cap, rank=0):
        self.low.append(low)
        self.cap.append(cap)
        self.edges.append([])
        self.rank.append(rank)
        return len(self.low) - 1

    def pop_point(self):
        """Takes the last point away again."""
        for column in (self.low, self.cap, self.edges, self.rank):
            column.pop()

    def edge(self, before, after, weight):
        self.edges[before].append((after, weight))

    def raise_from(self, times, changed):
        """Raises the times until the edges out of raised points are kept. False if a point passes its greatest tick.

        Earlier points come first, since later ones mostly follow from them.
        """
        waiting = [(times[point], point) for point in changed]
        heapq.heapify(waiting)
        while waiting:
            time, point = heapq.heappop(waiting)
            if time < times[point]:
                continue
            for after, weight in self.edges[point]:
                tick = time + weight
                if tick > times[after]:
                    if tick > self.cap[after]:
                        return False
                    times[after] = tick
                    heapq.heappush(waiting, (tick, after))
        return True

    def least(self):
        """The least times, or None if there are none. Points are raised by their rank, so that most are raised once."""
        times = list(self.low)
        if any(low > cap for low, cap in zip(self.low, self.cap)):
            return None
        waiting = sorted((rank, point) for point, rank in enumerate(self.rank))
        waits = [True] * len(times)
        while waiting:
            _, point = heapq.heappop(waiting)
            waits[point] = False
            for after, weight in self.edges[point]:
                if times[point] + weight > times[after]:
                    times[after] = times[point] + weight
                    if times[after] > self.cap[after]:
                        return None
                    if not waits[after]:
                        waits[after] = True
                        heapq.heappush(waiting, (self.rank[after], after))
        return times


class Constraints:
    """The network of a legal schedule: durations, lines, and orders of resources, with floors and the horizon.

    `places[copy, i]` is the network's point for point i of the copy's plan. `asked` is a copy in flight
    that has just been planned: its starts have no floor of their own.
    """

    def __init__(self, machine, plans, now, asked=None):
        self.machine, self.now, self.asked = machine, now, asked
        self.net, self.places = Network(), {}
        for plan in plans:
            self.add_plan(plan)
        self.orders = orders(machine, plans)
        for held in self.orders.values():
            for before, after in zip(held, held[1:]):
                self.net.edge(*self.edge_between(before, after))
        self.lines = lines(plans)
        for line in self.lines.values():
            for before, after in zip(line, line[1:]):
                self.net.edge(self.end_of(before), self.end_of(after), 1)

    def add_plan(self, plan):
        count = len(plan.actions)
        for at, tick in enumerate(plan.points):
            low = self.now + self.machine.lead + 1 if at < count and plan.copy != self.asked else 0
            bounds = (tick, tick) if plan.is_fixed(at) else (low, self.now + self.machine.window)
            self.places[plan.copy, at] = self.net.point(*bounds, rank=tick)
        for at, action in enumerate(plan.actions):
            start, end = self.places[plan.copy, at], self.places[plan.copy, at + 1]
            self.net.edge(start, end, action.least)
            self.net.edge(end, start, -action.most)

    def end_of(self, plan):
        return self.places[plan.copy, len(plan.actions)]

    def anchor(self, grip, moment):
        return self.places[grip.copy, grip.at + (moment == "end")]

    def edge_between(self, before, after):
        """The edge that keeps two holds of a resource apart."""
        weight = before.hold.end_offset - after.hold.begin_offset + self.machine.gap(before.hold, after.hold)
        return self.anchor(before, before.hold.end), self.anchor(after, after.hold.begin), weight


def least_points(machine, plans, now, asked=None):
    """For each copy the least points of its plan with the same orders, or None if there are none."""
    constraints = Constraints(machine, plans, now, asked)
    times = constraints.net.least()
    if times is None:
        return None
    return {plan.copy: [times[constraints.places[plan.copy, at]] for at in range(len(plan.points))] for plan in plans}
