"""The routes that a sheet may take: edges between states, the edges that each step may take, and the holds of these."""
from typing import NamedTuple

from ask_state import steps_from, ticks_to_go

MOST_STEPS = 64


class OwnHold(NamedTuple):
    """A hold that an action of the sheet may have. Each side is tied to the action's end (1) or its start (0)."""

    resource: str
    begin: int
    begin_ticks: int
    end: int
    end_ticks: int
    mode: int


class Edge(NamedTuple):
    """A step of the route. The edge without an action rests at the goal."""

    source: int
    target: int
    least: int
    most: int
    action: object


class Route:
    """The routes of an ask. States, edges, steps and slots are numbered from 0; the last edge is the rest.

    `layers` has for each step the edges that it may take, so that the sheet starts at `floor` or later and ends by `latest`.
    `own` has the own holds, each with its edges, and `slots` a step and an own hold each.
    """

    def __init__(self, machine, ask):
        self.machine, self.layers = machine, []
        steps = steps_from(machine, ask)
        to_go = ticks_to_go(machine, ask, steps)
        self.states, self.to_go = list(to_go), list(to_go.values())
        number = {state: at for at, state in enumerate(self.states)}
        self.starts = sorted({number[state] for state in ask.starts(machine) if state in number})
        self.edges = [Edge(number[state], number[after], action.least, action.most, action)
                      for state in self.states for action, after in steps[state] if after in number]
        self.goal = self.to_go.index(0) if self.states else 0
        if self.states:
            self.edges.append(Edge(self.goal, self.goal, 0, 0, None))
        else:
            self.to_go = [0]

    def shortest(self):
        """The edges of a route of least durations."""
        at, route = min(self.starts, key=lambda start: self.to_go[start]), []
        while at != self.goal:
            edge = next(it for it in self.edges if it.source == at and it.least + self.to_go[it.target] == self.to_go[at])
            route.append(edge)
            at = edge.target
        return route

    def gap(self, resource, mode, other):
        return self.machine.gaps[resource] if mode != other else 0

    def is_apart(self, route):
        """Whether the holds of a route that takes its least durations are apart from each other."""
        spans, now = [], 0
        for edge in route:
            spans += [(hold, *hold.span(now, now + edge.least)) for hold in edge.action.holds]
            now += edge.least
        return all(self.are_apart(one, two) or self.are_apart(two, one)
                   for at, one in enumerate(spans) for two in spans[at + 1 :] if one[0].resource == two[0].resource)

    def are_apart(self, one, two):
        return one[2] + self.gap(one[0].resource, one[0].mode, two[0].mode) <= two[1]

    def limit(self, floor, latest):
        """Sets the layers, and the own holds with their slots."""
        reach = dict.fromkeys(self.starts, floor)
        while len(self.layers) < MOST_STEPS:
            layer, after = [], {}
            for number, edge in enumerate(self.edges):
                tick = reach.get(edge.source, latest + 1) + edge.least
                if tick + self.to_go[edge.target] <= latest:
                    layer.append(number)
                    after[edge.target] = min(after.get(edge.target, tick), tick)
            if all(self.edges[number].action is None for number in layer):
                break
            self.layers.append(layer)
            reach = after
        self.set_own_holds()

    def set_own_holds(self):
        found = {}
        for number, edge in enumerate(self.edges):
            for hold in edge.action.holds if edge.action else ():
                own = OwnHold(hold.resource, int(hold.begin == "end"), hold.begin_offset, int(hold.end == "end"), hold.end_offset, hold.mode)
                found.setdefault(own, []).append(number)
        self.own = list(found.items())
        self.slots = [(step, at) for step, edges in enumerate(self.layers)
                      for at, (_, its) in enumerate(self.own) if not set(its).isdisjoint(edges)]

    def meetings(self):
        """The pairs of slots whose holds might meet if both are taken."""
        shortest = min((edge.least for edge in self.edges if edge.action), default=1)
        found = []
        for one, (step, at) in enumerate(self.slots):
            hold, its = self.own[at]
            # How far the hold may last behind the end of its action.
            past = hold.end_ticks - (0 if hold.end else min(self.edges[number].least for number in its))
            for two in range(one + 1, len(self.slots)):
                later, other = self.slots[two][0], self.own[self.slots[two][1]][0]
                ticks = past + self.gap(hold.resource, hold.mode, other.mode)
                is_close = later > step and hold.resource == other.resource and ticks > (later - step - 1) * shortest
                if is_close and (later > step + 1 or self.may_follow(one, two)):
                    found.append((one, two))
        return found

    def may_follow(self, one, two):
        """Whether an edge of one slot leads to an edge of the other, a step later."""
        targets = {self.edges[number].target for number in self.edges_of(one)}
        return any(self.edges[number].source in targets for number in self.edges_of(two))

    def edges_of(self, slot):
        """The edges that take a slot."""
        step, own = self.slots[slot]
        return set(self.own[own][1]).intersection(self.layers[step])
