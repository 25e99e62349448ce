"""An ask as the judge's values: the machine, the kept plans, and the sheet that is asked for.

The readers of machines and plans, and the rules of a schedule, are those of the independent judge in tests/judge.
"""
import json
import os
import sys

sys.path.append(os.path.join(os.path.dirname(os.path.abspath(__file__)), "..", "..", "tests", "judge"))

from machine import Sheet, read_machine, step  # noqa: E402, F401
from schedule import Copy, Plan, flaw_of_schedule, is_goal, lines, orders  # noqa: E402, F401
from search import Ask as JudgeAsk  # noqa: E402
from search import Search, Undecided, steps_from, ticks_to_go  # noqa: E402, F401


class AskState:
    """The machine, the plans and the ask of a snapshot and the line of one job of one sheet."""

    def __init__(self, snapshot, line):
        value = json.loads(snapshot)
        self.machine = read_machine(value["machine"].encode("utf-8"))
        self.now, self.jobs = value["now"], [job["name"] for job in value["jobs"]]
        self.plans = [self.plan_of(item) for item in value["plans"]]
        _, self.job, tray, medium, spec = line.split(" ")
        empty = {feeder for feeder, count in zip(self.machine.feeders, value["stock"]) if count == 0}
        copy, sheet = Copy(len(self.jobs), 1, 1), Sheet(medium, spec[0], spec[1], spec[3])
        self.ask = JudgeAsk(copy, sheet, tray, None, set(value["out"]), empty, self.now)

    def plan_of(self, item):
        """The plan of a snapshot's item. Its released actions are those that start within the lead, or all of a front."""
        job, number, copy = item["sheet"].split(".")
        medium, spec = item["want"].split(" ")
        points, count = item["points"], len(item["acts"])
        due = sum(start <= self.now + self.machine.lead for start in points[:-1])
        actions = [self.machine.action_named[name] for name in item["acts"]]
        return Plan(Copy(self.jobs.index(job), int(number), int(copy)), Sheet(medium, spec[0], spec[1], spec[3]), item["goal"],
                    item["whole"], actions, points, due if item["whole"] else count)

    def name(self, copy):
        names = [*self.jobs, self.job]
        return f"{names[copy.job]}.{copy.sheet}.{copy.number}"

    def horizon(self):
        return self.now + self.machine.window

    def best_known(self, least, work):
        """The records of a plan that the judge finds, or None.

        It tries limits from `least` on, each with so much work, and doubles the distance until a plan is found.
        """
        ticks = 0
        while True:
            limit = min(least + ticks, self.horizon())
            search = KeepingSearch(self.machine, self.plans, self.ask, work)
            try:
                if search.find(limit) is not None:
                    return self.records_of(search.schedule)
            except Undecided:
                pass
            if limit == self.horizon():
                return None
            ticks = 2 * ticks + 1

    def records_of(self, after):
        """The records of a plan and its moves, as a log has them."""
        plan = after[-1]
        words = [f"{action.name} {tick}" for action, tick in zip(plan.actions, plan.points[1:])]
        records = [" ".join(["plan", self.name(plan.copy), plan.goal, str(plan.points[0]), *words])]
        for old, new in zip(self.plans, after):
            if old.points != new.points:
                records.append(" ".join(["move", self.name(new.copy), *map(str, new.points)]))
        return records

    def flaw_of_answer(self, records):
        """Why these records of a plan and its moves are no alternative, or None."""
        try:
            after = self.schedule_after(records)
        except (KeyError, ValueError, IndexError) as fault:
            return f"no plan of this machine: {fault}"
        return flaw_of_schedule(self.machine, after) or self.flaw_of_bounds(after) or self.flaw_of_orders(after)

    def schedule_after(self, records):
        """The schedule after the records `plan ..` and `move ..`."""
        words = records[0].split(" ")
        actions, points = [self.machine.action_named[it] for it in words[4::2]], [int(it) for it in words[3::2]]
        moved = {line.split(" ")[1]: [int(it) for it in line.split(" ")[2:]] for line in records[1:]}
        others = [plan.changed(points=moved.pop(self.name(plan.copy), plan.points)) for plan in self.plans]
        if moved or words[:2] != ["plan", self.name(self.ask.copy)]:
            raise ValueError("a record of another copy")
        return [*others, Plan(self.ask.copy, self.ask.sheet, self.ask.goal, True, actions, points, 0)]

    def flaw_of_bounds(self, after):
        """Why the points of a schedule break a floor or the horizon, or move a point that is fixed, or None."""
        if any(action.uses & self.ask.out for action in after[-1].actions) or after[-1].actions[0].source in self.ask.empty:
            return "the asked sheet uses a module that is out, or a feeder that is empty"
        for old, new in zip([*self.plans, after[-1]], after):
            for at, tick in enumerate(new.points):
                floor = self.now + self.machine.lead + 1 if at < len(new.actions) else 0
                if new.is_fixed(at) and tick != old.points[at]:
                    return "a point that is fixed has moved"
                if not new.is_fixed(at) and not floor <= tick <= self.horizon():
                    return "a point is before its floor or after the horizon"
        return None

    def flaw_of_orders(self, after):
        """Why the order of a resource has changed, or None."""
        names = [{resource: [(it.copy, it.at) for it in held if it.copy != self.ask.copy] for resource, held in orders(self.machine, plans).items()}
                 for plans in (self.plans, after)]
        return None if names[0] == names[1] else "the order of a resource has changed"


class KeepingSearch(Search):
    """A search that keeps the schedule that it found."""

    def __init__(self, *words):
        super().__init__(*words)
        self.route, self.schedule = [], None

    def act(self, action, after, count, times):
        self.route.append(action)
        found = super().act(action, after, count, times)
        self.route.pop()
        return found

    def extend(self, state, count, times):
        if not is_goal(self.machine, self.ask.sheet, self.ask.goal, state):
            return super().extend(state, count, times)
        last = self.constraints.places[self.ask.copy, count]
        return self.with_edges([(self.end, last, 0)], times, self.keep)

    def keep(self, times):
        def points_of(copy, count):
            return [times[self.constraints.places[copy, at]] for at in range(count)]

        asked = Plan(self.ask.copy, self.ask.sheet, self.ask.goal, True, list(self.route), points_of(self.ask.copy, len(self.route) + 1), 0)
        self.schedule = [plan.changed(points=points_of(plan.copy, len(plan.points))) for plan in self.plans] + [asked]
        return asked.end
