"""Where a session stands between two events, and what events do to it, record by record.

Each method that has records to tell takes them from a log's records of the event (`Told`), which raises
a Fault if another record stands there.
"""
from dataclasses import dataclass

from log import Fault
from machine import Sheet
from schedule import Copy, is_live, least_points
from script import sheets_of

CLOCK_END = 1_000_000_000
MOST_WAITING = 4096
MOST_LIVE = 256
MOST_STOCK = 1_000_000


@dataclass
class Job:
    """A job that was accepted."""

    name: str
    tray: str
    broken: bool = False


class Told:
    """The records of an event, taken one after another."""

    def __init__(self, entry, behind):
        self.entry, self.at, self.behind = entry, 0, behind

    def peek(self):
        """The next record, or None."""
        return self.entry.records[self.at] if self.at < len(self.entry.records) else None

    def last(self):
        """The record that was taken last."""
        return self.entry.records[self.at - 1]

    def line(self):
        """The line of the next record, or the one behind the event."""
        return self.peek().line if self.peek() else self.behind

    def take_any(self, why):
        record = self.peek()
        if record is None:
            raise Fault(self.behind, f"due: {why}")
        self.at += 1
        return record

    def take(self, text):
        """Takes this record, which has no tree."""
        record = self.peek()
        if record is None or record.text != text:
            raise Fault(self.line(), f"due: {text}")
        if record.tree:
            raise Fault(record.tree[0][0], "due: no tree")
        self.at += 1

    def close(self):
        if self.peek():
            raise Fault(self.line(), "due: no record more")


class Standing:
    """The moment, the jobs, the plans that are live, the copies that wait, what is out, and the stock."""

    def __init__(self, machine):
        self.machine, self.now = machine, 0
        self.jobs, self.places = [], {}
        self.plans, self.waiting = {}, {}
        self.lost, self.out = set(), set()
        self.free = {it: machine.stock.get(it) for it in machine.feeders}

    # What is asked of it.

    def name(self, copy):
        return f"{self.jobs[copy.job].name}.{copy.sheet}.{copy.number}"

    def copy_named(self, name):
        """The copy of a name, or None if no job has its name."""
        job, sheet, number = name.split(".")
        return Copy(self.places[job], int(sheet), int(number)) if job in self.places else None

    def tray(self, copy):
        return self.jobs[copy.job].tray

    def listed(self):
        """The plans in the order of copies."""
        return [self.plans[it] for it in sorted(self.plans)]

    def under_way(self):
        """The plans of copies that are neither lost nor delivered, in the order of copies."""
        return [it for it in self.listed() if it.copy not in self.lost and it.end > self.now]

    def empty(self):
        return {it for it, count in self.free.items() if count == 0}

    def forget(self):
        """Drops the plans that are not live any more."""
        self.plans = {it: plan for it, plan in self.plans.items() if is_live(self.machine, plan, self.now)}

    # Plans that come and go.

    def add(self, plan):
        if plan.copy not in self.plans and self.free[plan.actions[0].source] is not None:
            self.free[plan.actions[0].source] -= 1
        self.plans[plan.copy] = plan
        self.waiting.pop(plan.copy, None)

    def take_away(self, plan):
        """Withdraws the plan of an unstarted copy, whose sheet goes back to the stock."""
        if self.free[plan.actions[0].source] is not None:
            self.free[plan.actions[0].source] += 1
        del self.plans[plan.copy]

    def make_front(self, plan, goal):
        """Ends the plan with the running action."""
        count = plan.running(self.now) + 1
        front = plan.changed(goal=goal, whole=False, actions=plan.actions[:count], points=plan.points[: count + 1], released=count)
        self.plans[plan.copy] = front

    # Refusals.

    def refusal(self, event):
        """The cause for which the event is refused, or None."""
        causes = {"?": lambda: "syntax", "job": self.refusal_of_job, "clock": self.refusal_of_clock,
                  "refill": self.refusal_of_refill}
        return causes.get(event.verb, self.refusal_of_module)(*event.words)

    def refusal_of_job(self, name, tray, medium, *groups):
        if tray not in self.machine.trays:
            return f"tray {tray}"
        if medium not in self.machine.feeders.values():
            return f"media {medium}"
        if name in self.places:
            return f"named {name}"
        count = sum(int(it.split("*")[0]) if "*" in it else 1 for it in groups)
        return "waiting" if len(self.waiting) + count > MOST_WAITING else None

    def refusal_of_clock(self, to):
        if int(to) < self.now:
            return f"back {self.now}"
        return "end" if int(to) > CLOCK_END else None

    def refusal_of_refill(self, feeder, count):
        if feeder not in self.machine.feeders:
            return f"feeder {feeder}"
        if self.free[feeder] is None:
            return f"endless {feeder}"
        return f"stock {feeder}" if self.free[feeder] + int(count) > MOST_STOCK else None

    def refusal_of_module(self, module):
        return f"module {module}" if module not in self.machine.modules else None

    def refusal_of_switch(self, event):
        """The cause for which `off` or `on` of a known module is refused, or None."""
        module = event.words[0]
        if event.verb == "off" and module in self.out:
            return f"out {module}"
        return f"noton {module}" if event.verb == "on" and module not in self.out else None

    # Jobs, refills and the clock.

    def add_job(self, event):
        name, tray, medium = event.words[:3]
        self.places[name] = len(self.jobs)
        self.jobs.append(Job(name, tray))
        number = 0
        for count, front, back, face in sheets_of(event):
            for _ in range(count):
                number += 1
                self.waiting[Copy(self.places[name], number, 1)] = Sheet(medium, front, back, face)

    def refill(self, feeder, count):
        self.free[feeder] += int(count)

    def move_clock(self, to, told):
        """Tells what is released and done up to a moment, and comes to it."""
        found = []
        for plan in self.listed():
            if plan.whole and self.now < plan.end <= to:
                place = plan.actions[-1].target
                found.append((plan.end, 0, plan.copy, 0, f"done {self.name(plan.copy)} {place} {plan.end}"))
            for at, text in self.due_releases(plan, to):
                found.append((plan.points[at] - self.machine.lead, 1, plan.copy, at, text))
        for *_, text in sorted(found):
            told.take(text)
        self.now = to
        self.forget()

    def due_releases(self, plan, now):
        """Releases the actions that start within the lead of a moment; gives their places and records."""
        while plan.whole and plan.released < len(plan.actions) and plan.points[plan.released] <= now + self.machine.lead:
            at = plan.released
            plan.released += 1
            start, end = plan.points[at], plan.points[at + 1]
            yield at, f"release {self.name(plan.copy)} {at + 1} {plan.actions[at].name} {start} {end}"

    def settle(self, told):
        """Gives each point that is not fixed its least tick, and tells the plans that change."""
        least = least_points(self.machine, self.listed(), self.now)
        for plan in self.listed():
            if least[plan.copy] != plan.points:
                plan.points = least[plan.copy]
                told.take(f"move {self.name(plan.copy)} {' '.join(map(str, plan.points))}")
