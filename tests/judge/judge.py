"""Judges a log: replays it by the rules, and decides each answer in it."""
from collections import Counter

from budgets import flaw_of_budget
from log import Fault, read_log
from outage import Outage
from schedule import Plan, flaw_of_schedule, least_points, orders
from search import Ask, Search, Undecided
from state import MOST_LIVE, Standing, Told
from trees import check_tree

# How many steps a search may take before it is left undecided.
WORK = 20_000


class Judge:
    """Replays a log on a machine.

    With `needs_trees` it judges as `check` does: each plan and none needs its tree, and nothing is
    searched. Else it searches, and checks the trees that there are. `budget` is that of the run, if it
    is not the machine's.
    """

    def __init__(self, machine, needs_trees=False, work=WORK, budget=None):
        self.machine, self.needs_trees, self.work = machine, needs_trees, work
        self.budget = budget or machine.budget
        self.standing = Standing(machine)
        self.counts, self.decided, self.undecided = Counter(), Counter(), []

    def judge(self, data):
        """Judges the whole log. Raises Fault at the first line that is wrong."""
        text = data.decode("latin-1")
        entries = read_log(data)
        behind = [entry.line for entry in entries[1:]] + [text.count("\n") + 1]
        for entry, line in zip(entries, behind):
            self.turn(Told(entry, line))

    def turn(self, told):
        """Judges the records of one event."""
        event = told.entry.event
        self.counts["events"] += 1
        self.counts.update(record.kind for record in told.entry.records)
        self.told = told
        cause = self.standing.refusal(event)
        if cause is None and event.verb in ("off", "on"):
            cause = self.standing.refusal_of_switch(event)
        if cause is not None:
            told.take(f"refused {cause}")
        else:
            self.apply(event)
            self.ask_all()
        told.close()

    def apply(self, event):
        standing = self.standing
        if event.verb == "job":
            standing.add_job(event)
        elif event.verb == "clock":
            standing.move_clock(int(event.words[0]), self.told)
        elif event.verb == "refill":
            standing.refill(*event.words)
        elif event.verb == "on":
            standing.out.discard(event.words[0])
        else:
            Outage(standing, self.told, self.answer).run(event.words[0], event.verb == "jam")

    def ask_all(self):
        """The phase of asks: the copies that wait, in their order, until their line has no plan."""
        blocked = set()
        for copy in sorted(self.standing.waiting):
            tray = self.standing.tray(copy)
            if tray in blocked:
                continue
            if len(self.standing.plans) >= MOST_LIVE:
                self.told.take(f"full {self.standing.name(copy)}")
                blocked.add(tray)
            elif not self.answer(copy, self.standing.waiting[copy], tray, None):
                blocked.add(tray)

    # Answers.

    def answer(self, copy, sheet, goal, front):
        """Judges the answer to an ask, and tells whether it is a plan."""
        standing = self.standing
        empty = set() if front else standing.empty()
        ask = Ask(copy, sheet, goal, front, set(standing.out), empty, standing.now)
        record = self.told.take_any(f"an answer for {standing.name(copy)}")
        start = f"{standing.name(copy)} {goal or '*'}"
        if record.text == f"none {start}":
            self.judge_none(ask, record)
        elif record.kind == "budget" and record.text.startswith(f"budget {start} "):
            self.judge_budget(ask, record)
        elif record.kind == "plan" and record.words[1] == standing.name(copy):
            self.judge_plan(ask, record)
        else:
            raise Fault(record.line, f"due: an answer for {start}")
        return record.kind == "plan"

    def judge_none(self, ask, record):
        horizon = ask.now + self.machine.window
        self.check_tree(ask, horizon, record)
        self.check_search(ask, horizon, record)

    def judge_budget(self, ask, record):
        if self.needs_trees:
            return
        tick = int(record.words[3])
        self.check_search(ask, tick - 1, record)
        try:
            flaw = flaw_of_budget(self.machine, self.standing.listed(), ask, tick, self.budget, self.work)
        except Undecided:
            self.undecided.append(record.line)
            return
        if flaw:
            raise Fault(record.line, flaw)
        self.decided["tick of a budget"] += 1

    def judge_plan(self, ask, record):
        plan = self.planned(ask, record)
        changed, last = self.moved(ask)
        before = self.standing.listed()
        after = [changed.get(it.copy, it) for it in before if it.copy != ask.copy] + [plan]
        self.check_alternative(ask, before, after, record)
        self.check_tree(ask, plan.end - 1, last or record)
        self.check_search(ask, plan.end - 1, record)
        for it in after:
            self.standing.add(it)

    def planned(self, ask, record):
        """The plan of a record, with the actions that a copy in flight keeps."""
        words = record.words
        actions = [self.machine.action_named.get(it) for it in words[4::2]]
        ticks = [int(it) for it in words[3::2]]
        if None in actions:
            raise Fault(record.line, "no action of the machine")
        if actions[-1].target != words[2]:
            raise Fault(record.line, "the last action leads to another place")
        kept, points = (ask.front.actions, ask.front.points) if ask.front else ([], ticks[:1])
        if ticks[0] != points[-1]:
            raise Fault(record.line, f"the sheet is free from {points[-1]} on")
        plan = Plan(ask.copy, ask.sheet, ask.goal, True, [*kept, *actions], [*points, *ticks[1:]], len(kept))
        if any(not ask.allows(it) for it in actions):
            raise Fault(record.line, "an action that uses a module that is out")
        if not ask.front and actions[0].source in ask.empty:
            raise Fault(record.line, "a feeder that is empty")
        return plan

    def moved(self, ask):
        """The plans of the moves up to the plan's tree, by their copies, and the last record of these."""
        changed, last = {}, None
        while self.told.peek() and self.told.peek().kind == "move" and not self.told.last().tree:
            last = self.told.take_any("a move")
            copy = self.standing.copy_named(last.words[1])
            plan, points = self.standing.plans.get(copy), [int(it) for it in last.words[2:]]
            if plan is None or copy == ask.copy or (changed and copy <= max(changed)):
                raise Fault(last.line, "due: no move of this copy")
            if len(points) != len(plan.points) or points == plan.points:
                raise Fault(last.line, "due: the points of a plan that changed")
            changed[copy] = plan.changed(points=points)
        return changed, last

    def check_alternative(self, ask, before, after, record):
        """Raises Fault if the new schedule is no alternative, or not least."""
        flaw = flaw_of_schedule(self.machine, after) or self.flaw_of_bounds(ask, before, after)
        if flaw is None and not self.keeps_orders(ask, before, after):
            flaw = "the holds on a resource stand in another order than before"
        if flaw:
            raise Fault(record.line, flaw)
        least = least_points(self.machine, after, ask.now, ask.copy if ask.front else None)
        for plan in after:
            if least[plan.copy] != plan.points:
                name = self.standing.name(plan.copy)
                raise Fault(record.line, f"{name} stands at {plan.points}, and could at {least[plan.copy]}")

    def flaw_of_bounds(self, ask, before, after):
        old = {plan.copy: plan for plan in before}
        for plan in after:
            for at, tick in enumerate(plan.points):
                if plan.is_fixed(at):
                    if plan.copy in old and tick != old[plan.copy].points[at]:
                        return "a point that is fixed has moved"
                    continue
                if tick > ask.now + self.machine.window:
                    return f"{tick} is after the horizon"
                is_start = at < len(plan.actions) and not (ask.front and plan.copy == ask.copy)
                if is_start and tick <= ask.now + self.machine.lead:
                    return f"a start at {tick} is within the lead"
        return None

    def keeps_orders(self, ask, before, after):
        def others(plans):
            kept = ask.kept()
            return {resource: [(it.copy, it.at) for it in held if it.copy != ask.copy or it.at < kept]
                    for resource, held in orders(self.machine, plans).items()}

        return others(before) == others(after)

    def check_tree(self, ask, limit, record):
        """Checks the tree behind a record."""
        behind = record.line + len(record.tree) + 1
        if record.tree:
            check_tree(self.machine, self.standing.listed(), ask, limit, record.tree, behind, self.standing.copy_named)
        elif self.needs_trees:
            raise Fault(behind, "due: a tree")

    def check_search(self, ask, limit, record):
        """Raises Fault if an alternative ends by the limit."""
        if self.needs_trees:
            return
        try:
            found = Search(self.machine, self.standing.listed(), ask, self.work).find(limit)
        except Undecided:
            self.undecided.append(record.line)
            return
        if found is not None:
            raise Fault(record.line, f"a plan ends at {found}")
        self.decided[record.kind] += 1
