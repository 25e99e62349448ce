"""What happens to copies as a module goes out: losses, cuts, fall-backs, breaks, and the loop over loose copies."""
from schedule import Copy


class Outage:
    """An event that takes a module out, record by record. `answer` reads the answer to an ask from the log."""

    def __init__(self, standing, told, answer):
        self.standing, self.told, self.answer = standing, told, answer

    def run(self, module, is_jam):
        self.take_out(module, is_jam)
        while (loose := self.first_loose()) is not None:
            self.ask(loose)
        self.standing.settle(self.told)

    def say(self, verb, copy, *words):
        self.told.take(" ".join([verb, self.standing.name(copy), *map(str, words)]))

    def recall(self, plan):
        """Tells each released action that has not started."""
        for at in range(plan.released):
            if plan.points[at] > self.standing.now:
                self.say("recall", plan.copy, at + 1)

    def first_loose(self):
        """The first copy with a front that is not lost, or None."""
        return next((it for it in self.standing.under_way() if not it.whole), None)

    # The outage of a module.

    def take_out(self, module, is_jam):
        self.standing.out.add(module)
        lost = self.lose(module) if is_jam else []
        withdrawn = self.strand(module)
        displaced = sorted(lost + withdrawn)
        for copy in displaced:
            if not self.standing.jobs[copy.job].broken:
                self.fall_back(copy, is_gone=copy in lost)

    def lose(self, module):
        """Loses each copy whose running action uses the module; gives those that were on their way to the tray."""
        displaced = []
        for plan in self.standing.under_way():
            running = plan.running(self.standing.now)
            if running is None or module not in plan.actions[running].uses:
                continue
            self.say("lost", plan.copy)
            self.recall(plan)
            self.standing.lost.add(plan.copy)
            self.standing.make_front(plan, plan.goal)
            if plan.goal is not None:
                displaced.append(plan.copy)
        return displaced

    def strand(self, module):
        """Withdraws or cuts each other copy that still needs the module; gives those that are withdrawn."""
        displaced = []
        for plan in self.standing.under_way():
            ahead = [it for it, start in zip(plan.actions, plan.points) if start > self.standing.now]
            if not any(module in action.uses for action in ahead):
                continue
            self.recall(plan)
            if plan.is_unstarted(self.standing.now):
                self.withdraw(plan)
                displaced.append(plan.copy)
            else:
                self.say("cut", plan.copy)
                self.standing.make_front(plan, plan.goal)
        return displaced

    def withdraw(self, plan):
        self.say("withdraw", plan.copy)
        self.standing.take_away(plan)
        self.standing.waiting[plan.copy] = plan.sheet

    # The fall-back and the break.

    def fall_back(self, copy, is_gone):
        """The copy's sheet waits again, and the later copies of its line make way; or else its job breaks."""
        later = [it for it in self.standing.under_way() if it.copy > copy and it.goal == self.standing.tray(copy)]
        if any(it.is_entering(self.standing.now) for it in later):
            self.break_job(copy.job)
            return
        if is_gone:
            self.again(copy, self.standing.plans[copy].sheet)
        for plan in later:
            self.recall(plan)
            if plan.is_unstarted(self.standing.now):
                self.withdraw(plan)
            else:
                self.give_up(plan)
                self.again(plan.copy, plan.sheet)

    def again(self, copy, sheet):
        following = Copy(copy.job, copy.sheet, copy.number + 1)
        self.standing.waiting[following] = sheet
        self.say("again", following)

    def give_up(self, plan):
        """The copy gives its tray up, and is to be purged."""
        self.say("purge", plan.copy)
        self.standing.make_front(plan, None)

    def break_job(self, job):
        standing = self.standing
        standing.jobs[job].broken = True
        self.told.take(f"broken {standing.jobs[job].name}")
        plans = {it.copy: it for it in standing.under_way() if it.copy.job == job}
        for copy in sorted([*plans, *(it for it in standing.waiting if it.job == job)]):
            plan = plans.get(copy)
            if plan is None or plan.is_unstarted(standing.now):
                self.drop(copy, plan)
            elif plan.goal is not None and not plan.is_entering(standing.now):
                self.recall(plan)
                self.give_up(plan)

    def drop(self, copy, plan):
        if plan:
            self.recall(plan)
            self.standing.take_away(plan)
        else:
            del self.standing.waiting[copy]
        self.say("drop", copy)

    # The loop.

    def ask(self, front):
        """Asks a loose copy for its goal. Without a plan it gives its tray up, or the module that it is in jams."""
        if self.answer(front.copy, front.sheet, front.goal, front):
            plan = self.standing.plans[front.copy]
            for _, text in self.standing.due_releases(plan, self.standing.now):
                self.told.take(text)
        elif front.goal is not None:
            self.give_up(front)
            self.fall_back(front.copy, is_gone=True)
        else:
            module = front.actions[front.running(self.standing.now)].module
            self.say("stuck", front.copy, module)
            self.take_out(module, True)
