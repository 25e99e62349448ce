"""Judges the log of a farm: each machine's part, and to which machines each line goes."""
from judge import Judge
from log import Fault, read_log
from machine import Sheet
from schedule import Copy
from script import BAD, event_of, lines_of, sheets_of
from search import Ask, Undecided, least_end
from state import MOST_LIVE, Told


def part_of(data, number):
    """The lines of one machine, without its number."""
    mark = b"%d " % number
    return b"".join(line[len(mark):] for line in data.splitlines(keepends=True) if line.startswith(mark))


def read_farm_script(data, count):
    """The events of a farm's script of bytes, each with its machine if the line names one."""
    return [addressed(words, count) for words in lines_of(data)]


def addressed(words, count):
    if words[0] != "at":
        event = event_of(words)
        return (event, None) if event.verb in ("job", "clock") else (BAD, None)
    event = event_of(words[2:]) if len(words) > 2 else BAD
    is_known = event.verb in ("jam", "off", "on", "refill") and words[1] in map(str, range(1, count + 1))
    return (event, int(words[1])) if is_known else (BAD, None)


class FarmJudge:
    """Judges a farm's log of machines, beside the events of its script, each with its machine or None."""

    def __init__(self, machines, work):
        self.judges = [Judge(machine, work=work) for machine in machines]
        self.owners, self.work = {}, work

    def judge(self, events, data):
        order = [int(line.split(b" ")[0]) for line in data.splitlines() if line.split(b" ")[1] == b">"]
        parts = [iter(read_log(part_of(data, number))) for number in range(1, len(self.judges) + 1)]
        for event, number in events:
            for target in self.targets(event, number, order):
                if not order or order.pop(0) != target:
                    raise Fault(0, f"`{event.echo()}` goes to machine {target}")
                self.turn(target, next(parts[target - 1]), event)
        if order:
            raise Fault(0, "more events than the script has")

    def turn(self, target, entry, event):
        if entry.event != event:
            raise Fault(entry.line, f"machine {target}: due: {event.echo()}")
        judge = self.judges[target - 1]
        if event.verb == "job" and judge.standing.refusal(event) is None:
            self.owners[event.words[0]] = target
        judge.turn(Told(entry, entry.line + len(entry.records) + 1))

    def targets(self, event, number, order):
        """The machines that a line goes to. If a search is too large, the one that it went to is taken."""
        if event.verb == "clock":
            return range(1, len(self.judges) + 1)
        if event.verb != "job":
            return [number or 1]
        if event.words[0] in self.owners:
            return [self.owners[event.words[0]]]
        try:
            return [self.best(event)]
        except Undecided:
            return order[:1]

    def best(self, event):
        ends = [(end, number) for number, judge in enumerate(self.judges, 1) if (end := self.probe(judge, event)) is not None]
        if ends:
            return min(ends)[1]
        takers = [number for number, judge in enumerate(self.judges, 1) if judge.standing.refusal(event) is None]
        return min(takers, default=1)

    def probe(self, judge, event):
        """The end that an ask for the first sheet of the job gives, or None. A small budget leaves it open."""
        standing, tray = judge.standing, event.words[1]
        waits = any(standing.tray(it) == tray for it in standing.waiting)
        if standing.refusal(event) or waits or len(standing.plans) >= MOST_LIVE:
            return None
        if judge.machine.budget <= 20:
            raise Undecided
        sheet = Sheet(event.words[2], *sheets_of(event)[0][1:])
        copy = Copy(len(standing.jobs), 1, 1)
        ask = Ask(copy, sheet, tray, None, set(standing.out), standing.empty(), standing.now)
        return least_end(judge.machine, standing.listed(), ask, self.work)
