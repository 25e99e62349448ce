"""The schedule that a snapshot has, by docs/chart.md alone: where the schedule of a resumed log begins."""
import json

from told import Outage, Schedule, Way


def schedule_in(snapshot, machine):
    """The moment, the live plans with their released actions, the modules that are out since then, and the copies that wait."""
    value = json.loads(snapshot)
    now = value["now"]
    outs = [Outage(name, "out", now, None) for name in value["out"]]
    schedule = Schedule(now, outs=outs, waiting={it["sheet"] for it in value["waiting"]})
    for plan in value["plans"]:
        acts, points = plan["acts"], plan["points"]
        started = sum(start <= now + machine.lead for start in points[:-1])
        way = Way(plan["sheet"], acts, points, machine.action_named[acts[-1]].target, started if plan["whole"] else len(acts), not plan["whole"])
        schedule.ways[way.copy] = way
    return schedule
