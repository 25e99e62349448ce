"""Compares a snapshot with where a judge's session stands."""
import json

from machine import read_machine


def snapshot_of(standing):
    """The value of a snapshot, without its machine."""
    plans = standing.listed()
    return {
        "format": 1,
        "jobs": [{"broken": job.broken, "name": job.name, "tray": job.tray} for job in standing.jobs],
        "now": standing.now,
        "out": [it for it in standing.machine.modules if it in standing.out],
        "plans": [plan_of(standing, plan) for plan in plans],
        "stock": list(standing.free.values()),
        "waiting": [{"sheet": standing.name(it), "want": want_of(standing.waiting[it])} for it in sorted(standing.waiting)],
    }


def plan_of(standing, plan):
    return {
        "acts": [it.name for it in plan.actions], "goal": plan.goal, "points": plan.points,
        "sheet": standing.name(plan.copy), "want": want_of(plan.sheet), "whole": plan.whole,
    }


def want_of(sheet):
    return f"{sheet.medium} {sheet.front}{sheet.back}:{sheet.face}"


def flaw_of_snapshot(data, standing):
    """Why a snapshot's bytes are not where the session stands, or None."""
    value = json.loads(data)
    machine = read_machine(value.pop("machine").encode())
    if vars(machine) != vars(standing.machine):
        return "the machine of the snapshot is another one"
    wanted = snapshot_of(standing)
    return next((f"{key} of the snapshot: {value.get(key)} and not {wanted.get(key)}"
                 for key in {**value, **wanted} if value.get(key) != wanted.get(key)), None)
