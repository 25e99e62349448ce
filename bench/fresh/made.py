"""Machines made from a number, each with a script whose last event is a job. A copy in flight is asked for shortly before it."""
import random

HEAD = """format = 1
lead = 2
window = {window}
locations = ["f", "g", "a", "b", "c", "t"]
modules = ["FEED", "OTHER", "BY1", "BY2", {modules}, "OUT"]
trays = ["t"]

[feeders]
f = "plain"
g = "other"

[resources]
rf = "FEED"
{resources}
rt = "OUT"
"""

ACTION = """
[[actions]]
name = "{name}"
module = "{module}"
from = "{from_}"
to = "{to}"
least = {least}
most = {most}
{more}"""


def action(name, module, way, durations, more=""):
    return ACTION.format(name=name, module=module, from_=way[0], to=way[1], least=durations[0], most=durations[1], more=more)


def held(resource, begin, end):
    return f'holds = [{{ resource = "{resource}", begin = {begin}, end = {end} }}]\n'


def machine(number):
    """Unlike engines side by side that can hold a sheet for long, and two ways more for another medium that end in the same tray."""
    pick = random.Random(number)
    engines = [f"ENG{k}" for k in range(1, pick.randint(2, 3) + 1)]
    text = HEAD.format(
        window=pick.choice([400, 900, 2000]),
        modules=", ".join(f'"{engine}"' for engine in engines),
        resources="\n".join(f'{engine.lower()} = "{engine}"' for engine in engines),
    )
    slack = pick.choice([20, 200, 2000])
    text += action("feed", "FEED", "fa", (2, 2 + slack), held("rf", '["start", 0]', '["start", 2]'))
    for engine in engines:
        least = pick.randint(3, 9)
        holds = held(engine.lower(), '["start", 0]', '["end", 0]' if slack < 200 else '["start", 3]')
        text += action(f"print_{engine.lower()}", engine, "ab", (least, least + slack), 'prints = ["mono"]\n' + holds)
    text += action("out", "OUT", "bt", (3, 3 + slack), held("rt", '["end", -2]', '["end", 0]'))
    text += action("other", "OTHER", "gc", (4, 4 + slack))
    for way, least in (("by1", 5), ("by2", 6)):
        text += action(way, way.upper(), "cb", (least, least + slack), 'prints = ["mono"]\n')
    return text


def script(number):
    """A sheet that is on its way when the engine that it was to go to goes off, many sheets behind it, and then the job that is looked at."""
    pick = random.Random(1000 + number)
    sheets = pick.randint(20, 90)
    return [
        "job a t other M-:F\n",
        f"job j t plain {sheets}*M-:F\n",
        "clock 4\n",
        "off BY1\n",
        "job k t plain M-:F\n",
    ]
