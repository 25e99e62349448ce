"""The cases of bench/run and bench/baseline: machines and scripts, made from a few lines each."""
import os
import re
import subprocess
from dataclasses import dataclass

TOP = os.path.dirname(os.path.dirname(os.path.abspath(__file__)))


@dataclass(frozen=True)
class Case:
    """A machine text, or a rack text that the program composes, and a script."""

    machine: str
    script: str
    is_rack: bool = False

    def write_machine(self, program, path):
        """Writes the machine text to a file."""
        with open(path, "w", encoding="utf-8") as file:
            file.write(self.machine)
        if self.is_rack:
            composed = subprocess.run([program, "compose", path], stdout=subprocess.PIPE, check=True).stdout
            with open(path, "wb") as file:
                file.write(composed)


def read(path):
    with open(os.path.join(TOP, path), encoding="utf-8") as file:
        return file.read()


def quoted(names):
    return "[" + ", ".join(f'"{it}"' for it in names) + "]"


def hold(resource, begin, end):
    return f'{{ resource = "{resource}", begin = ["{begin[0]}", {begin[1]}], end = ["{end[0]}", {end[1]}] }}'


def start(offset=0):
    return "start", offset


def end(offset=0):
    return "end", offset


WHOLE = start(), end()
ALL_INKS, MONO = ("mono", "colour"), ("mono",)


class Machine:
    """A machine text in the making: one feeder `f`, a tray `t`, and a purge tray `p` unless it has none."""

    def __init__(self, window, locations=("f", "t", "p"), modules=(), has_purge=True):
        self.window, self.locations, self.modules = window, list(locations), list(modules)
        self.has_purge, self.resources, self.actions = has_purge, {}, []

    def resource(self, name, module):
        """Gives a resource its module, if it is not that of the first action that holds it."""
        self.resources[name] = module

    def action(self, name, module, way, least, most, holds=(), prints=(), flip=False):
        self.locations += [it for it in way if it not in self.locations]
        self.modules += [module] if module not in self.modules else []
        for resource, _, _ in holds:
            self.resources.setdefault(resource, module)
        lines = [f'name = "{name}"', f'module = "{module}"', f'from = "{way[0]}"', f'to = "{way[1]}"', f"least = {least}", f"most = {most}"]
        lines += [f"prints = {quoted(prints)}"] if prints else []
        lines += ["flip = true"] if flip else []
        lines += ["holds = [" + ", ".join(hold(*it) for it in holds) + "]"] if holds else []
        self.actions.append("[[actions]]\n" + "\n".join(lines) + "\n")

    def text(self):
        head = f"format = 1\nlead = 2\nwindow = {self.window}\nlocations = {quoted(self.locations)}\nmodules = {quoted(self.modules)}\n"
        head += 'trays = ["t"]\n' + ('purge = ["p"]\n' if self.has_purge else "") + '\n[feeders]\nf = "plain"\n\n[resources]\n'
        head += "".join(f'{name} = "{module}"\n' for name, module in self.resources.items())
        return head + "\n" + "\n".join(self.actions)


# Machines of a few modules.


def rack(engines, least):
    """Engines side by side between one feeder and one tray; engine k takes least(k) ticks."""
    machine = Machine(8000)
    machine.action("feed", "FEED", ("f", "a"), 2, 6, [("entry", end(-2), end())])
    for k in range(1, engines + 1):
        machine.action(f"in{k}", f"ENG{k}", ("a", f"e{k}"), 2, 8, [(f"in{k}", *WHOLE)])
        machine.action(f"print{k}", f"ENG{k}", (f"e{k}", f"x{k}"), least(k), least(k) + 6, [(f"drum{k}", *WHOLE)], MONO)
        machine.action(f"off{k}", f"ENG{k}", (f"x{k}", "b"), 2, 10, [(f"exit{k}", end(-2), end())])
    machine.action("out", "OUT", ("b", "t"), 3, 30, [("end", end(-1), end())])
    machine.action("dump", "DUMP", ("b", "p"), 3, 3)
    return machine.text()


def loop():
    """One engine, which a sheet passes twice, with a way back that turns it over."""
    machine = Machine(8000)
    machine.action("feed", "FEED", ("f", "a"), 2, 6, [("entry", end(-2), end())])
    machine.action("print", "ENG", ("a", "b"), 5, 8, [("drum", *WHOLE)], MONO)
    machine.action("turn", "TURN", ("b", "c"), 4, 12, [("flap", start(), start(3))], (), True)
    machine.action("back", "BACK", ("c", "a"), 3, 20, [("path", end(-2), end())])
    machine.action("out", "OUT", ("b", "t"), 3, 30, [("end", end(-1), end())])
    machine.action("dump", "DUMP", ("b", "p"), 3, 3)
    return machine.text()


def duplex(wait):
    """One engine with a bypass, and a loop in which a sheet may wait so many ticks."""
    machine = Machine(4000, ("f", "a", "b", "c", "d", "t", "p"), ("FEED", "ENG", "TURN", "LOOP", "OUT", "DUMP"))
    machine.action("feed", "FEED", ("f", "a"), 2, 6, [("rf", start(), start(2))])
    machine.action("print", "ENG", ("a", "b"), 5, 6, [("re", start(), end(1))], ALL_INKS)
    machine.action("pass", "ENG", ("a", "b"), 3, 4, [("re", start(), end(1))])
    machine.action("turn", "TURN", ("b", "c"), 6, 10, [("rn", *WHOLE)], (), True)
    machine.action("back", "LOOP", ("c", "a"), 4, wait, [("rl", start(), start(3)), ("rm", end(-2), end())])
    machine.action("flip", "OUT", ("b", "d"), 3, 8, [("rd", *WHOLE)], (), True)
    machine.action("go", "OUT", ("b", "d"), 2, 8, [("rd", *WHOLE)])
    machine.action("out", "OUT", ("d", "t"), 3, 30, [("rt", end(-1), end())])
    machine.action("dump", "DUMP", ("b", "p"), 3, 30, [("rp", end(-1), end())])
    return machine.text()


def chain(length):
    """A long way of one step after another."""
    machine = Machine(30000)
    for k in range(length):
        way = ("f" if k == 0 else f"s{k}", "t" if k == length - 1 else f"s{k + 1}")
        machine.action(f"step{k}", f"M{k % 60}", way, 2, 9, [(f"r{k}", *WHOLE)])
    machine.action("dump", "DUMP", ("s1", "p"), 3, 3)
    return machine.text()


# Machines on which a sheet may wait long, or go many ways.


def slack(ticks, wait, window):
    """Eight unlike engines side by side. Each action may take some ticks longer than its least, and the last one up to `wait`."""
    engines = range(8)
    machine = Machine(window, ("f", "a", "b", "t", "p", *(f"e{i}" for i in engines), *(f"x{i}" for i in engines)),
                      ("FEED", "OUT", "DUMP", *(f"G{i}" for i in engines)))
    machine.resource("rb", "OUT")
    machine.action("feed", "FEED", ("f", "a"), 2, 2 + ticks, [("rf", start(), start(2))])
    for i in engines:
        machine.action(f"in{i}", f"G{i}", ("a", f"e{i}"), 1 + i * 7 % 3, 6 + ticks, [(f"ri{i}", *WHOLE)])
        machine.action(f"print{i}", f"G{i}", (f"e{i}", f"x{i}"), 15 + i, 15 + i + ticks, [(f"re{i}", *WHOLE)], MONO if i % 2 else ALL_INKS)
        machine.action(f"out{i}", f"G{i}", (f"x{i}", "b"), 2 + i % 2, 6 + ticks, [(f"ro{i}", *WHOLE)])
    machine.action("stack", "OUT", ("b", "t"), 2, wait, [("rb", start(), start(1)), ("rt", end(-1), end())])
    machine.action("dump", "DUMP", ("b", "p"), 2, 40, [("rb", start(), start(1))])
    return machine.text()


def buffers(count):
    """One engine, and so many buffers behind it, each of which keeps one sheet for up to 400 ticks."""
    machine = Machine(8000, ("f", "a", "b", "c", "t", "p", *(f"s{i}" for i in range(count))),
                      ("FEED", "ENG", "OUT", "DUMP", *(f"B{i}" for i in range(count))))
    machine.resource("rin", "ENG")
    machine.resource("rout", "OUT")
    machine.resource("rt", "OUT")
    machine.action("feed", "FEED", ("f", "a"), 2, 8, [("rf", start(), start(2))])
    machine.action("print", "ENG", ("a", "b"), 6, 8, [("re", *WHOLE)], ALL_INKS)
    for i in range(count):
        machine.action(f"in{i}", f"B{i}", ("b", f"s{i}"), 2, 6, [("rin", start(), start(2))])
        machine.action(f"wait{i}", f"B{i}", (f"s{i}", "c"), 3, 400, [(f"rs{i}", *WHOLE)])
    machine.action("out", "OUT", ("c", "t"), 3, 10, [("rout", start(), start(2)), ("rt", end(-1), end())])
    machine.action("dump", "DUMP", ("c", "p"), 3, 10)
    return machine.text()


def grid(width, height):
    """Cells with paths to the right, up and down. Those of the second column print on the way to the right."""
    cells = [(x, y) for x in range(width) for y in range(height)]
    machine = Machine(3000, ("f", "t", "p", *(f"i{x}_{y}" for x, y in cells)), ("FEED", "OUT", *(f"C{x}_{y}" for x, y in cells)))
    for y in range(height):
        machine.action(f"feed{y}", "FEED", ("f", f"i0_{y}"), 2, 8, [("rf", start(), start(2))])
    for x, y in cells:
        cell = [(f"r{x}_{y}", *WHOLE)]
        for name, x_to, y_to in (("e", x + 1, y), ("s", x, y + 1), ("n", x, y - 1)):
            if (x_to, y_to) in cells:
                machine.action(f"{name}{x}_{y}", f"C{x}_{y}", (f"i{x}_{y}", f"i{x_to}_{y_to}"), 3, 12, cell)
        if x == 1:
            machine.action(f"pr{x}_{y}", f"C{x}_{y}", (f"i{x}_{y}", f"i{x + 1}_{y}"), 9 + y, 21, cell, ALL_INKS)
    for y in range(height):
        last = f"{width - 1}_{y}"
        machine.action(f"out{y}", "OUT", (f"i{last}", "t"), 2, 40, [(f"r{last}", start(), start(2)), ("rt", end(-1), end())])
    machine.action("dump", "OUT", (f"i{width - 1}_0", "p"), 2, 40)
    return machine.text()


def full(stages, abreast):
    """As many actions, resources, modules and holds as a machine may have: stages one after another, with so many ways through each."""
    places = ("f", *(f"l{s}" for s in range(stages - 1)), "t")
    machine = Machine(4000, places, [f"M{i}" for i in range(64)], has_purge=False)
    for k in range(256):
        machine.resource(f"r{k:03}", f"M{k % 64}")
    for i in range(stages * abreast):
        s, k = divmod(i, abreast)
        holds = [(f"r{(i + i // 2 + 61 * j) % 256:03}", start(j), end()) for j in range(4)]
        machine.action(f"a{i}", f"M{i % 64}", (places[s], places[s + 1]), 6 + k % 5, 20, holds, MONO if s == stages // 2 else ())
    return machine.text()


# Scripts.


def stream(jobs):
    """Small jobs as they come, and a jam now and then."""
    lines, clock = [], 0
    for k in range(1, jobs + 1):
        lines.append(f"job j{k} t plain {1 + k % 3}*M-:F")
        clock += 12
        lines.append(f"clock {clock}")
        if k % 50 == 0:
            lines += [f"jam ENG{1 + k // 50 % 8}", f"clock {clock + 5}", f"on ENG{1 + k // 50 % 8}", "on FEED"]
            clock += 5
    return "\n".join(lines + [f"clock {clock + 5000}"]) + "\n"


def sheets(count):
    """One job of so many sheets, which all come out."""
    return f"job a t plain {count}*M-:F\nclock 9000\n"


def sheets_one_by_one(script):
    """The script with each job of several sheets as jobs of one sheet, in the same order."""
    lines, count = [], 0
    for line in script.splitlines():
        words = line.split()
        if not words or words[0] != "job":
            lines.append(line)
            continue
        for group in words[4:]:
            times, spec = re.fullmatch(r"(?:(\d+)\*)?(.*)", group).groups()
            for _ in range(int(times or 1)):
                count += 1
                lines.append(f"job s{count} {words[2]} {words[3]} {spec}")
    return "\n".join(lines) + "\n"


CASES = {
    "line": Case(read("machines/line.toml"), read("scripts/line.txt")),
    "many": Case(read("machines/line.toml"), "job big t plain 257*M-:F\nclock 14\n"),
    "rack": Case(read("machines/rack.toml"), read("scripts/rack.txt")),
    "even": Case(rack(8, lambda k: 15), "job a t plain 200*M-:F\nclock 40\noff ENG1\nclock 60\njam ENG2\non FEED\nclock 5000\n"),
    "sixteen": Case(rack(16, lambda k: 14 + k), "job a t plain 200*M-:F\nclock 60\njam ENG3\nclock 120\non ENG3\non FEED\nclock 5000\n"),
    "loop": Case(loop(), "job a t plain 60*MM:B\nclock 100\njam TURN\nclock 200\non TURN\non ENG\nclock 5000\n"),
    "chain": Case(chain(62), "job a t plain 257*--:F\nclock 4\n"),
    "stream": Case(rack(8, lambda k: 14 + k), stream(500)),
    "duplex": Case(read("racks/duplex.toml"), read("scripts/duplex.txt"), is_rack=True),
}

# Those of the searches that take long: a sheet may wait long, go many ways, or both. They have as many sheets as a few seconds allow.
WIDE_CASES = {
    "grid44": Case(grid(4, 4), sheets(20)),
    "grid54": Case(grid(5, 4), sheets(20)),
    "grid66": Case(grid(6, 6), sheets(20)),
    "full16": Case(full(16, 32), sheets(20)),
    "un8w": Case(slack(20, 200, 8000), sheets(60)),
    "un8ww": Case(slack(60, 1000, 16000), sheets(60)),
    "un8b": Case(slack(6, 4000, 32768), sheets(60)),
    "buf12": Case(buffers(12), sheets(20)),
    "buf24": Case(buffers(24), sheets(20)),
    "dup60": Case(duplex(60), "job a t plain 15*MM:F 5*M-:B 5*CM:B 5*-C:F\nclock 40\n"),
}
