"""The families of asks: each makes a machine and the lines of a script from a size and numbers that are drawn.

The size is how many sheets are ordered before the ask. The last line of each script is the ask. Most sheets before it have one
side printed, so that they are planned soon; the ask may be one of both sides, whose routes are many more.
"""
from draws import Draws
from machine_text import MachineText, first, last, past, whole

INKS = ["mono", "colour"]
ONE_SIDED = ["M-:F", "C-:F"]
BOTH_SIDES = ["MM:B", "MC:B", "CM:B", "CC:B"]
LOOP_WAITS = [200, 400, 1000]


def orders(size, wants, draws, pause=0):
    """Small jobs of `size` sheets in all. After some of them the clock moves by up to `pause` ticks."""
    lines, clock, left = [], 0, size
    while left:
        count = min(left, draws.between(1, 6))
        want = draws.one_of(wants)
        lines.append(f"job j{len(lines) + 1} t plain " + (want if count == 1 else f"{count}*{want}"))
        left -= count
        if pause and draws.below(2) == 0:
            clock += draws.between(1, pause)
            lines.append(f"clock {clock}")
    return lines


def ask(want, medium="plain"):
    """The last line of a script."""
    return f"job ask t {medium} {want}"


def frame(window, out_most, back_most):
    """A machine with a tray, a purge tray and a loop back from b to a that turns sheets over; engines lead from a to b."""
    machine = MachineText(window)
    machine.tray("t")
    machine.purge_tray("p")
    machine.action("OUT.out", ("b", "t"), (3, out_most), [first("rb", 1), last("rt", 1)])
    machine.action("DUMP.dump", ("b", "p"), (3, 40), [first("rb", 1)])
    machine.action("DUMP.drop", ("a", "p"), (3, 40), [first("rd", 1)])
    machine.action("LOOP.back", ("b", "a"), (6, back_most), [first("rl", 3), last("rm", 2)], flip=True)
    return machine


def add_feeder(machine, location, least, most, medium="plain", stock=None):
    """Adds a feeder that leads to a."""
    machine.feeder(location, medium, stock)
    machine.action(f"FEED.feed-{location}", (location, "a"), (least, most), [first(f"r{location}", 2)])


def add_engine(machine, number, ticks, slack, inks):
    """Adds an engine with a way in and a way out, from a to b."""
    module, before, behind = f"ENG{number}", f"e{number}", f"x{number}"
    machine.action(f"{module}.in{number}", ("a", before), (1 + number % 3, 4 + slack), [whole(f"ri{number}")])
    machine.action(f"{module}.print{number}", (before, behind), (ticks, ticks + slack), [whole(f"re{number}")], inks)
    machine.action(f"{module}.off{number}", (behind, "b"), (2 + number % 2, 5 + slack), [whole(f"ro{number}")])


def add_engines(machine, count, slack, draws):
    """Adds unlike engines; every other one prints mono alone."""
    for number in range(1, count + 1):
        add_engine(machine, number, draws.between(9, 30), draws.between(*slack), INKS if number % 2 else INKS[:1])


def rack(size, draws):
    """Unlike engines side by side."""
    machine = frame(8000, draws.between(20, 60), draws.one_of(LOOP_WAITS))
    add_feeder(machine, "f", 2, draws.between(4, 8))
    add_engines(machine, draws.between(4, 12) if size < 128 else draws.between(2, 4), (2, 8), draws)
    lines = orders(size, ONE_SIDED, draws, 2 if size < 200 else 0)
    return machine, lines + [ask(draws.one_of(BOTH_SIDES if size < 128 else ONE_SIDED))]


def duplex(draws, ticks, wait, window=16000, out_most=30, tinted=False):
    """A machine with one engine that sheets of two sides pass twice, and a loop in which they may wait up to `wait` ticks.

    The engine prints in `ticks`. If it is tinted, it prints colour in a mode of its own, with a gap for the changeover.
    """
    machine = MachineText(window)
    machine.tray("t")
    machine.purge_tray("p")
    add_feeder(machine, "f", 2, 6)
    for mode, ink in enumerate(INKS):
        machine.action(f"ENG.{ink}", ("a", "b"), (ticks, ticks + 1), [past("re", 1, mode if tinted else 0)], [ink])
    machine.action("ENG.pass", ("a", "b"), (3, 4), [past("re", 1)])
    turn = draws.between(5, 9)
    machine.action("TURN.turn", ("b", "c"), (turn, turn + 4), [whole("rn")], flip=True)
    machine.action("LOOP.back", ("c", "a"), (draws.between(3, 6), wait), [first("rl", 3), last("rm", 2)])
    machine.action("OUT.flip", ("b", "d"), (3, 8), [whole("rd")], flip=True)
    machine.action("OUT.go", ("b", "d"), (2, 8), [whole("rd")])
    machine.action("OUT.out", ("d", "t"), (3, out_most), [last("rt", 1)])
    machine.action("DUMP.dump", ("b", "p"), (3, 30), [last("rp", 1)])
    machine.action("DUMP.drop", ("a", "p"), (3, 30), [last("rp", 1)])
    return machine


def loop(size, draws):
    """One engine that sheets of two sides pass twice. Some windows are tight."""
    ticks, is_tight = draws.between(4, 7), size and draws.below(5) == 0
    # The last sheet of the orders ends some `ticks` + 1 for each sheet after the first one's start.
    window = 16 + (ticks + 1) * size - size // 5 if is_tight else 16000
    machine = duplex(draws, ticks, draws.one_of([60, 100, 200]), window)
    return machine, orders(size, ONE_SIDED, draws, 2) + [ask(draws.one_of(["MM:F", "CM:F", "CC:F", "MC:F"]))]


def buffer(size, draws):
    """One engine, and buffers behind it in which sheets may wait for long."""
    machine, ticks = MachineText(16000), draws.between(4, 9)
    machine.tray("t")
    machine.purge_tray("p")
    add_feeder(machine, "f", 2, draws.between(5, 10))
    machine.action("ENG.print", ("a", "b"), (ticks, ticks + 2), [whole("re")], INKS)
    for number in range(1, (draws.between(3, 10) if size < 32 else 2) + 1):
        module, place = f"BUF{number}", f"s{number}"
        machine.action(f"{module}.in{number}", ("b", place), (2, 6), [first("rin", 2)])
        machine.action(f"{module}.wait{number}", (place, "c"), (draws.between(3, 6), 100 * draws.between(1, 8)), [whole(f"rs{number}")])
    machine.action("OUT.out", ("c", "t"), (3, 10), [first("rout", 2), last("rt", 1)])
    machine.action("TURN.back", ("c", "a"), (draws.between(4, 8), 10), [first("rout", 2), last("rn", 2)], flip=True)
    machine.action("DUMP.dump", ("c", "p"), (3, 10))
    return machine, orders(size, ONE_SIDED, draws, 2) + [ask(draws.one_of(BOTH_SIDES if size < 32 else ONE_SIDED))]


def slack(size, draws):
    """Machines whose durations are wide open."""
    if draws.below(2):
        machine = duplex(draws, draws.between(4, 7), 1000, 32768, draws.one_of([100, 400, 1000]))
        return machine, orders(size, ONE_SIDED, draws, 2) + [ask(draws.one_of(["MM:F", "CM:F", "-C:F"]))]
    machine = frame(32768, draws.one_of([400, 1000, 4000]), draws.one_of(LOOP_WAITS))
    add_feeder(machine, "f", 2, draws.one_of(LOOP_WAITS))
    add_engines(machine, draws.between(2, max(2, 7 - size // 24)), (10, 80), draws)
    return machine, orders(size, ONE_SIDED, draws, 2) + [ask(draws.one_of(BOTH_SIDES))]


def grid(size, draws):
    """Modules in rows and columns, with paths to the right, up and down; those of one column print."""
    width, height = draws.between(4, 5), draws.between(4, 6)
    machine = MachineText(3000)
    machine.feeder("f", "plain")
    machine.tray("t")
    machine.purge_tray("p")
    for row in range(height):
        machine.action(f"FEED.feed{row}", ("f", f"i0_{row}"), (2, 8), [first("rf", 2)])
    for column in range(width):
        for row in range(height):
            add_cell(machine, (column, row), (width, height))
    for row in range(height):
        machine.action(f"OUT.out{row}", (f"i{width - 1}_{row}", "t"), (2, 40), [first(f"r{width - 1}_{row}", 2), last("rt", 1)])
    machine.action("OUT.dump", (f"i{width - 1}_0", "p"), (2, 40))
    return machine, orders(size, ONE_SIDED, draws) + [ask(draws.one_of(ONE_SIDED))]


def add_cell(machine, cell, bounds):
    """Adds the module of a cell: its column and its row."""
    (column, row), name, wait = cell, f"{cell[0]}_{cell[1]}", 12
    module, here, held = f"C{name}", f"i{name}", [whole(f"r{name}")]
    if column < bounds[0] - 1:
        machine.action(f"{module}.e{name}", (here, f"i{column + 1}_{row}"), (3, wait), held)
    if row < bounds[1] - 1:
        machine.action(f"{module}.s{name}", (here, f"i{column}_{row + 1}"), (3, wait), held)
    if row > 0:
        machine.action(f"{module}.n{name}", (here, f"i{column}_{row - 1}"), (3, wait), held)
    if column == 1:
        machine.action(f"{module}.pr{name}", (here, f"i{column + 1}_{row}"), (9 + row, wait + 9), held, INKS)


def tint(size, draws):
    """Engines that print mono and colour in different modes, with a gap for the changeover."""
    if draws.below(3):
        machine = duplex(draws, draws.between(4, 7), draws.one_of([60, 100, 200]), tinted=True)
        machine.gap("re", draws.between(2, 6))
        return machine, orders(size, ONE_SIDED, draws, 2) + [ask(draws.one_of(["MM:F", "CC:F", "CM:F", "MC:F"]))]
    machine = frame(16000, draws.between(20, 200), draws.one_of(LOOP_WAITS))
    add_feeder(machine, "f", 2, draws.between(4, 12))
    for number in range(1, draws.between(1, 3) + 1):
        add_tinted_engine(machine, number, draws)
    return machine, orders(size, ONE_SIDED, draws, 2) + [ask(draws.one_of(BOTH_SIDES))]


def add_tinted_engine(machine, number, draws):
    """Adds an engine that prints mono in mode 0 and colour in mode 1."""
    module, before, behind, ticks = f"ENG{number}", f"e{number}", f"x{number}", draws.between(6, 20)
    machine.action(f"{module}.in{number}", ("a", before), (1 + number % 3, 12), [whole(f"ri{number}")])
    for mode, ink in enumerate(INKS):
        machine.action(f"{module}.{ink}{number}", (before, behind), (ticks + mode, ticks + 6), [whole(f"re{number}", mode)], [ink])
    machine.action(f"{module}.off{number}", (behind, "b"), (2, 9), [whole(f"ro{number}")])
    machine.gap(f"re{number}", draws.between(3, 20))


def stock(size, draws):
    """Feeders of one medium, near and far, that run empty and are refilled. Some windows are tight, and some stocks just used up."""
    kind, ticks = draws.below(4), [draws.between(9, 30) for _ in range(draws.between(1, 4))]
    # A tight window ends about when the last sheet of the orders does.
    tight = 60 + size * 1000 // sum(1000 // it for it in ticks)
    machine = frame(tight if kind == 0 else 8000, draws.between(20, 60), draws.one_of(LOOP_WAITS))
    shares = shares_of(size, draws.between(2, 4), draws)
    refills = [draws.below(3) for _ in shares]
    spare = 0 if kind == 1 else draws.between(1, 2)
    for number, share in enumerate(shares):
        at_first = max(0, share - refills[number]) + (spare if number == 0 else 0)
        add_feeder(machine, f"f{number}", 2 + 3 * number, 12 + 6 * number, stock=at_first)
    for number, it in enumerate(ticks, 1):
        add_engine(machine, number, it, draws.between(2, 10), INKS if number % 2 else INKS[:1])
    lines = [f"refill f{number} {min(count, shares[number])}" for number, count in enumerate(refills)]
    return machine, lines + orders(size, ONE_SIDED, draws, 2) + [ask(draws.one_of(BOTH_SIDES))]


def shares_of(size, count, draws):
    """`size` sheets, shared among feeders."""
    shares = [0] * count
    for _ in range(size):
        shares[draws.below(count)] += 1
    return shares


def flight(size, draws):
    """A jam while sheets move, so that copies in flight are planned anew before the ask."""
    if draws.below(2):
        return duplex_flight(size, draws)
    machine = frame(8000, draws.between(40, 100), draws.one_of(LOOP_WAITS))
    add_feeder(machine, "f", 2, draws.between(8, 16))
    count = draws.between(2, 6)
    add_engines(machine, count, (6, 14), draws)
    moment, jammed = draws.between(12, 40), draws.between(2, count)
    lines = orders(size, ONE_SIDED, draws) + jam(f"ENG{jammed}", moment, draws)
    return machine, lines + [ask(draws.one_of(BOTH_SIDES))]


def duplex_flight(size, draws):
    """A jam of the module that turns sheets over, while some wait in the loop."""
    machine = duplex(draws, draws.between(4, 7), draws.one_of([40, 60, 100]))
    lines = orders(size, ["M-:F", "M-:F", "M-:F", "MC:B"], draws)
    lines += jam("TURN", draws.between(16, 40), draws)
    return machine, lines + [ask(draws.one_of(["MM:F", "CM:F", "-C:F"]))]


def jam(module, moment, draws):
    """The clock moves and the module jams; a few ticks later it is back, or not."""
    lines = [f"clock {moment}", f"jam {module}", f"clock {moment + draws.between(1, 6)}"]
    return lines + [f"on {module}"] if draws.below(4) else lines


FAMILIES = {"rack": rack, "loop": loop, "buffer": buffer, "slack": slack, "grid": grid, "tint": tint, "stock": stock, "flight": flight}

# The sizes of the asks of the set, smallest first.
SIZES = {
    "rack": (0, 8, 32, 64, 128, 255),
    "loop": (0, 24, 48, 56, 64, 96),
    "buffer": (4, 10, 18, 20, 24, 28),
    "slack": (4, 40, 48, 56, 64, 80),
    "grid": (0, 12, 13, 14, 16, 20),
    "tint": (0, 24, 40, 48, 56, 96),
    "stock": (4, 8, 16, 32, 64, 128),
    "flight": (8, 16, 24, 32, 40, 48),
}


def make(family, size, seed):
    """The machine text and the script of an ask."""
    draws = Draws(list(FAMILIES).index(family), size, seed)
    machine, lines = FAMILIES[family](size, draws)
    return machine.text(), "\n".join(lines) + "\n"
