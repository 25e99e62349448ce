"""The data of an ask for ask.mzn, as a MiniZinc data file."""


def data_of(model):
    """The text of the data file of an AskModel."""
    rows = {"POINTS": len(model.points), "low": [low for low, _ in model.points], "high": [high for _, high in model.points]}
    rows["DIFFERENCES"] = len(model.differences)
    rows["before"] = [it.before + 1 for it in model.differences]
    rows["after"] = [it.after + 1 for it in model.differences]
    rows["ticks"] = [it.ticks for it in model.differences]
    rows.update(kept_rows(model))
    rows.update(route_rows(model))
    rows.update(own_rows(model))
    return text_of_rows(rows)


def text_of_rows(rows):
    """The text of a data file with these names and values."""
    return "".join(f"{name} = {value_text(value)};\n" for name, value in rows.items())


def kept_rows(model):
    holds = [hold for held in model.kept.values() for hold in held]
    lasts, total = [], 0
    for held in model.kept.values():
        total += len(held)
        lasts.append(total)
    return {
        "RESOURCES": len(lasts), "HOLDS": total,
        "first": [1, *(last + 1 for last in lasts)][: len(lasts)], "last": lasts,
        "gap": [model.machine.gaps[resource] for resource in model.kept],
        "begin_point": [it.begin + 1 for it in holds], "begin_ticks": [it.begin_ticks for it in holds],
        "end_point": [it.end + 1 for it in holds], "end_ticks": [it.end_ticks for it in holds],
        "mode": [it.mode for it in holds],
    }


def route_rows(model):
    route = model.route
    return {
        "floor": model.floor, "latest": model.latest, "line_end": 0 if model.line_end is None else model.line_end + 1,
        "STATES": len(route.to_go), "EDGES": len(route.edges), "STEPS": len(route.layers),
        "starts": numbered(route.starts), "goal": route.goal + 1, "to_go": route.to_go, **edge_rows(route.edges),
        "layer": [numbered(layer) for layer in route.layers],
    }


def edge_rows(edges):
    return {
        "source": [edge.source + 1 for edge in edges], "target": [edge.target + 1 for edge in edges],
        "least": [edge.least for edge in edges], "most": [edge.most for edge in edges],
    }


def own_rows(model):
    route, meetings = model.route, model.route.meetings()
    return {
        **hold_rows(route.own, list(model.kept)),
        "SLOTS": len(route.slots), "slot_step": [step + 1 for step, _ in route.slots], "slot_own": [own + 1 for _, own in route.slots],
        "MEETINGS": len(meetings), "one": [one + 1 for one, _ in meetings], "two": [two + 1 for _, two in meetings],
    }


def hold_rows(own, resources):
    holds = [hold for hold, _ in own]
    return {
        "OWN": len(holds), "own_edges": [numbered(its) for _, its in own],
        "own_resource": [resources.index(it.resource) + 1 for it in holds],
        "own_begin": [it.begin for it in holds], "own_begin_ticks": [it.begin_ticks for it in holds],
        "own_end": [it.end for it in holds], "own_end_ticks": [it.end_ticks for it in holds], "own_mode": [it.mode for it in holds],
    }


def numbered(items):
    """Items that count from 0, as MiniZinc counts them."""
    return {item + 1 for item in items}


def value_text(value):
    if isinstance(value, set):
        return "{" + ", ".join(map(str, sorted(value))) + "}"
    if isinstance(value, list):
        return "[" + ", ".join(map(value_text, value)) + "]"
    return str(value)
