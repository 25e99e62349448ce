"""Whether a plan keeps the constraints of an AskModel, as model.md numbers them."""


def flaw_of_plan(model, after):
    """Why the schedule `after`, the asked plan last, breaks the model, or None."""
    asked = after[-1]
    x = [tick for plan in after[:-1] for tick in plan.points]
    if any(not low <= tick <= high for tick, (low, high) in zip(x, model.points)):
        return "a kept point is out of its domain"
    if any(x[it.after] - x[it.before] < it.ticks for it in model.differences):
        return "a difference of the kept plans is broken"
    if model.line_end is not None and asked.end <= x[model.line_end]:
        return "the sheet ends before its line"
    edges = edges_of(model, asked)
    if edges is None:
        return "the route is none of the model's"
    holds = own_holds(model, edges, asked)
    if any(not stands(model, x, it) for it in holds):
        return "an own hold has no place"
    return flaw_of_meetings(model, holds)


def edges_of(model, asked):
    """The numbers of the route's edges, each in its layer; or None."""
    route, found = model.route, []
    at, states = None, set(route.starts)
    for step, action in enumerate(asked.actions):
        layer = route.layers[step] if step < len(route.layers) else []
        fits = [number for number in layer if route.edges[number].action is action and route.edges[number].source in states]
        if len(fits) != 1:
            return None
        found.append(fits[0])
        at = route.edges[fits[0]].target
        states = {at}
    lasts = all(edge.least <= end - start <= edge.most
                for edge, start, end in zip((route.edges[it] for it in found), asked.points, asked.points[1:]))
    return found if lasts and at == route.goal and model.floor <= asked.points[0] and asked.end <= model.latest else None


def own_holds(model, edges, asked):
    """The slots that are taken, each with its own hold, its begin and its end."""
    found = []
    for slot, (step, own) in enumerate(model.route.slots):
        hold, its = model.route.own[own]
        if step < len(edges) and edges[step] in its:
            found.append((slot, hold, asked.points[step + hold.begin] + hold.begin_ticks, asked.points[step + hold.end] + hold.end_ticks))
    return found


def stands(model, x, own):
    """Whether a number of kept holds are before the own one, and all others behind it."""
    _, hold, begin, end = own
    is_behind = False
    for kept in model.kept[hold.resource]:
        gap = model.gap(hold.resource, hold.mode, kept.mode)
        if x[kept.end] + kept.end_ticks + gap <= begin and not is_behind:
            continue
        is_behind = True
        if end + gap > x[kept.begin] + kept.begin_ticks:
            return False
    return True


def flaw_of_meetings(model, holds):
    """Why two own holds meet, or None. Two of no pair of the model must not meet either."""
    for at, (_, hold, begin, end) in enumerate(holds):
        for _, other, other_begin, other_end in holds[at + 1 :]:
            gap = model.gap(hold.resource, hold.mode, other.mode)
            if hold.resource == other.resource and end + gap > other_begin and other_end + gap > begin:
                return "two own holds meet"
    return None
