"""An ask with an idle machine as a temporal planning problem of PDDL 2.1.

One sheet moves through the machine. A durative action stands for each action of the machine, each side that may be up, and each
ink that is wanted there. Holds are left out: on an idle machine those of one sheet do not meet.
"""
from ask_state import step

INKS = {"M": "mono", "C": "colour"}
SIDES = {"F": "front", "B": "back"}


def flaw_of(ask, model):
    """Why the ask is no such problem, or None."""
    if model.state.plans:
        return "plans are kept, so the machine is not idle"
    if model.route.meetings():
        return "two holds of the sheet might meet, and PDDL actions here have no holds"
    if len(model.route.starts) > 1:
        return "several feeders have its medium"
    return "there is no plan" if ask.answer == "none" else None


def name_of(action, state, sheet):
    """The name of the durative action that stands for an action in a state."""
    if not action.prints and not action.flip:
        return action.name
    if not action.prints:
        return f"{action.name}-{SIDES[state.up]}"
    wanted = sheet.front if state.up == "F" else sheet.back
    return f"{action.name}-{SIDES[state.up]}-{INKS[wanted]}"


def variants(model):
    """The actions that a route may take, each once with each name, with a state from which it may be taken."""
    route, sheet, found = model.route, model.state.ask.sheet, {}
    for edge in route.edges:
        if edge.action:
            state = route.states[edge.source]
            found.setdefault(name_of(edge.action, state, sheet), (edge.action, state))
    return found


def domain_of(model):
    """The text of the domain."""
    sheet = model.state.ask.sheet
    actions = "\n".join(action_text(name, action, state, sheet) for name, (action, state) in sorted(variants(model).items()))
    return f"""(define (domain printer)
  (:requirements :strips :typing :durative-actions :duration-inequalities)
  (:types sheet location)
  (:constants {" ".join(f"loc-{place}" for place in model.machine.locations)} - location)
  (:predicates
    (is-at ?s - sheet ?l - location)
    (front-up ?s - sheet) (back-up ?s - sheet)
    (wants-front-mono ?s - sheet) (wants-front-colour ?s - sheet) (front-done ?s - sheet)
    (wants-back-mono ?s - sheet) (wants-back-colour ?s - sheet) (back-done ?s - sheet))
{actions})
"""


def action_text(name, action, state, sheet):
    """A durative action. It takes what it changes away at its start, so nothing else can happen to the sheet meanwhile."""
    side = SIDES[state.up]
    conditions, effects = [f"(at start (is-at ?s loc-{action.source}))"], [f"(at start (not (is-at ?s loc-{action.source})))"]
    effects.append(f"(at end (is-at ?s loc-{action.target}))")
    if action.prints:
        want = f"(wants-{side}-{INKS[sheet.front if state.up == 'F' else sheet.back]} ?s)"
        conditions.append(f"(at start {want})")
        effects += [f"(at start (not {want}))", f"(at end ({side}-done ?s))"]
    if action.prints or action.flip:
        conditions.append(f"(at start ({side}-up ?s))")
    if action.flip:
        other = "back" if side == "front" else "front"
        effects += [f"(at start (not ({side}-up ?s)))", f"(at end ({other}-up ?s))"]
    return f"""  (:durative-action {name}
    :parameters (?s - sheet)
    :duration (and (>= ?duration {action.least}) (<= ?duration {action.most}))
    :condition (and {" ".join(conditions)})
    :effect (and {" ".join(effects)}))"""


def problem_of(ask, model):
    """The text of the problem."""
    sheet, route = model.state.ask.sheet, model.route
    facts = [f"(is-at s loc-{route.states[start].place})" for start in route.starts] + ["(front-up s)"]
    goal = [f"(is-at s loc-{model.state.ask.goal})", f"({SIDES[sheet.face]}-up s)"]
    for side, want in (("front", sheet.front), ("back", sheet.back)):
        if want != "-":
            facts.append(f"(wants-{side}-{INKS[want]} s)")
            goal.append(f"({side}-done s)")
    return f"""; {ask.name}. Time 0 is tick {model.floor}. The certified least end is tick {ask.ticks()[-1]}, a time of {ask.ticks()[-1] - model.floor}.
; The horizon is tick {model.horizon}.
(define (problem {ask.name})
  (:domain printer)
  (:objects s - sheet)
  (:init {" ".join(facts)})
  (:goal (and {" ".join(goal)}))
  (:metric minimize (total-time)))
"""


def plan_of(ask, model):
    """The plan that printer found. An action starts a thousandth after the one before it ends, as VAL wants of actions that meet."""
    sheet = model.state.ask.sheet
    asked = model.state.schedule_after(ask.files["answer.txt"].splitlines())[-1]
    state, rows = next(it for it in model.state.ask.starts(model.machine) if it.place == asked.actions[0].source), []
    for at, (action, start, end) in enumerate(zip(asked.actions, asked.points, asked.points[1:])):
        rows.append(f"{start - model.floor}.{at:03}: ({name_of(action, state, sheet)} s) [{end - start}.000]")
        state = step(action, sheet, state)
    return "\n".join(rows) + "\n"
