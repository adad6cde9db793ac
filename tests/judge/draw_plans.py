"""Random plans offered for a request: right ones over any base, and wrong ones that differ by little."""

from collections.abc import Callable
from random import Random

import draw_requests
import waterfill
import wrong_rules
from files import BASE_LIMIT, CELLS, PORTS, Plan, Request, used_cells

HIGHEST = (1 << 64) - 1


def fair_plan(rng: Random, request: Request) -> Plan:
    """The fair plan over its least base or over a multiple of it, up to the largest one allowed."""
    plan = waterfill.plan_of(request)
    most = BASE_LIMIT // plan.base
    factor = rng.choice((1, 1, most, min(most, 2), rng.randint(1, most), min(most, 1 << rng.randrange(32))))
    return Plan(plan.base * factor, tuple(top * factor for top in plan.numerators), plan.reasons)


def changed(plan: Plan, changes: dict[int, int]) -> Plan:
    """The plan with some numerators replaced; what does not fit its place is cut to the nearest end."""
    numerators = list(plan.numerators)
    for cell, value in changes.items():
        numerators[cell] = min(max(value, 0), HIGHEST)
    return Plan(plan.base, tuple(numerators), plan.reasons)


def any_cell(rng: Random, request: Request) -> int:
    """A used cell."""
    return rng.choice(used_cells(request.m, request.n))


def nudged(rng: Random, request: Request) -> Plan:
    """One flow has one part more or less than its due."""
    plan = fair_plan(rng, request)
    cell = any_cell(rng, request)
    return changed(plan, {cell: plan.numerators[cell] + rng.choice((1, -1))})


def shifted(rng: Random, request: Request) -> Plan:
    """Something is taken from one flow and given to another, mostly at the same port."""
    plan = fair_plan(rng, request)
    giver = any_cell(rng, request)
    u, v = divmod(giver, PORTS)
    taker = rng.choice((
        PORTS * u + rng.randrange(request.n), PORTS * rng.randrange(request.m) + v, any_cell(rng, request)
    ))
    part = min(plan.numerators[giver], rng.choice((1, 1, plan.base, rng.randint(1, 1 << 40))))
    after = changed(plan, {giver: plan.numerators[giver] - part})
    return changed(after, {taker: after.numerators[taker] + part})


def around_a_rectangle(rng: Random, request: Request) -> Plan:
    """Four flows change so that every port still carries exactly what it did."""
    plan = fair_plan(rng, request)
    u, w = rng.randrange(request.m), rng.randrange(request.m)
    v, x = rng.randrange(request.n), rng.randrange(request.n)
    less, more = (PORTS * u + v, PORTS * w + x), (PORTS * u + x, PORTS * w + v)
    part = min(min(plan.numerators[cell] for cell in less), rng.choice((1, plan.base, 1 << 30)))
    if u == w or v == x:
        return plan
    lower = changed(plan, {cell: plan.numerators[cell] - part for cell in less})
    return changed(lower, {cell: lower.numerators[cell] + part for cell in more})


def replaced(rng: Random, request: Request) -> Plan:
    """A few flows have nothing, their whole demand, another flow's rate, or a number far too large."""
    plan = fair_plan(rng, request)
    changes = {}
    for _ in range(rng.choice((1, 1, 2, 5))):
        cell = any_cell(rng, request)
        own, demand = plan.numerators[cell], request.demands[cell] * plan.base
        changes[cell] = rng.choice((
            0, demand, demand + 1, demand - 1, plan.numerators[any_cell(rng, request)], 1 << 63, HIGHEST,
            own + (1 << 32), own + (1 << 63), own ^ (1 << rng.randrange(64)), HIGHEST - own,
        ))
    return changed(plan, changes)


def exchanged(rng: Random, request: Request) -> Plan:
    """Rows and columns exchanged; only what lands on a used cell is kept."""
    plan = fair_plan(rng, request)
    numerators, reasons = [0] * CELLS, [0] * CELLS
    for cell in used_cells(request.m, request.n):
        other = PORTS * (cell % PORTS) + cell // PORTS
        numerators[cell], reasons[cell] = plan.numerators[other], plan.reasons[other]
    return Plan(plan.base, tuple(numerators), tuple(reasons))


def wrong_reasons(rng: Random, request: Request) -> Plan:
    """The fair rates with some reasons changed, in range or not."""
    plan = fair_plan(rng, request)
    reasons = list(plan.reasons)
    for _ in range(rng.choice((1, 1, 2, 8))):
        reasons[any_cell(rng, request)] = rng.choice((0, 1, 2, 0, 1, 2, 0, 1, 2, 3, 4, 128, 255))
    return Plan(plan.base, plan.numerators, tuple(reasons))


def another_base(rng: Random, request: Request) -> Plan:
    """The numerators stay and the base changes."""
    plan = fair_plan(rng, request)
    bases = (plan.base + 1, max(1, plan.base - 1), plan.base * 2, max(1, plan.base // 2), 1, BASE_LIMIT)
    return Plan(min(BASE_LIMIT, rng.choice(bases)), plan.numerators, plan.reasons)


def of_another(rng: Random, request: Request) -> Plan:
    """The empty plan, or the fair plan of another request cut to this one's size."""
    if rng.random() < 0.3:
        return Plan(1, (0,) * CELLS, (0,) * CELLS)
    plan = waterfill.plan_of(draw_requests.draw_request(rng))
    used = set(used_cells(request.m, request.n))
    numerators, reasons = (
        tuple(number if cell in used else 0 for cell, number in enumerate(numbers))
        for numbers in (plan.numerators, plan.reasons)
    )
    return Plan(plan.base, numerators, reasons)


def by_wrong_rule(rng: Random, request: Request) -> Plan:
    """A plan by one of the rules known to be wrong."""
    return rng.choice(wrong_rules.RULES)(rng, request)


Maker = Callable[[Random, Request], Plan]
MAKERS: tuple[Maker, ...] = (
    fair_plan, fair_plan, fair_plan, nudged, nudged, shifted, around_a_rectangle, replaced, exchanged,
    wrong_reasons, wrong_reasons, another_base, of_another, by_wrong_rule, by_wrong_rule, by_wrong_rule,
)


def draw_plan(rng: Random, request: Request) -> Plan:
    """A random plan whose unused places are 0 and whose base is in range."""
    return rng.choice(MAKERS)(rng, request)
