"""Plans by rules that look fair and are not: refused wherever they differ from the fair plan."""

from fractions import Fraction
from math import ceil, floor
from random import Random

import files
import mmf
import waterfill
from files import CELLS, PORTS, Plan, Request, used_cells


def with_reasons(request: Request, rates: list[Fraction]) -> Plan:
    """A plan out of rates, with the reasons that a careless planner would give: full is enough."""
    reasons = [0] * CELLS
    for cell in used_cells(request.m, request.n):
        u = cell // PORTS
        if rates[cell] < request.demands[cell]:
            full = sum(rates[PORTS * u : PORTS * (u + 1)]) == request.inputs[u]
            reasons[cell] = 1 if full else 2
    return files.over_least_base(rates, reasons)


def lesser_share(rng: Random, request: Request) -> Plan:
    """Version two's rule: the lesser of the fair shares at the two ports."""
    demands = mmf.demand_matrix(request)
    rates = mmf.lesser(mmf.by_rows(request, demands), mmf.by_columns(request, demands))
    return with_reasons(request, mmf.flat(rates))


def one_side(rng: Random, request: Request) -> Plan:
    """Fair at the outputs only, or at the inputs only."""
    side = rng.choice((mmf.by_rows, mmf.by_columns))
    return with_reasons(request, mmf.flat(side(request, mmf.demand_matrix(request))))


def first_full_port(rng: Random, request: Request) -> Plan:
    """Works until some port is full and hands back what all flows have by then."""
    filling = waterfill.Filling(request)
    while filling.rising and not any(filling.reason):
        filling.step()
    reached = max(filling.level)
    rates = [min(reached, Fraction(demand)) for demand in request.demands]
    return with_reasons(request, rates)


def flattened(rng: Random, request: Request) -> Plan:
    """Gives every flow of a full port the port's level, those included that had stopped lower."""
    plan = waterfill.plan_of(request)
    rates = [Fraction(numerator, plan.base) for numerator in plan.numerators]
    port = rng.randrange(request.m)
    row = slice(PORTS * port, PORTS * port + request.n)
    rates[row] = [max(rates[row])] * request.n
    return with_reasons(request, rates)


def in_turn(rng: Random, request: Request) -> Plan:
    """Serves the flows one after the other, each with all that is left: ports are full, larger flows pass."""
    left_in, left_out = list(request.inputs), list(request.outputs)
    rates = [Fraction(0)] * CELLS
    cells = used_cells(request.m, request.n)
    for cell in rng.sample(cells, len(cells)):
        u, v = divmod(cell, PORTS)
        given = min(request.demands[cell], left_in[u], left_out[v])
        rates[cell] = Fraction(given)
        left_in[u] -= given
        left_out[v] -= given
    return with_reasons(request, rates)


def rounded(rng: Random, request: Request) -> Plan:
    """The fair plan with rates rounded to parts of a small base."""
    plan = waterfill.plan_of(request)
    base, rounding = rng.choice((1, 1, 2, 10, 1000)), rng.choice((floor, floor, ceil, round))
    numerators = tuple(rounding(Fraction(top * base, plan.base)) for top in plan.numerators)
    return Plan(base, numerators, plan.reasons)


def careless_reasons(rng: Random, request: Request) -> Plan:
    """The fair rates, but a full input is taken for the cause though a larger flow passes through it."""
    plan = waterfill.plan_of(request)
    return with_reasons(request, [Fraction(top, plan.base) for top in plan.numerators])


RULES = (lesser_share, one_side, first_full_port, flattened, in_turn, in_turn, rounded, careless_reasons)
