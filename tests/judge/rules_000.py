"""Section V of source document 000 with all weights 1: its criterion and its procedure, put to the program.

Its rates with every active flow backlogged ("static") are asked of the program with demands that no port can
meet; its rates for given arrivals ("dynamic") are compared with the plan for demands equal to the arrivals.

The criterion holds for every switch. The procedure for dynamic rates is fair only where one port is shared:
it serves in full each flow that brings no more than its static rate, and a flow elsewhere that brings little
can leave another one room to grow, at such a flow's cost. SHORTCUT below is a small case of that. The
report's definitions decide, so the procedure is asked about switches with a single input or output only, and
what it gives for SHORTCUT has to be refused.
"""

from collections.abc import Iterator
from dataclasses import replace
from fractions import Fraction
from random import Random

import fairness
import files
from ask import Answerer
from draw_requests import draw_request, roomy
from figures import rates_from, verdict_from
from files import CELLS, LIMIT, PORTS, Request, make_request

REQUESTS = 40
# f11 brings 6, f12 10 and f22 1. Backlogged they have 6, 4 and 4, so the procedure serves f11 and f22 in full
# and leaves 4 to f12. But f12 can have 5 at the cost of f11 alone, which is larger: 5, 5 and 1 are fair.
SHORTCUT = make_request([10, 10], [10, 8], [[6, 10], [0, 1]])
SHORTCUT_BY_PROCEDURE, SHORTCUT_FAIR = {0: 6, 1: 4, 9: 1}, {0: 5, 1: 5, 9: 1}


def backlogged(request: Request) -> Request:
    """The same switch with all active flows asking for more than they can get."""
    return replace(request, demands=tuple(LIMIT if demand else 0 for demand in request.demands))


def meets_criterion(answerer: Answerer, request: Request) -> bool:
    """Inequality (9) and the sentence after it: no rate can grow unless one that is no larger shrinks."""
    always = backlogged(request)
    plan = files.over_least_base(rates_from(answerer, always), [0] * CELLS)
    return fairness.fair(always, plan)


def without(request: Request, cells: list[int]) -> Request:
    """The switch that is left when some flows have been given all they bring."""
    inputs, outputs, demands = list(request.inputs), list(request.outputs), list(request.demands)
    for cell in cells:
        # Never below 0, whatever rates a faulty program may have given.
        inputs[cell // PORTS] = max(0, inputs[cell // PORTS] - demands[cell])
        outputs[cell % PORTS] = max(0, outputs[cell % PORTS] - demands[cell])
        demands[cell] = 0
    return replace(request, inputs=tuple(inputs), outputs=tuple(outputs), demands=tuple(demands))


def by_procedure(answerer: Answerer, request: Request) -> list[Fraction]:
    """The dynamic rates: give flows below their static rate what they bring, take them out, start again."""
    rates = [Fraction(0)] * CELLS
    while True:
        static = rates_from(answerer, backlogged(request))
        content = [cell for cell in range(CELLS) if 0 < request.demands[cell] <= static[cell]]
        for cell in content:
            rates[cell] = Fraction(request.demands[cell])
        if not content:
            return [static[cell] if request.demands[cell] else rates[cell] for cell in range(CELLS)]
        request = without(request, content)


def admissible(rng: Random) -> Request:
    """A request in which no port is asked for more than it has."""
    request = roomy(rng)
    return replace(
        request,
        inputs=tuple(max(limit, sum(request.demands[PORTS * u : PORTS * (u + 1)]))
                     for u, limit in enumerate(request.inputs)),
        outputs=tuple(max(limit, sum(request.demands[v::PORTS])) for v, limit in enumerate(request.outputs)),
    )


def one_shared_port(rng: Random) -> Request:
    """A request with a single input or a single output."""
    while min((request := draw_request(rng)).m, request.n) > 1:
        pass
    return request


def as_rates(given: dict[int, int]) -> list[Fraction]:
    """Whole rates by cell, 0 elsewhere."""
    return [Fraction(given.get(cell, 0)) for cell in range(CELLS)]


def shortcut(answerer: Answerer) -> Iterator[tuple[str, bool]]:
    """The case in which the procedure and the definitions part."""
    by_rule = by_procedure(answerer, SHORTCUT)
    yield "000 section V, procedure where it is not fair", by_rule == as_rates(SHORTCUT_BY_PROCEDURE)
    yield "000 section V, the fair plan there", rates_from(answerer, SHORTCUT) == as_rates(SHORTCUT_FAIR)
    yield "000 section V, the other refused there", verdict_from(answerer, SHORTCUT, by_rule) == (14, 1)


def section_v(answerer: Answerer, seed: int) -> Iterator[tuple[str, bool]]:
    """The criterion, the procedure, and full service of admissible traffic, on random requests."""
    yield from shortcut(answerer)
    for number in range(REQUESTS):
        rng = Random(f"{seed} section V {number}")
        request, single, light = draw_request(rng), one_shared_port(rng), admissible(rng)
        yield f"000 section V, criterion, request {number}", meets_criterion(answerer, request)
        same = by_procedure(answerer, single) == rates_from(answerer, single)
        yield f"000 section V, procedure, request {number}", same
        wanted = [Fraction(demand) for demand in light.demands]
        yield f"000 section V, admissible, request {number}", rates_from(answerer, light) == wanted
