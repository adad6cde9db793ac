"""Fairness straight from its definition, without bottlenecks and without water-filling."""

from files import PORTS, Plan, Request, used_cells


def feasible_and_bounded(request: Request, plan: Plan) -> bool:
    """Whether no port carries more than it can and no flow gets more than it asks for."""
    rates, base = plan.numerators, plan.base
    rows = [sum(rates[PORTS * u : PORTS * u + PORTS]) for u in range(PORTS)]
    columns = [sum(rates[v::PORTS]) for v in range(PORTS)]
    return (
        all(total <= limit * base for total, limit in zip(rows, request.inputs))
        and all(total <= limit * base for total, limit in zip(columns, request.outputs))
        and all(0 <= rate <= demand * base for rate, demand in zip(rates, request.demands))
    )


def improvable(request: Request, plan: Plan, cell: int) -> bool:
    """Whether some other feasible and bounded allocation gives this flow more, and no less to the flows
    that have at most as much.

    The most that can be freed for the flow is had by taking everything from the larger flows and leaving
    the others as they are. So the question is whether room is left at both ports after that.
    """
    rates, base = plan.numerators, plan.base
    own = rates[cell]
    if own >= request.demands[cell] * base:
        return False
    u, v = divmod(cell, PORTS)
    kept_in = sum(rate for rate in rates[PORTS * u : PORTS * u + PORTS] if rate <= own)
    kept_out = sum(rate for rate in rates[v::PORTS] if rate <= own)
    return kept_in < request.inputs[u] * base and kept_out < request.outputs[v] * base


def fair(request: Request, plan: Plan) -> bool:
    """Whether the plan's rates are the fair ones."""
    return feasible_and_bounded(request, plan) and not any(
        improvable(request, plan, cell) for cell in used_cells(request.m, request.n)
    )


def same_rates(one: Plan, other: Plan) -> bool:
    """Whether two plans give every flow the same, over whatever bases."""
    return all(a * other.base == b * one.base for a, b in zip(one.numerators, other.numerators))
