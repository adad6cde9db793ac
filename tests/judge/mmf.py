"""Fair shares of a single port, and the two methods of the report that are built out of them."""

from fractions import Fraction

from files import CELLS, PORTS, Request

Matrix = list[list[Fraction]]


def shares(capacity: Fraction, demands: list[Fraction]) -> list[Fraction]:
    """The max-min fair shares of one resource (definitions 1 to 3 of the report): smallest demand first."""
    given = [Fraction(0)] * len(demands)
    left = capacity
    order = sorted(range(len(demands)), key=lambda i: demands[i])
    for served, i in enumerate(order):
        given[i] = min(demands[i], left / (len(order) - served))
        left -= given[i]
    return given


def demand_matrix(request: Request) -> Matrix:
    """The used demands row by row."""
    return [[Fraction(request.demands[PORTS * u + v]) for v in range(request.n)] for u in range(request.m)]


def by_rows(request: Request, demands: Matrix) -> Matrix:
    """Each input shares its own capacity among its flows (MMF_R)."""
    return [shares(Fraction(request.inputs[u]), row) for u, row in enumerate(demands)]


def by_columns(request: Request, demands: Matrix) -> Matrix:
    """Each output shares its own capacity among its flows (MMF_C)."""
    columns = [shares(Fraction(request.outputs[v]), list(column)) for v, column in enumerate(zip(*demands))]
    return [list(row) for row in zip(*columns)]


def lesser(one: Matrix, other: Matrix) -> Matrix:
    """The lesser of two allocations flow by flow."""
    return [[min(a, b) for a, b in zip(row, row_b)] for row, row_b in zip(one, other)]


def flat(matrix: Matrix) -> list[Fraction]:
    """An allocation in cell order, with 0 in the unused cells."""
    cells = [Fraction(0)] * CELLS
    for u, row in enumerate(matrix):
        for v, rate in enumerate(row):
            cells[PORTS * u + v] = rate
    return cells


def fra(request: Request) -> tuple[Matrix, list[set[int]], set[int]]:
    """The report's algorithm of its figure 2.

    Gives the allocation, then for each round of the first phase the cells that the round lowered, and last
    the cells that the second phase lowered.
    """
    demands = demand_matrix(request)
    rounds: list[set[int]] = []
    while not rounds or rounds[-1]:
        asked = by_rows(request, demands)
        granted = by_columns(request, asked)
        rounds.append({
            PORTS * u + v
            for u, row in enumerate(asked) for v, rate in enumerate(row) if granted[u][v] < rate
        })
        for cell in rounds[-1]:
            u, v = divmod(cell, PORTS)
            demands[u][v] = granted[u][v]
    asked = by_rows(request, demands)
    lowered = {
        PORTS * u + v for u, row in enumerate(asked) for v, rate in enumerate(row) if rate < demands[u][v]
    }
    return lesser(asked, demands), rounds, lowered
