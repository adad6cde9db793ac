"""The drawn examples P1 to P12 and the cases run by a program, as data with the verdicts they should get."""

from dataclasses import replace

import blocks
import files
import waterfill
from ask import CHECK, LIST, LONGEST, READ, WRITE, Question
from files import CELLS, LIMIT, PORTS, Plan, Request, make_request
from listing import listing_of
from refusals import Verdict, plan_verdict, request_verdict


def triangle(size: int) -> Request:
    """The triangle with all capacities and demands of one size."""
    return make_request([size] * 4, [size] * 4, [[size if v <= u else 0 for v in range(4)] for u in range(4)])


def spread(rows: list[list[int]]) -> tuple[int, ...]:
    """Short rows laid out over the 64 cells."""
    cells = [0] * CELLS
    for u, row in enumerate(rows):
        cells[PORTS * u : PORTS * u + len(row)] = row
    return tuple(cells)


TRIANGLE_PLAN = Plan(
    8,
    spread([[2], [2, 3], [2, 3, 3], [2, 2, 2, 2]]),
    spread([[2], [2, 2], [2, 1, 1], [1, 1, 1, 1]]),
)
LISTED = make_request([7, 10], [10, 10], [[10, 10], [2, 1]])
LISTING = b"plan 2 2 base 2\n0 0 10 7 1\n0 1 10 7 1\n1 0 2 4 0\n1 1 1 2 0\nend 4\n"


def single(capacity_in: int, capacity_out: int, demand: int) -> tuple[int, int, int]:
    """Base, numerator and reason of the only flow of a switch with one port on each side."""
    plan = waterfill.plan_of(make_request([capacity_in], [capacity_out], [[demand]]))
    return plan.base, plan.numerators[0], plan.reasons[0]


def with_demand(request: Request, cell: int, demand: int) -> Request:
    """The request with one demand changed."""
    demands = list(request.demands)
    demands[cell] = demand
    return replace(request, demands=tuple(demands))


def turned(plan: Plan) -> Plan:
    """Rows and columns exchanged."""
    order = [PORTS * (cell % PORTS) + cell // PORTS for cell in range(CELLS)]
    return Plan(plan.base, *(tuple(of[cell] for cell in order) for of in (plan.numerators, plan.reasons)))


def on_triangle(plan: Plan) -> Verdict:
    """The verdict on a plan offered for the triangle."""
    return plan_verdict(files.plan_bytes(triangle(1), plan))


VERSION_TWO = Plan(12, spread([[3], [3, 4], [3, 4, 4], [3, 3, 3, 3]]), TRIANGLE_PLAN.reasons)
DOUBLED = Plan(16, tuple(2 * top for top in TRIANGLE_PLAN.numerators), TRIANGLE_PLAN.reasons)
P6 = make_request([LIMIT], [LIMIT] * 3, [[LIMIT] * 3])
P8_LOWERED = with_demand(triangle(8), 9, 2)
SMALL = make_request([5, 5], [5, 5], [[1, 1], [1, 1]])
FULL = make_request([5] * 8, [5] * 8, [[1] * 8 for _ in range(8)])

# Refusals named with their places: the request, the words to change in its file, the verdict.
REFUSED: tuple[tuple[Request, dict[int, int], Verdict], ...] = (
    (FULL, {}, None),
    (FULL, {1: 9}, (4, 1)),
    (FULL, {1: 0}, (4, 1)),
    (FULL, {2: 9}, (4, 2)),
    (SMALL, {27: LIMIT + 1}, (6, 27)),
    (SMALL, {27: LIMIT + 1, 11: LIMIT + 1}, (5, 11)),
    (SMALL, {5: 1}, (7, 5)),
    (SMALL, {126: 1}, (7, 126)),
)


def altered(request: Request, changes: dict[int, int]) -> bytes:
    """A request file with some words changed and sealed again."""
    words = files.request_words(request)
    for at, value in changes.items():
        words[at] = value
    blocks.seal(words)
    return blocks.bytes_of(words)


def examples() -> dict[str, bool]:
    """P1 to P12: whether each holds for this judge's implementation."""
    p8, lowered = waterfill.plan_of(triangle(8)), waterfill.plan_of(P8_LOWERED)
    empty = [0] * (3 * blocks.WORDS)
    return {
        "P1": waterfill.plan_of(triangle(1)) == TRIANGLE_PLAN and on_triangle(TRIANGLE_PLAN) is None,
        "P2": single(2, 1, 2) == (1, 1, 2),
        "P3": single(5, 5, 0) == (1, 0, 0),
        "P4": single(0, 5, 3) == (1, 0, 1),
        "P5": single(5, 5, 5) == (1, 5, 0) and single(5, 5, 6) == (1, 5, 1),
        "P6": waterfill.plan_of(P6) == Plan(3, spread([[LIMIT] * 3]), spread([[1] * 3])),
        "P7": listing_of(files.request_bytes(LISTED)) == LISTING,
        "P8": p8.numerators[9] == 3 * p8.base and lowered.numerators[9] == 2 * lowered.base,
        "P9": on_triangle(DOUBLED) is None,
        "P10": on_triangle(VERSION_TWO) == (14, 9),
        "P11": on_triangle(turned(TRIANGLE_PLAN)) == (11, 1),
        "P12": [blocks.check_of(empty, block) for block in range(3)] == [0x8000_0000, 1, 0x8000_0001],
    }


def refused() -> dict[str, bool]:
    """The refusals named with their places: whether each holds for this judge's implementation."""
    return {
        f"verdict {verdict} for words {changes}": request_verdict(altered(request, changes)) == verdict
        for request, changes, verdict in REFUSED
    }


def questions() -> list[Question]:
    """The same examples for the program."""
    singles = [(2, 1, 2), (5, 5, 0), (0, 5, 3), (5, 5, 5), (5, 5, 6)]
    requests = [make_request([a], [b], [[demand]]) for a, b, demand in singles]
    requests += [triangle(1), triangle(8), P6, P8_LOWERED, LISTED, SMALL, FULL]
    plans = [TRIANGLE_PLAN, DOUBLED, VERSION_TWO, turned(TRIANGLE_PLAN)]
    return [
        *(Question(WRITE, files.PLAN_SIZE, files.request_bytes(request)) for request in requests),
        *(Question(LIST, LONGEST, files.request_bytes(request)) for request in requests),
        *(Question(CHECK, 0, files.plan_bytes(triangle(1), plan)) for plan in plans),
        *(Question(READ, 0, altered(request, changes)) for request, changes, _ in REFUSED),
    ]
