"""Fixed comparisons with the two papers: their figures and rules, put to the program as they stand.

Nothing here uses this judge's own planner. The papers print most of these figures as drawings, so the numbers
below are those that their text states; the rest follows from what the text says a drawing shows.
"""

from collections.abc import Iterator
from fractions import Fraction

import fairness
import files
import mmf
from ask import CHECK, WRITE, Answerer, Question
from blocks import words_of
from files import PORTS, Request, make_request

# Report DU-CS-05-11, section 1.1 (page of figure 1): inputs A to D, outputs W to Z, every line and demand 1.
TRIANGLE = make_request([1] * 4, [1] * 4, [[int(v <= u) for v in range(4)] for u in range(4)])
OVER_WITH_OUTPUTS_ONLY = "CD"  # figure 1(c): fair at the outputs alone over-subscribes these inputs
OVER_WITH_INPUTS_ONLY = "WX"  # figure 1(d): fair at the inputs alone over-subscribes these outputs
MAY_INCREASE = ("BX", "CX", "CY")  # figure 1(e): with the lesser of the two these flows are short
NOT_FULL = "BY"  # figure 1(e): ports with bandwidth left
# Report, section 4.3, the text about figure 3: what each round of the first phase lowers, then phase two.
ROUNDS = (("AW", "BW", "BX", "CW"), ("BX",), ())
SECOND_PHASE = ("CX", "CY", "DW", "DX", "DY", "DZ")
CW_SHARE = Fraction(1, 4)

# Source document 000, section III: three backlogged flows f11, f12, f22 (figure 3 there), each 0.5 if fair.
CONFLICT = make_request([1] * 2, [1] * 2, [[1, 1], [0, 1]])
CONFLICT_SHARES = [[Fraction(1, 2), Fraction(1, 2)], [Fraction(0), Fraction(1, 2)]]
MOST_THROUGHPUT = [[Fraction(1), Fraction(0)], [Fraction(0), Fraction(1)]]  # starves f12
# Source document 000, section III, figure 7: equal weights on f11, f21, f31 and f12; f12 has two thirds.
CROSSBAR = make_request([1] * 3, [1] * 3, [[1, 1, 0], [1, 0, 0], [1, 0, 0]])
CROSSBAR_F12 = Fraction(2, 3)
# Source document 000, section III, figure 5: f11, f21, f22 bring 1, 2 and 1 cells in three slots; admissible.
ADMISSIBLE = make_request([3] * 2, [3] * 2, [[1, 0], [2, 1]])

NO_VERDICT = (-1, -1)


def cell_of(flow: str) -> int:
    """The cell of a flow named by the report's letters."""
    return PORTS * "ABCD".index(flow[0]) + "WXYZ".index(flow[1])


def rates_from(answerer: Answerer, request: Request) -> list[Fraction]:
    """The rates that the program plans, cell by cell."""
    (answer,) = answerer([Question(WRITE, files.PLAN_SIZE, files.request_bytes(request))])
    if answer is None or answer.number != 0:
        return [Fraction(-1)] * files.CELLS
    plan = files.plan_in(words_of(answer.buffer))
    return [Fraction(top, max(1, plan.base)) for top in plan.numerators]


def verdict_from(answerer: Answerer, request: Request, rates: list[Fraction]) -> tuple[int, int]:
    """The program's refusal and place for these rates, with no reason claimed for any."""
    plan = files.over_least_base(rates, [0] * files.CELLS)
    if min(rates) < 0 or plan.base > files.BASE_LIMIT or max(plan.numerators) >= 1 << 64:
        return NO_VERDICT
    (answer,) = answerer([Question(CHECK, 0, files.plan_bytes(request, plan))])
    return divmod(answer.number, 1 << 32) if answer else NO_VERDICT


def report_rounds_as_printed() -> bool:
    """Whether the report's algorithm, followed by its pseudo-code, does what its text says about figure 3."""
    _, rounds, lowered = mmf.fra(TRIANGLE)
    named = [set(map(cell_of, flows)) for flows in ROUNDS]
    return rounds == named and lowered == set(map(cell_of, SECOND_PHASE))


def report_figure_1(answerer: Answerer) -> Iterator[tuple[str, bool]]:
    """The triangle: the fair plan, and the three rules that the report shows to fail."""
    demands = mmf.demand_matrix(TRIANGLE)
    rows, columns = mmf.by_rows(TRIANGLE, demands), mmf.by_columns(TRIANGLE, demands)
    lesser = mmf.lesser(rows, columns)
    planned = rates_from(answerer, TRIANGLE)
    yield "figure 1(f), by the algorithm of figure 2", planned == mmf.flat(mmf.fra(TRIANGLE)[0])
    yield "section 4.3, flow CW has a quarter", planned[cell_of("CW")] == CW_SHARE
    verdict = verdict_from(answerer, TRIANGLE, mmf.flat(columns))
    yield "figure 1(c), inputs over capacity", verdict == (12, "ABCD".index(OVER_WITH_OUTPUTS_ONLY[0]))
    verdict = verdict_from(answerer, TRIANGLE, mmf.flat(rows))
    yield "figure 1(d), outputs over capacity", verdict == (13, "WXYZ".index(OVER_WITH_INPUTS_ONLY[0]))
    verdict = verdict_from(answerer, TRIANGLE, mmf.flat(lesser))
    yield "figure 1(e), a flow that is short", verdict == (14, cell_of(MAY_INCREASE[0]))


def report_statements() -> Iterator[tuple[str, bool]]:
    """What the report says about figures 1 and 3, held against the rebuilt matrices (no program asked)."""
    demands = mmf.demand_matrix(TRIANGLE)
    rows, columns = mmf.by_rows(TRIANGLE, demands), mmf.by_columns(TRIANGLE, demands)
    lesser = mmf.lesser(rows, columns)
    over_in = "".join(name for name, row in zip("ABCD", columns) if sum(row) > 1)
    over_out = "".join(name for name, column in zip("WXYZ", zip(*rows)) if sum(column) > 1)
    yield "figure 1(c), which inputs", over_in == OVER_WITH_OUTPUTS_ONLY
    yield "figure 1(d), which outputs", over_out == OVER_WITH_INPUTS_ONLY
    plan = files.over_least_base(mmf.flat(lesser), [0] * files.CELLS)
    short = {cell for cell in files.used_cells(4, 4) if fairness.improvable(TRIANGLE, plan, cell)}
    yield "figure 1(e), which flows are short", short == set(map(cell_of, MAY_INCREASE))
    yield "figure 1(e), port B", sum(lesser["ABCD".index(NOT_FULL[0])]) < 1
    yield "figure 1(e), port Y", sum(row["WXYZ".index(NOT_FULL[1])] for row in lesser) < 1
    yield "figure 3, the rounds", report_rounds_as_printed()


def document_000(answerer: Answerer) -> Iterator[tuple[str, bool]]:
    """The figures of source document 000 that have equal weights."""
    yield "000 section III, half each", rates_from(answerer, CONFLICT) == mmf.flat(CONFLICT_SHARES)
    starved = verdict_from(answerer, CONFLICT, mmf.flat(MOST_THROUGHPUT))
    yield "000 figure 3, f12 starved", starved == (14, 1)
    rates = rates_from(answerer, CROSSBAR)
    yield "000 figure 7, f12", rates[1] == CROSSBAR_F12
    yield "000 figure 7, the others", rates[0] == rates[8] == rates[16] == 1 - CROSSBAR_F12
    wanted = [Fraction(demand) for demand in ADMISSIBLE.demands]
    yield "000 figure 5, admissible traffic", rates_from(answerer, ADMISSIBLE) == wanted
