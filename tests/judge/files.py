"""Requests and plans as values, and the two files that hold them."""

from dataclasses import dataclass
from fractions import Fraction
from functools import lru_cache
from math import lcm

import blocks

PORTS = 8
CELLS = PORTS * PORTS
LIMIT = 1 << 24
BASE_LIMIT = 1 << 32
PLAN_SIZE = 3 * blocks.SIZE

# Places of things in block 0.
AT_M, AT_N, AT_INPUTS, AT_OUTPUTS, AT_DEMANDS, AT_SPARE = 1, 2, 3, 11, 19, 83
# Places of things in blocks 1 and 2, counted from the block's first word.
AT_BASE, AT_NUMERATORS, AT_REASONS, AT_PLAN_SPARE = 1, 3, 67, 75
CELLS_PER_BLOCK = CELLS // 2


@dataclass(frozen=True)
class Request:
    """A request; unused places are kept too, so that faulty ones can be told."""

    m: int
    n: int
    inputs: tuple[int, ...]
    outputs: tuple[int, ...]
    demands: tuple[int, ...]


@dataclass(frozen=True)
class Plan:
    """One numerator and one reason for each of the 64 cells, over one base."""

    base: int
    numerators: tuple[int, ...]
    reasons: tuple[int, ...]


@lru_cache(maxsize=None)
def used_cells(m: int, n: int) -> tuple[int, ...]:
    """The used cells of an m by n switch in cell order."""
    return tuple(PORTS * u + v for u in range(m) for v in range(n))


def make_request(inputs: list[int], outputs: list[int], demands: list[list[int]]) -> Request:
    """A request out of short lists: only the used ports, and the demands row by row."""
    cells = [0] * CELLS
    for u, row in enumerate(demands):
        for v, demand in enumerate(row):
            cells[PORTS * u + v] = demand
    pad = [0] * PORTS
    return Request(
        len(inputs), len(outputs), tuple((inputs + pad)[:PORTS]), tuple((outputs + pad)[:PORTS]), tuple(cells)
    )


def over_least_base(rates: list[Fraction], reasons: list[int]) -> Plan:
    """A plan out of reduced fractions: the least base is the least common multiple of what divides them."""
    base = lcm(*(rate.denominator for rate in rates))
    numerators = tuple(rate.numerator * (base // rate.denominator) for rate in rates)
    return Plan(base, numerators, tuple(reasons))


def numerator_at(cell: int) -> int:
    """The word of a plan file with the low half of a cell's numerator; the high half follows."""
    block, index = divmod(cell, CELLS_PER_BLOCK)
    return blocks.WORDS * (1 + block) + AT_NUMERATORS + 2 * index


def reason_at(cell: int) -> tuple[int, int]:
    """The word of a plan file with a cell's reason, and how far the reason's byte is shifted in it."""
    block, index = divmod(cell, CELLS_PER_BLOCK)
    return blocks.WORDS * (1 + block) + AT_REASONS + index // 4, 8 * (index % 4)


def request_words(request: Request) -> list[int]:
    """The request file's words, sealed."""
    head = [1, request.m, request.n, *request.inputs, *request.outputs, *request.demands]
    words = head + [0] * (blocks.WORDS - len(head))
    blocks.seal(words)
    return words


def plan_words(request: Request, plan: Plan) -> list[int]:
    """The plan file's words, sealed; the numbers of the plan have to fit their places, no more."""
    words = request_words(request) + [0] * (2 * blocks.WORDS)
    for block in (1, 2):
        start = blocks.WORDS * block
        words[start] = block + 1
        words[start + AT_BASE] = plan.base & blocks.MASK
        words[start + AT_BASE + 1] = plan.base >> 32
    for cell in range(CELLS):
        at = numerator_at(cell)
        words[at] = plan.numerators[cell] & blocks.MASK
        words[at + 1] = plan.numerators[cell] >> 32
        at, shift = reason_at(cell)
        words[at] |= plan.reasons[cell] << shift
    blocks.seal(words)
    return words


def request_bytes(request: Request) -> bytes:
    """The request file."""
    return blocks.bytes_of(request_words(request))


def plan_bytes(request: Request, plan: Plan) -> bytes:
    """The plan file."""
    return blocks.bytes_of(plan_words(request, plan))


def request_in(words: list[int]) -> Request:
    """The request that block 0 holds, taken as it is."""
    return Request(
        words[AT_M],
        words[AT_N],
        tuple(words[AT_INPUTS:AT_OUTPUTS]),
        tuple(words[AT_OUTPUTS:AT_DEMANDS]),
        tuple(words[AT_DEMANDS:AT_SPARE]),
    )


def base_in(words: list[int], block: int) -> int:
    """The base that block 1 or block 2 holds."""
    at = blocks.WORDS * block + AT_BASE
    return words[at] | words[at + 1] << 32


def plan_in(words: list[int]) -> Plan:
    """The plan that a plan file's words hold, with the base of block 1."""
    numerators = []
    reasons = []
    for cell in range(CELLS):
        at = numerator_at(cell)
        numerators.append(words[at] | words[at + 1] << 32)
        at, shift = reason_at(cell)
        reasons.append(words[at] >> shift & 0xFF)
    return Plan(base_in(words, 1), tuple(numerators), tuple(reasons))
