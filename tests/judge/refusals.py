"""The refusal table, one function for each row, and the verdicts on the two kinds of file."""

from collections.abc import Callable, Iterator

import blocks
import files
from files import PORTS

Verdict = tuple[int, int] | None
ACCEPTED: Verdict = None
SHORT_BUFFER: Verdict = (16, 0)


class Opened:
    """A file under judgement; its values are filled in only if its length is right."""

    def __init__(self, data: bytes, count: int) -> None:
        self.count = count
        self.right_length = len(data) == count * blocks.SIZE
        if not self.right_length:
            return
        self.words = blocks.words_of(data)
        self.request = files.request_in(self.words)
        self.plan = files.plan_in(self.words) if count == 3 else None

    def cells(self) -> tuple[int, ...]:
        """The used cells; asked for only after row 4."""
        return files.used_cells(self.request.m, self.request.n)

    def wanted(self, cell: int) -> int:
        """A demand in parts of the plan's base."""
        return self.request.demands[cell] * self.plan.base

    def row_total(self, u: int) -> int:
        """What input u carries."""
        return sum(self.plan.numerators[PORTS * u : PORTS * (u + 1)])

    def column_total(self, v: int) -> int:
        """What output v carries."""
        return sum(self.plan.numerators[v::PORTS])

    def input_bottleneck(self, cell: int) -> bool:
        """Whether a flow below its demand is held by its input."""
        u, rates = cell // PORTS, self.plan.numerators
        full = self.row_total(u) == self.request.inputs[u] * self.plan.base
        return full and rates[cell] == max(rates[PORTS * u : PORTS * (u + 1)])

    def output_bottleneck(self, cell: int) -> bool:
        """Whether a flow below its demand is held by its output."""
        v, rates = cell % PORTS, self.plan.numerators
        full = self.column_total(v) == self.request.outputs[v] * self.plan.base
        return full and rates[cell] == max(rates[v::PORTS])


# Each row gives the places of all its offenders, in file order or cell order.


def row_1(file: Opened) -> Iterator[int]:
    if not file.right_length:
        yield 0


def row_2(file: Opened) -> Iterator[int]:
    for block in range(file.count):
        if not blocks.sealed(file.words, block):
            yield blocks.WORDS * block + blocks.CHECK


def row_3(file: Opened) -> Iterator[int]:
    for block in range(file.count):
        if file.words[blocks.WORDS * block] != block + 1:
            yield blocks.WORDS * block


def row_4(file: Opened) -> Iterator[int]:
    for at in (files.AT_M, files.AT_N):
        if not 1 <= file.words[at] <= PORTS:
            yield at


def row_5(file: Opened) -> Iterator[int]:
    for start, used in ((files.AT_INPUTS, file.request.m), (files.AT_OUTPUTS, file.request.n)):
        for at in range(start, start + used):
            if file.words[at] > files.LIMIT:
                yield at


def row_6(file: Opened) -> Iterator[int]:
    for cell in file.cells():
        if file.request.demands[cell] > files.LIMIT:
            yield files.AT_DEMANDS + cell


def bits_that_must_be_zero(file: Opened) -> list[int]:
    """For each word of the file the bits that belong to nothing in use (kinds and checks have rows 2, 3)."""
    bits = [blocks.MASK] * len(file.words)
    for block in range(file.count):
        bits[blocks.WORDS * block] = bits[blocks.WORDS * block + blocks.CHECK] = 0
    bits[files.AT_M] = bits[files.AT_N] = 0
    for u in range(file.request.m):
        bits[files.AT_INPUTS + u] = 0
    for v in range(file.request.n):
        bits[files.AT_OUTPUTS + v] = 0
    for cell in file.cells():
        bits[files.AT_DEMANDS + cell] = 0
    for block in range(1, file.count):
        at = blocks.WORDS * block + files.AT_BASE
        bits[at] = bits[at + 1] = 0
    if file.count == 3:
        for cell in file.cells():
            at = files.numerator_at(cell)
            bits[at] = bits[at + 1] = 0
            at, shift = files.reason_at(cell)
            bits[at] &= ~(0xFF << shift)
    return bits


def row_7(file: Opened) -> Iterator[int]:
    for at, bits in enumerate(bits_that_must_be_zero(file)):
        if file.words[at] & bits:
            yield at


def row_8(file: Opened) -> Iterator[int]:
    if not 1 <= file.plan.base <= files.BASE_LIMIT:
        yield blocks.WORDS + files.AT_BASE


def row_9(file: Opened) -> Iterator[int]:
    if files.base_in(file.words, 2) != file.plan.base:
        yield 2 * blocks.WORDS + files.AT_BASE


def row_10(file: Opened) -> Iterator[int]:
    yield from (cell for cell in file.cells() if file.plan.reasons[cell] > 2)


def row_11(file: Opened) -> Iterator[int]:
    yield from (cell for cell in file.cells() if file.plan.numerators[cell] > file.wanted(cell))


def row_12(file: Opened) -> Iterator[int]:
    for u in range(file.request.m):
        if file.row_total(u) > file.request.inputs[u] * file.plan.base:
            yield u


def row_13(file: Opened) -> Iterator[int]:
    for v in range(file.request.n):
        if file.column_total(v) > file.request.outputs[v] * file.plan.base:
            yield v


def row_14(file: Opened) -> Iterator[int]:
    for cell in file.cells():
        if file.plan.numerators[cell] < file.wanted(cell):
            if not (file.input_bottleneck(cell) or file.output_bottleneck(cell)):
                yield cell


def row_15(file: Opened) -> Iterator[int]:
    for cell in file.cells():
        if file.plan.numerators[cell] == file.wanted(cell):
            right = 0
        else:
            right = 1 if file.input_bottleneck(cell) else 2
        if file.plan.reasons[cell] != right:
            yield cell


Row = Callable[[Opened], Iterator[int]]
REQUEST_ROWS: tuple[Row, ...] = (row_1, row_2, row_3, row_4, row_5, row_6, row_7)
PLAN_ROWS: tuple[Row, ...] = REQUEST_ROWS + (row_8, row_9, row_10, row_11, row_12, row_13, row_14, row_15)


def first_refusal(file: Opened, rows: tuple[Row, ...]) -> Verdict:
    """The first offender of the first row that has one; later rows are not even looked at."""
    for number, row in enumerate(rows, start=1):
        for place in row(file):
            return number, place
    return ACCEPTED


def request_verdict(data: bytes) -> Verdict:
    """The verdict on bytes offered as a request file."""
    return first_refusal(Opened(data, 1), REQUEST_ROWS)


def plan_verdict(data: bytes) -> Verdict:
    """The verdict on bytes offered as a plan file."""
    return first_refusal(Opened(data, 3), PLAN_ROWS)


def as_number(verdict: Verdict) -> int:
    """The verdict as the single 64-bit number that the calls give."""
    return 0 if verdict is None else verdict[0] << 32 | verdict[1]


def as_text(number: int) -> str:
    """A verdict's number in words, for messages."""
    return "accepted" if number == 0 else f"refused {number >> 32} at {number & blocks.MASK}"
