"""Single faults put into the words of a request file or a plan file."""

from collections.abc import Callable
from random import Random

import files
from blocks import MASK, WORDS
from files import LIMIT, PORTS

Fault = Callable[[Random, list[int]], None]


def size_in(words: list[int]) -> tuple[int, int]:
    """The file's m and n, brought into range so that one more fault can be put beside a wrong size."""
    return min(max(words[files.AT_M], 1), PORTS), min(max(words[files.AT_N], 1), PORTS)


def nonzero(rng: Random) -> int:
    """A word that is not 0."""
    return rng.choice((1, 1, MASK, 1 << rng.randrange(32), rng.randint(1, MASK)))


def too_large(rng: Random) -> int:
    """A word above the limit of capacities and demands."""
    return rng.choice((LIMIT + 1, LIMIT + 1, LIMIT * 2, MASK, LIMIT | 1 << 31, rng.randint(LIMIT + 1, MASK)))


def wrong_kind(rng: Random, words: list[int]) -> None:
    """Some block is of another kind."""
    at = WORDS * rng.randrange(len(words) // WORDS)
    words[at] = rng.choice((0, 1, 2, 3, 4, MASK, words[at] + (1 << 16), words[at] + (1 << 31))) & MASK


def wrong_size(rng: Random, words: list[int]) -> None:
    """m or n outside its range."""
    at = rng.choice((files.AT_M, files.AT_N))
    disguised = words[at] + rng.choice((1 << 8, 1 << 24, 1 << 31))
    words[at] = rng.choice((0, 0, 9, 9, 16, MASK, disguised)) & MASK


def other_size(rng: Random, words: list[int]) -> None:
    """Another m or n in range, so that places in use before are in use no more."""
    words[rng.choice((files.AT_M, files.AT_N))] = rng.randint(1, PORTS)


def large_capacity(rng: Random, words: list[int]) -> None:
    """A capacity above its limit at a port, used or not."""
    words[rng.randrange(files.AT_INPUTS, files.AT_DEMANDS)] = too_large(rng)


def large_used_capacity(rng: Random, words: list[int]) -> None:
    """A capacity above its limit at a used port."""
    m, n = size_in(words)
    ports = [*range(files.AT_INPUTS, files.AT_INPUTS + m), *range(files.AT_OUTPUTS, files.AT_OUTPUTS + n)]
    words[rng.choice(ports)] = too_large(rng)


def large_demand(rng: Random, words: list[int]) -> None:
    """A demand above its limit at a cell, used or not."""
    words[rng.randrange(files.AT_DEMANDS, files.AT_SPARE)] = too_large(rng)


def large_used_demand(rng: Random, words: list[int]) -> None:
    """A demand above its limit at a used cell."""
    words[files.AT_DEMANDS + rng.choice(files.used_cells(*size_in(words)))] = too_large(rng)


def unused_capacity(rng: Random, words: list[int]) -> None:
    """Something at an unused port, if there is one."""
    m, n = size_in(words)
    ports = [*range(files.AT_INPUTS + m, files.AT_OUTPUTS), *range(files.AT_OUTPUTS + n, files.AT_DEMANDS)]
    if ports:
        words[rng.choice(ports)] = nonzero(rng)


def unused_cell(rng: Random, words: list[int]) -> None:
    """A demand at an unused cell, if there is one."""
    cells = spare_cells(words)
    if cells:
        words[files.AT_DEMANDS + rng.choice(cells)] = nonzero(rng)


def spare_cells(words: list[int]) -> list[int]:
    """The unused cells."""
    used = set(files.used_cells(*size_in(words)))
    return [cell for cell in range(files.CELLS) if cell not in used]


def spare_word(rng: Random, words: list[int]) -> None:
    """A word after the last one in use is not 0, in any block."""
    block = rng.randrange(len(words) // WORDS)
    first = files.AT_PLAN_SPARE if block else files.AT_SPARE
    words[WORDS * block + rng.choice((first, WORDS - 2, rng.randrange(first, WORDS - 1)))] = nonzero(rng)


def other_number(rng: Random, words: list[int]) -> None:
    """A capacity or demand becomes another one in range: no fault of form, but the plan may not fit."""
    m, n = size_in(words)
    places = [files.AT_INPUTS + rng.randrange(m), files.AT_OUTPUTS + rng.randrange(n)]
    places.append(files.AT_DEMANDS + rng.choice(files.used_cells(m, n)))
    at = rng.choice(places)
    near = min(LIMIT, max(0, words[at] + rng.choice((1, -1))))
    words[at] = rng.choice((0, 1, LIMIT, near, near, rng.randint(0, LIMIT)))


def set_base(words: list[int], block: int, base: int) -> None:
    """Writes a block's base."""
    at = WORDS * block + files.AT_BASE
    words[at], words[at + 1] = base & MASK, base >> 32 & MASK


def base_out_of_range(rng: Random, words: list[int]) -> None:
    """A base of 0 or above the limit, in block 1 or in both blocks."""
    base = rng.choice((0, 0, (1 << 32) + 1, (1 << 32) + 1, 1 << 33, 1 << 63, (1 << 64) - 1, 3 << 32))
    for block in rng.choice(((1,), (1, 2))):
        set_base(words, block, base)


def bases_differ(rng: Random, words: list[int]) -> None:
    """Block 2 has another base than block 1: its low word, its high word, or all of it."""
    base = files.base_in(words, 2)
    low, high = base ^ nonzero(rng), base ^ nonzero(rng) << 32
    set_base(words, 2, rng.choice((low, high, base + 1, 0, 1 << 32, base ^ 1 << 32)))


def unused_numerator(rng: Random, words: list[int]) -> None:
    """An unused cell's numerator is not 0, in its low or high word."""
    cells = spare_cells(words)
    if cells:
        words[files.numerator_at(rng.choice(cells)) + rng.randrange(2)] = nonzero(rng)


def unused_reason(rng: Random, words: list[int]) -> None:
    """An unused cell's reason is not 0."""
    cells = spare_cells(words)
    if cells:
        set_reason(words, rng.choice(cells), rng.choice((1, 2, 3, 255)))


def set_reason(words: list[int], cell: int, reason: int) -> None:
    """Writes a cell's reason byte."""
    at, shift = files.reason_at(cell)
    words[at] = words[at] & ~(0xFF << shift) | reason << shift


def high_reason(rng: Random, words: list[int]) -> None:
    """A used cell's reason above 2."""
    set_reason(words, rng.choice(files.used_cells(*size_in(words))), rng.choice((3, 3, 4, 128, 255)))


REQUEST_FAULTS: tuple[Fault, ...] = (
    wrong_kind, wrong_size, other_size, large_capacity, large_used_capacity, large_demand, large_used_demand,
    unused_capacity, unused_cell, spare_word,
)
PLAN_FAULTS: tuple[Fault, ...] = (
    wrong_kind, wrong_size, other_size, large_used_capacity, large_used_demand, unused_capacity, unused_cell,
    spare_word, base_out_of_range, bases_differ, bases_differ, unused_numerator, unused_numerator,
    unused_reason, high_reason, high_reason, other_number, other_number,
)
