"""Steps that make the words of a file smaller: fewer ports, flows that ask for nothing, lower numbers."""

from collections.abc import Callable, Iterator
from functools import partial

import blocks
import files
import refusals
import waterfill
from files import BASE_LIMIT, CELLS, PORTS, Plan, Request

# A change alters words in place and says whether there was anything to alter.
Change = Callable[[list[int]], bool]


def to_zero(at: int, words: list[int]) -> bool:
    """A word becomes 0."""
    changed = words[at] > 0
    words[at] = 0
    return changed


def to_half(at: int, words: list[int]) -> bool:
    """A word is halved; one that is 1 has had its turn at 0."""
    changed = words[at] > 1
    words[at] //= 2
    return changed


def lowered(step: int, at: int, words: list[int]) -> bool:
    """A word is lowered by a step, but not to 0."""
    changed = words[at] > step
    words[at] -= step if changed else 0
    return changed


def lower_numbers(places: range) -> Iterator[Change]:
    """Words made 0, halved, and lowered by ever smaller steps, so that large numbers come down quickly."""
    for change in (to_zero, to_half, *(partial(lowered, 1 << bit) for bit in reversed(range(32)))):
        yield from (partial(change, at) for at in places)


def has_plan(words: list[int]) -> bool:
    """Whether the words are those of a plan file."""
    return len(words) == 3 * blocks.WORDS


def cell_places(words: list[int], cell: int) -> Iterator[tuple[int, int, int]]:
    """Where a file keeps what belongs to a cell: word, shift, and the bits in use."""
    yield files.AT_DEMANDS + cell, 0, blocks.MASK
    if has_plan(words):
        at = files.numerator_at(cell)
        yield at, 0, blocks.MASK
        yield at + 1, 0, blocks.MASK
        at, shift = files.reason_at(cell)
        yield at, shift, 0xFF


def copy_cell(words: list[int], source: int | None, target: int) -> None:
    """Moves what belongs to one cell to another; no source means that the target becomes 0."""
    taken = cell_places(words, target if source is None else source)
    for (at, shift, bits), (from_at, from_shift, _) in zip(list(cell_places(words, target)), list(taken)):
        value = 0 if source is None else words[from_at] >> from_shift & bits
        words[at] = words[at] & ~(bits << shift) | value << shift


def clear_cell(cell: int, words: list[int]) -> bool:
    """A flow asks for nothing and gets nothing."""
    changed = any(words[at] >> shift & bits for at, shift, bits in cell_places(words, cell))
    copy_cell(words, None, cell)
    return changed


def drop_port(is_input: bool, port: int, words: list[int]) -> bool:
    """A port goes away and those after it move up, with all that belongs to their flows."""
    at = files.AT_M if is_input else files.AT_N
    start = files.AT_INPUTS if is_input else files.AT_OUTPUTS
    if not port < words[at] <= PORTS or words[at] == 1:
        return False
    words[at] -= 1
    words[start + port : start + PORTS] = [*words[start + port + 1 : start + PORTS], 0]
    for target in range(port, PORTS):
        for other in range(PORTS):
            cell = PORTS * target + other if is_input else PORTS * other + target
            following = cell + (PORTS if is_input else 1)
            copy_cell(words, following if target + 1 < PORTS else None, cell)
    return True


def coarser(factor: int, words: list[int]) -> bool:
    """The whole plan over a base smaller by a factor, where everything can be divided by it."""
    if not has_plan(words):
        return False
    plan = files.plan_in(words)
    if plan.base % factor or any(top % factor for top in plan.numerators):
        return False
    put_plan(words, Plan(plan.base // factor, tuple(top // factor for top in plan.numerators), plan.reasons))
    return True


def put_plan(words: list[int], plan: Plan) -> None:
    """Writes a plan's numbers and leaves kinds, spare words and checks as they are."""
    fresh = files.plan_words(files.request_in(words), plan)
    for block in (1, 2):
        start = blocks.WORDS * block
        first, last = start + files.AT_BASE, start + files.AT_PLAN_SPARE
        words[first:last] = fresh[first:last]


def plannable(words: list[int]) -> Request | None:
    """The file's request if it can be planned."""
    block = words[: blocks.WORDS]
    blocks.seal(block)
    if refusals.request_verdict(blocks.bytes_of(block)) is not None:
        return None
    return files.request_in(words)


def replanned(change: Change, words: list[int]) -> bool:
    """Makes a change in the request and gives the new request its own fair plan, off by as much as before."""
    old = list(words)
    if not has_plan(words) or not change(words):
        return False
    before, after = plannable(old), plannable(words)
    if before is None or after is None:
        return False
    base, fair, fresh = files.base_in(old, 1), waterfill.plan_of(before), waterfill.plan_of(after)
    factor, rest = divmod(base, fair.base)
    if rest or not 1 <= fresh.base * factor <= BASE_LIMIT:
        return False
    # The change may have moved cells, so the fair plan before it has to go through the same change.
    put_plan(old, Plan(base, tuple(top * factor for top in fair.numerators), fair.reasons))
    change(old)
    put_plan(words, carried_over(files.plan_in(words), files.plan_in(old), fresh, factor))
    return True


def carried_over(plan: Plan, fair: Plan, fresh: Plan, factor: int) -> Plan:
    """The fresh plan, over a base larger by a factor, with the differences that `plan` has from `fair`."""
    tops = tuple(
        min(max(new * factor + was - old, 0), (1 << 64) - 1)
        for new, was, old in zip(fresh.numerators, plan.numerators, fair.numerators)
    )
    reasons = tuple(
        new if was == old else was for new, was, old in zip(fresh.reasons, plan.reasons, fair.reasons)
    )
    return Plan(fresh.base * factor, tops, reasons)


def request_changes() -> Iterator[Change]:
    """The changes that touch the request."""
    for port in reversed(range(PORTS)):
        yield partial(drop_port, True, port)
        yield partial(drop_port, False, port)
    yield from (partial(clear_cell, cell) for cell in range(CELLS))
    yield from lower_numbers(range(files.AT_INPUTS, files.AT_SPARE))


def changes(count: int) -> Iterator[Change]:
    """All changes for a file of so many words; none if it is not made of whole blocks."""
    if count == 0 or count % blocks.WORDS:
        return
    for change in request_changes():
        yield partial(replanned, change)
        yield change
    yield from (partial(coarser, factor) for factor in (2, 3, 5, 7))
    yield from lower_numbers(range(count))
