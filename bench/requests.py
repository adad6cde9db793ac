#!/usr/bin/env python3
"""Writes request files, one after the other, to standard output: requests.py KIND [COUNT], or requests.py size M N [COUNT].

The same words always give the same bytes, on any machine.
"""
import sys
from pathlib import Path

sys.dont_write_bytecode = True  # a tool leaves nothing behind
sys.path.insert(0, str(Path(__file__).resolve().parent.parent / "tools"))
from request_file import file_of

LIMIT = 16_777_216  # the largest capacity and the largest demand
MOST = 100  # requests in one output


class Numbers:
    """A generator of its own: nobody else's may change the requests under us."""

    def __init__(self, seed):
        self.state = seed

    def below(self, limit):
        self.state = (self.state * 6364136223846793005 + 1442695040888963407) % 2**64
        return (self.state >> 33) % limit

    def between(self, low, high):
        return low + self.below(high - low + 1)

    def shuffled(self, items):
        items = list(items)
        for i in range(len(items) - 1, 0, -1):
            j = self.below(i + 1)
            items[i], items[j] = items[j], items[i]
        return items


class Request:
    def __init__(self, inputs, outputs, demands):
        self.inputs = inputs
        self.outputs = outputs
        self.demands = demands  # a row for each input

    def turned(self):
        """Inputs and outputs exchanged."""
        return Request(self.outputs, self.inputs, [list(column) for column in zip(*self.demands)])


def drawn(m, n, capacity, demand):
    """A request whose numbers are drawn one by one."""
    inputs = [capacity() for _ in range(m)]
    outputs = [capacity() for _ in range(n)]
    return Request(inputs, outputs, [[demand() for _ in range(n)] for _ in range(m)])


def saturated(numbers):
    """Every flow asks for all it may: only ports stop flows."""
    return drawn(8, 8, lambda: numbers.between(1, LIMIT), lambda: LIMIT)


def sparse(numbers):
    """One cell in four asks."""
    return drawn(8, 8, lambda: numbers.between(1, LIMIT), lambda: numbers.below(LIMIT) if numbers.below(4) == 0 else 0)


def ties(numbers):
    """Small numbers: ports fill and demands are met at the same levels."""
    return drawn(8, 8, lambda: 8 * numbers.between(1, 2), lambda: numbers.below(4))


def demand(numbers):
    """Most demands are met, few ports fill."""
    return drawn(
        8,
        8,
        lambda: 1_000_000 + 5_000 * numbers.below(1000),
        lambda: 1 + numbers.below(1_000_000) // numbers.between(1, 8),
    )


def chain(numbers, above):
    """A port of eight flows, and their demands, of which each is met only by what the one before it leaves.

    The first asks for less than the port's eighth part, each later one for a little more than what was everyone's part
    until then, and the last for more than is left. So seven demands are met one at a time, and then the port fills. What
    each leaves to the others shrinks to its 5040th part on the way, so it has to be large to begin with.
    """
    asked = above + 1 + numbers.below(1_000)
    capacity = left = 8 * (asked + numbers.between(80_000, 100_000))
    demands = []
    for others in range(7, 0, -1):
        demands.append(asked)
        part = left // (others + 1)
        left -= asked
        asked = part + 1 + numbers.below(1 + (left // others - part) // 8)
    demands.append(left + 1 + numbers.below(1_000))
    return capacity, demands


def rounds(numbers):
    """Every round stops one flow only: each input is a chain, and one is through before the next begins."""
    above = numbers.between(500_000, 600_000)
    rows = []
    for _ in range(8):
        capacity, demands = chain(numbers, above)
        rows.append((capacity, numbers.shuffled(demands)))
        above = max(demands)
    rows = numbers.shuffled(rows)
    request = Request([capacity for capacity, _ in rows], [LIMIT] * 8, [demands for _, demands in rows])
    return request if numbers.below(2) else request.turned()


def size(numbers, m, n):
    """Any numbers, small demands as often as large ones."""
    return drawn(m, n, lambda: numbers.between(1, LIMIT), lambda: numbers.below(LIMIT) >> numbers.below(8))


KINDS = {kind.__name__: kind for kind in (saturated, sparse, ties, rounds, demand)}


def block_of(request):
    """The request's file; a kind that draws numbers above the limit would measure refusals."""
    assert max(*request.inputs, *request.outputs, *map(max, request.demands)) <= LIMIT, "a number above the limit"
    return file_of(request.inputs, request.outputs, request.demands)


def usage():
    sys.exit(f"usage: requests.py KIND [COUNT], KIND one of {' '.join(KINDS)}; or requests.py size M N [COUNT]")


def numbers_in(words, least, most):
    """The words as numbers in a range."""
    found = [int(word) for word in words if word.isascii() and word.isdigit()]
    if len(found) < len(words) or any(not least <= number <= most for number in found):
        usage()
    return found


def main(words):
    if len(words) in (3, 4) and words[0] == "size":
        m, n = numbers_in(words[1:3], 1, 8)
        make, seed, words = (lambda numbers: size(numbers, m, n)), 100 + 8 * m + n, words[3:]
    elif len(words) in (1, 2) and words[0] in KINDS:
        make, seed, words = KINDS[words[0]], list(KINDS).index(words[0]), words[1:]
    else:
        usage()
    count = numbers_in(words, 1, MOST)[0] if words else MOST
    numbers = Numbers(seed)
    for _ in range(count):
        sys.stdout.buffer.write(block_of(make(numbers)))


if __name__ == "__main__":
    main(sys.argv[1:])
