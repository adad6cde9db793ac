"""Random requests that meet no refusal, leaning towards ties, zeros, limits and many levels."""

from collections.abc import Callable
from fractions import Fraction
from math import floor
from random import Random

import waterfill
from files import LIMIT, PORTS, Request, make_request, used_cells

SCALES = (1, 2, 3, 7, 20, 100, 1000, 65_536, 1_000_000, LIMIT)


def side(rng: Random) -> int:
    """A number of ports: the ends of the range more often than the middle."""
    return rng.choice((1, 2, 3, 4, 5, 6, 7, 8, 8, 8, 1, 2))


def amount(rng: Random, scale: int) -> int:
    """A capacity or demand up to a scale; 0, 1 and the scale itself come often."""
    pick = rng.random()
    if pick < 0.1:
        return 0
    if pick < 0.15:
        return 1
    if pick < 0.25:
        return scale
    return rng.randint(0, scale)


def build(rng: Random, capacity: Callable[[], int], demand: Callable[[], int]) -> Request:
    """A request of random size whose numbers come from two makers."""
    m, n = side(rng), side(rng)
    inputs = [capacity() for _ in range(m)]
    outputs = [capacity() for _ in range(n)]
    return make_request(inputs, outputs, [[demand() for _ in range(n)] for _ in range(m)])


def loose(rng: Random) -> Request:
    """Every number for itself."""
    of_ports, of_flows = rng.choice(SCALES), rng.choice(SCALES)
    return build(rng, lambda: amount(rng, of_ports), lambda: amount(rng, of_flows))


def greedy(rng: Random) -> Request:
    """Demands so high that only ports hold the flows back; some flows ask for nothing."""
    scale, idle = rng.choice(SCALES), rng.choice((0.0, 0.0, 0.3, 0.7))
    return build(rng, lambda: amount(rng, scale), lambda: 0 if rng.random() < idle else LIMIT)


def tied(rng: Random) -> Request:
    """Two or three different numbers, so that ports and demands meet at the same level."""
    values = [amount(rng, rng.choice(SCALES)) for _ in range(rng.choice((1, 2, 3)))]
    if rng.random() < 0.3:
        values.append(values[0] * 2 if values[0] * 2 <= LIMIT else 0)
    return build(rng, lambda: rng.choice(values), lambda: rng.choice(values))


def limits(rng: Random) -> Request:
    """Numbers at both ends of their range."""
    values = (0, 1, LIMIT - 1, LIMIT, LIMIT)
    return build(rng, lambda: rng.choice(values), lambda: rng.choice(values))


def sparse(rng: Random) -> Request:
    """Few flows over ports that differ."""
    scale = rng.choice(SCALES)
    return build(rng, lambda: amount(rng, scale), lambda: amount(rng, scale) if rng.random() < 0.25 else 0)


def triangle(rng: Random) -> Request:
    """The report's pattern at any size, turned over or with its rows mixed; one number may differ."""
    size, capacity = rng.randint(2, PORTS), rng.choice((1, 8, 12, 840, LIMIT, amount(rng, LIMIT)))
    rows = [[capacity if v <= u else 0 for v in range(size)] for u in range(size)]
    if rng.random() < 0.3:
        rows = [list(row) for row in zip(*rows)]
    if rng.random() < 0.3:
        rng.shuffle(rows)
    if rng.random() < 0.5:
        rows[rng.randrange(size)][rng.randrange(size)] = amount(rng, max(1, capacity))
    inputs, outputs = [capacity] * size, [capacity] * size
    if rng.random() < 0.3:
        inputs[rng.randrange(size)] = amount(rng, max(1, capacity))
    return make_request(inputs, outputs, rows)


def roomy(rng: Random) -> Request:
    """Ports that carry all demands, exactly or with some room; here and there one unit too little."""
    m, n = side(rng), side(rng)
    scale = rng.choice([scale for scale in SCALES if scale * PORTS <= LIMIT])
    rows = [[amount(rng, scale) for _ in range(n)] for _ in range(m)]
    inputs = [max(0, sum(row) + rng.choice((0, 0, 1, -1))) for row in rows]
    outputs = [max(0, sum(column) + rng.choice((0, 0, 1, -1))) for column in zip(*rows)]
    return make_request(inputs, outputs, rows)


def chain(rng: Random) -> Request:
    """Ports that fill one after the other, each dividing what the one before left: large bases."""
    m, n = rng.choice(((8, 8), (8, 8), (7, 8), (5, 6), (side(rng), side(rng))))
    spread = rng.choice((1, 4, 30, 1000, 100_000))
    capacity, held, level = [0] * (2 * PORTS), [Fraction(0)] * (2 * PORTS), Fraction(0)
    rows = [[0] * n for _ in range(m)]
    order = fill_order(rng, m, n)
    for turn, port in enumerate(order):
        later = [other for other in order[turn + 1 :] if (other < PORTS) != (port < PORTS)]
        # How many of its flows rise until this port is full; leaving some out lets the factors add up.
        count = max(min(1, len(later)), len(later) - rng.choice((0, 0, 1, 2)))
        capacity[port] = floor(held[port] + count * level) + rng.randint(1, spread)
        level = (capacity[port] - held[port]) / count if count else level
        for other in rng.sample(later, count):
            held[other] += level
            rows[min(port, other)][max(port, other) - PORTS] = LIMIT
    return make_request(capacity[:m], capacity[PORTS : PORTS + n], rows)


def fill_order(rng: Random, m: int, n: int) -> list[int]:
    """Inputs and outputs (8 and up) by turns, mixed among themselves."""
    inputs = rng.sample(range(m), m)
    outputs = [PORTS + v for v in rng.sample(range(n), n)]
    order = []
    while inputs or outputs:
        from_inputs = len(inputs) > len(outputs) or (len(inputs) == len(outputs) and rng.random() < 0.5)
        order.append((inputs if from_inputs else outputs).pop())
    return order


def longest_chain(rng: Random) -> Request:
    """A chain found by long search, mixed and enlarged: its base stays 108,864,000."""
    inputs = [27, 901, 1540, 259, 1210, 861, 750, 593]
    outputs = [972, 1087, 698, 187, 852, 401, 916, 1260]
    idle = (8, 40, 41, 51, 62)
    # A factor that shares nothing with the base leaves the base alone and makes the numerators large.
    factor = rng.choice((1, 11, 143, 1009, 10_007))
    u_order, v_order = rng.sample(range(PORTS), PORTS), rng.sample(range(PORTS), PORTS)
    rows = [[0 if PORTS * u + v in idle else LIMIT for v in v_order] for u in u_order]
    return make_request([factor * inputs[u] for u in u_order], [factor * outputs[v] for v in v_order], rows)


def at_share(rng: Random) -> Request:
    """Another request whose demands are set to what the flows get, or to the whole numbers around it."""
    request = rng.choice((loose, greedy, tied, triangle))(rng)
    plan = waterfill.plan_of(request)
    demands = list(request.demands)
    for cell in used_cells(request.m, request.n):
        if rng.random() < 0.4:
            demands[cell] = min(LIMIT, plan.numerators[cell] // plan.base + rng.choice((0, 0, 1)))
    return Request(request.m, request.n, request.inputs, request.outputs, tuple(demands))


KINDS = (
    loose, loose, loose, loose, greedy, greedy, greedy, greedy, tied, tied, tied, tied, limits, limits,
    sparse, sparse, triangle, triangle, roomy, roomy, chain, chain, chain, longest_chain, at_share, at_share,
)


def draw_request(rng: Random) -> Request:
    """A random request."""
    return rng.choice(KINDS)(rng)
