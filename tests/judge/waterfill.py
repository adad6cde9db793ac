"""The planner of this judge: raises all flows together, with whole numbers over a base that grows."""

from fractions import Fraction
from functools import lru_cache
from math import gcd

import files
from files import CELLS, PORTS, Plan, Request


class Filling:
    """What is known at one level: room left at each port, and the flows that still rise.

    Ports 0 to 7 of `room` are the inputs and ports 8 to 15 the outputs. Room is counted in parts of
    `scale`, so that nothing is ever rounded and comparisons are between whole numbers.
    """

    def __init__(self, request: Request) -> None:
        self.demands = request.demands
        self.scale = 1
        self.room = [*request.inputs, *request.outputs]
        self.rising = list(files.used_cells(request.m, request.n))
        self.level = [Fraction(0)] * CELLS
        self.reason = [0] * CELLS

    def counts(self) -> list[int]:
        """How many flows still rise through each port."""
        counts = [0] * (2 * PORTS)
        for cell in self.rising:
            counts[cell >> 3] += 1
            counts[PORTS + (cell & 7)] += 1
        return counts

    def next_stop(self, counts: list[int]) -> Fraction:
        """The lowest level at which a demand is met or a port is full."""
        top, bottom = min(self.demands[cell] for cell in self.rising) * self.scale, 1
        for room, count in zip(self.room, counts):
            if count and room * bottom < top * count:
                top, bottom = room, count
        return Fraction(top, bottom * self.scale)

    def refine(self, denominator: int) -> None:
        """Makes the parts small enough for levels with this denominator."""
        factor = denominator // gcd(self.scale, denominator)
        if factor > 1:
            self.scale *= factor
            self.room = [room * factor for room in self.room]

    def step(self) -> None:
        """Raises all rising flows to the next stop and stops those that have to."""
        counts = self.counts()
        stop = self.next_stop(counts)
        self.refine(stop.denominator)
        height = stop.numerator * (self.scale // stop.denominator)
        full = [count > 0 and room == height * count for room, count in zip(self.room, counts)]
        still = []
        for cell in self.rising:
            u, v = cell >> 3, PORTS + (cell & 7)
            met = self.demands[cell] * self.scale == height
            if not (met or full[u] or full[v]):
                still.append(cell)
                continue
            self.level[cell] = stop
            # A met demand comes first; an input that is full at this very level comes before an output.
            self.reason[cell] = 0 if met else 1 if full[u] else 2
            self.room[u] -= height
            self.room[v] -= height
        self.rising = still


@lru_cache(maxsize=256)
def plan_of(request: Request) -> Plan:
    """The fair plan of a request that meets no refusal, over its least base."""
    filling = Filling(request)
    while filling.rising:
        filling.step()
    return files.over_least_base(filling.level, filling.reason)
