"""The text that the listing gives for a request file."""

import refusals
import waterfill
from blocks import words_of
from files import PORTS, request_in, used_cells


def listing_of(data: bytes) -> bytes:
    """The whole listing, or the single line of a refusal."""
    verdict = refusals.request_verdict(data)
    if verdict is not None:
        return b"refused %d %d\n" % verdict
    request = request_in(words_of(data))
    plan = waterfill.plan_of(request)
    cells = used_cells(request.m, request.n)
    lines = [f"plan {request.m} {request.n} base {plan.base}"]
    for cell in cells:
        u, v = divmod(cell, PORTS)
        lines.append(f"{u} {v} {request.demands[cell]} {plan.numerators[cell]} {plan.reasons[cell]}")
    lines.append(f"end {len(cells)}")
    return "".join(line + "\n" for line in lines).encode()
