"""Which of two plan files the chooser takes."""

import refusals

NEITHER, PROPOSED, RUNNING = 0, 1, 2


def chosen(proposed: bytes, running: bytes) -> int:
    """The proposed file if it is accepted, else the running one if that is, else neither."""
    if refusals.plan_verdict(proposed) is None:
        return PROPOSED
    if refusals.plan_verdict(running) is None:
        return RUNNING
    return NEITHER
