"""The random cases: for a seed, a phase and a number always the same questions."""

from collections.abc import Callable
from random import Random

import blocks
import files
import listing
import waterfill
from ask import CHECK, CHOOSE, LIST, LONGEST, READ, WRITE, Question
from damage import damaged
from draw_plans import draw_plan, fair_plan
from draw_requests import draw_request
from faults import PLAN_FAULTS, REQUEST_FAULTS


Case = Callable[[Random], list[Question]]


def dice(seed: int, phase: str, number: int) -> Random:
    """Each case has chance of its own, so that it can be made again without those before it."""
    return Random(f"{seed} {phase} {number}")


def writer_room(rng: Random) -> int:
    """Room for a plan file: mostly enough, exactly or with bytes to be kept, and sometimes too little."""
    size = files.PLAN_SIZE
    enough = (size, size, size, size + 1, 2048, rng.randint(size, LONGEST))
    return rng.choice((*enough, 0, size - 1, rng.randrange(size)))


def listing_room(rng: Random, length: int) -> int:
    """Room for a text: exact, long, or too short by one or more."""
    enough = (length, length, length + 1, LONGEST, rng.randint(length, LONGEST))
    return rng.choice((*enough, length - 1, rng.randrange(length)))


def idle_room(rng: Random) -> int:
    """Room beside a call that writes nothing: mostly none, and now and then some that has to stay as it is."""
    return rng.choice((1, files.PLAN_SIZE, LONGEST, rng.randint(1, LONGEST))) if rng.random() < 0.05 else 0


def about_request(rng: Random, data: bytes) -> list[Question]:
    """The three calls that take a request file."""
    return [
        Question(READ, idle_room(rng), data),
        Question(WRITE, writer_room(rng), data),
        Question(LIST, listing_room(rng, len(listing.listing_of(data))), data),
    ]


def request_case(rng: Random) -> list[Question]:
    """A request as it is, its plan given back to the checker, and the request with some damage."""
    request = draw_request(rng)
    words = files.request_words(request)
    plan_file = files.plan_bytes(request, waterfill.plan_of(request))
    return [
        *about_request(rng, blocks.bytes_of(words)),
        Question(CHECK, idle_room(rng), plan_file),
        *about_request(rng, damaged(rng, words, REQUEST_FAULTS)),
    ]


def plan_file(rng: Random) -> bytes:
    """A plan file for a random request: half of them sound in form, half with damage."""
    request = draw_request(rng)
    if rng.random() < 0.5:
        return files.plan_bytes(request, draw_plan(rng, request))
    # Damage hides what is wrong with the rates, so mostly the fair plan is under it.
    maker = fair_plan if rng.random() < 0.7 else draw_plan
    return damaged(rng, files.plan_words(request, maker(rng, request)), PLAN_FAULTS)


def plan_case(rng: Random) -> list[Question]:
    """One plan file for the checker."""
    return [Question(CHECK, idle_room(rng), plan_file(rng))]


def accepted_file(rng: Random) -> bytes:
    """A plan file that has to be accepted."""
    request = draw_request(rng)
    return files.plan_bytes(request, fair_plan(rng, request))


def chooser_case(rng: Random) -> list[Question]:
    """A pair of plan files, each right or (mostly) wrong; now and then an empty one or the same twice."""
    proposed, running = (rng.choice((accepted_file, plan_file))(rng) for _ in range(2))
    if rng.random() < 0.1:
        proposed, running = rng.choice(((proposed, proposed), (proposed, b""), (b"", running), (b"", b"")))
    return [Question(CHOOSE, idle_room(rng), proposed, running)]
