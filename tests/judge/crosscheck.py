"""The judge against itself: the same question settled in two ways has to have one answer."""

from math import gcd

import fairness
import files
import refusals
import waterfill
from ask import CALLS, CHECK, WRITE, Answer, Question
from blocks import words_of

FIRST_OF_FAIRNESS, WRONG_REASON = 11, 15


def written_plan_is_fair(answer: Answer) -> bool:
    """Whether the plan file expected of the writer is fair by the definition itself, over its least base."""
    words = words_of(answer.buffer[: files.PLAN_SIZE])
    plan = files.plan_in(words)
    return gcd(plan.base, *plan.numerators) == 1 and fairness.fair(files.request_in(words), plan)


def verdict_is_right(data: bytes, number: int) -> bool:
    """Whether the verdict on a plan file agrees with the definition and with the plan by water-filling."""
    refusal = number >> 32
    if 0 < refusal < FIRST_OF_FAIRNESS:
        return True
    words = words_of(data)
    request, plan = files.request_in(words), files.plan_in(words)
    own = waterfill.plan_of(request)
    same = fairness.same_rates(plan, own)
    rates_pass = refusal in (0, WRONG_REASON)
    accepted = same and plan.reasons == own.reasons
    return fairness.fair(request, plan) == same == rates_pass and accepted == (refusal == 0)


def consistent(question: Question, answer: Answer) -> bool:
    """Whether an expected answer stands up to the second way of working it out, where there is one."""
    if question.call == WRITE and answer.number == 0:
        return written_plan_is_fair(answer)
    if question.call == CHECK:
        return verdict_is_right(question.first, answer.number)
    return True


def describe(question: Question, answer: Answer) -> str:
    """What the judge has to say about a contradiction of its own."""
    return f"judge: contradicts itself on {CALLS[question.call]}: {refusals.as_text(answer.number)}"
