"""The answer that each question should get, worked out by this judge's own implementation."""

import chooser
import files
import listing
import refusals
import waterfill
from ask import CHECK, CHOOSE, FILLER, LIST, READ, WRITE, Answer, Question
from blocks import words_of


def filler(room: int) -> bytes:
    """An untouched buffer."""
    return bytes([FILLER]) * room


def written(question: Question) -> Answer:
    """What the writer of plan files gives: the file at the buffer's beginning, or a refusal and no change."""
    verdict = refusals.request_verdict(question.first)
    if verdict is None and question.room < files.PLAN_SIZE:
        verdict = refusals.SHORT_BUFFER
    if verdict is not None:
        return Answer(refusals.as_number(verdict), filler(question.room))
    request = files.request_in(words_of(question.first))
    file = files.plan_bytes(request, waterfill.plan_of(request))
    return Answer(0, file + filler(question.room - len(file)))


def listed(question: Question) -> Answer:
    """What the listing gives: its length and its text, or 0 and no change if the room is too short."""
    text = listing.listing_of(question.first)
    if len(text) > question.room:
        return Answer(0, filler(question.room))
    return Answer(len(text), text + filler(question.room - len(text)))


def told(question: Question) -> Answer:
    """What the three calls give that write nothing: a number, and the buffer as it was if there is one."""
    if question.call == READ:
        number = refusals.as_number(refusals.request_verdict(question.first))
    elif question.call == CHECK:
        number = refusals.as_number(refusals.plan_verdict(question.first))
    else:
        assert question.call == CHOOSE
        number = chooser.chosen(question.first, question.second)
    return Answer(number, filler(question.room))


def answer_to(question: Question) -> Answer:
    """The right answer to any question."""
    if question.call == WRITE:
        return written(question)
    if question.call == LIST:
        return listed(question)
    return told(question)
