"""Makes a question that shows a difference smaller, as long as the difference stays."""

import time
from collections.abc import Callable, Iterator
from dataclasses import replace
from functools import partial

import blocks
import smaller
from ask import LIST, LONGEST, Question
from listing import listing_of
from smaller import Change

Move = Callable[[Question], Question | None]
SECONDS = 30.0


def weight(question: Question) -> tuple[int, ...]:
    """What is to become smaller: length, words that are not 0, their sizes, room. Checks are free."""
    data = question.first + question.second
    words = blocks.words_of(data + bytes(-len(data) % 4))
    counted = [word for at, word in enumerate(words) if at % blocks.WORDS != blocks.CHECK and word]
    bits = sum(word.bit_length() for word in counted)
    return len(data), len(counted), bits, sum(counted), question.room


def lengths(question: Question) -> tuple[int, int]:
    """The lengths of the question's two files."""
    return len(question.first), len(question.second)


def file_changed(data: bytes, change: Change) -> bytes | None:
    """The file after a change of words; the blocks that were sealed before are sealed again."""
    if not data or len(data) % blocks.SIZE:
        return None
    before = blocks.words_of(data)
    words = list(before)
    if not change(words):
        return None
    blocks.seal(words, [at for at in range(len(words) // blocks.WORDS) if blocks.sealed(before, at)])
    return blocks.bytes_of(words)


def in_file(which: str, change: Change, question: Question) -> Question | None:
    """The question with one of its files changed; room for a listing follows the length of its text."""
    data = file_changed(getattr(question, which), change)
    if data is None:
        return None
    room = question.room
    if question.call == LIST:
        room += len(listing_of(data)) - len(listing_of(question.first))
    return replace(question, room=min(max(room, 0), LONGEST), **{which: data})


def cut(which: str, part: int, question: Question) -> Question | None:
    """The question with one of its files cut to a part of its length, or by one byte."""
    data = getattr(question, which)
    length = len(data) * part // 4 if part < 4 else len(data) - 1
    return replace(question, **{which: data[:length]}) if 0 <= length < len(data) else None


def blank(which: str, question: Question) -> Question:
    """The question with one of its files all 0: enough where only the length matters."""
    return replace(question, **{which: bytes(len(getattr(question, which)))})


def less_room(room: int | None, question: Question) -> Question | None:
    """The question with less room: a given one, or one byte less."""
    room = question.room - 1 if room is None else room
    return replace(question, room=room) if 0 <= room < question.room else None


def moves(question: Question) -> Iterator[Move]:
    """Everything that is tried on a question in one walk, the large steps first."""
    for which in ("first", "second"):
        yield from (partial(cut, which, part) for part in (0, 1, 2, 3, 4))
        yield partial(blank, which)
        words = len(getattr(question, which)) // 4
        yield from (partial(in_file, which, change) for change in smaller.changes(words))
    yield from (partial(less_room, room) for room in (0, 16, 64, 512, 1535, 1536, 1537, None))


def shrunk(question: Question, differs: Callable[[Question], bool]) -> Question:
    """The smallest question found for which `differs` still holds; it has to hold for the one given."""
    deadline = time.monotonic() + SECONDS
    before = None
    while question != before:
        before = question
        for move in moves(question):
            # A step that worked may work again: a number is halved until it cannot be any more.
            while (smaller_one := move(question)) and time.monotonic() < deadline:
                if weight(smaller_one) >= weight(question) or not differs(smaller_one):
                    break
                question = smaller_one
            if lengths(question) != lengths(before):
                # The steps were chosen for the files as they were.
                break
    return question
