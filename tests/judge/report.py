"""What is printed and kept of a difference between the program and this judge."""

from pathlib import Path

import blocks
import refusals
from ask import CALLS, CHOOSE, LIST, Answer, Question

KEPT = Path("target") / "judge"


def number_text(call: int, number: int) -> str:
    """A call's number in words."""
    if call == CHOOSE:
        return {0: "0, neither", 1: "1, proposed", 2: "2, running"}.get(number, str(number))
    if call == LIST:
        return f"{number} bytes of text"
    return f"{number:#x}, {refusals.as_text(number)}"


def buffer_lines(want: bytes, got: bytes) -> list[str]:
    """Where two buffers part, if they do."""
    at = next((at for at, pair in enumerate(zip(want, got)) if pair[0] != pair[1]), None)
    if at is None:
        return []
    place = f"byte {at} (word {at // 4}, which is word {at // 4 % blocks.WORDS} of block {at // blocks.SIZE})"
    return [
        f"  the buffer differs from {place} on",
        f"    expected {want[at : at + 24].hex(' ')}",
        f"    came     {got[at : at + 24].hex(' ')}",
    ]


def text_lines(name: str, answer: Answer) -> list[str]:
    """A listing line by line."""
    text = answer.buffer[: answer.number].decode("ascii", "replace")
    return [f"  {name} text:"] + ["    " + line for line in text.splitlines()]


def difference_lines(question: Question, want: Answer, got: Answer | None, ending: str) -> list[str]:
    """What was asked, what was expected and what came."""
    lines = [
        f"judge: difference in {CALLS[question.call]}, room {question.room}",
        f"  expected {number_text(question.call, want.number)}",
    ]
    if got is None:
        return [*lines, f"  no answer came: {ending}"]
    lines.append(f"  came     {number_text(question.call, got.number)}")
    lines += buffer_lines(want.buffer, got.buffer)
    if question.call == LIST:
        lines += text_lines("expected", want) + text_lines("given", got)
    return lines


def word_lines(data: bytes) -> list[str]:
    """The words of a file that are not 0."""
    whole = blocks.words_of(data[: len(data) // 4 * 4])
    lines = [f"  {len(data)} bytes; words that are not 0:"]
    lines += [f"    {at}: {word:#010x} ({word})" for at, word in enumerate(whole) if word]
    if len(data) % 4:
        lines.append(f"    and at the end the bytes {data[len(whole) * 4 :].hex(' ')}")
    return lines


def keep(question: Question) -> list[str]:
    """Saves the question's files, shows their words, and says where they are."""
    KEPT.mkdir(parents=True, exist_ok=True)
    lines = []
    for name, data in (("difference.bin", question.first), ("difference-running.bin", question.second)):
        if name == "difference.bin" or question.call == CHOOSE:
            (KEPT / name).write_bytes(data)
            lines += [f"judge: {KEPT / name}", *word_lines(data)]
    return lines
