#!/usr/bin/env python3
"""A stand-in for the program under test: the same protocol, answered by this judge's own implementation."""

import struct
import sys
from typing import BinaryIO

import expected
from ask import LIST, LONGEST, READ, Question


def next_question(stream: BinaryIO) -> Question | None:
    """The next question, or None where the program would end."""
    head = stream.read(8)
    if len(head) < 8:
        return None
    call, room, *lengths = struct.unpack("<4H", head)
    if not READ <= call <= LIST or max(room, *lengths) > LONGEST:
        return None
    files = [stream.read(length) for length in lengths]
    if [len(file) for file in files] != lengths:
        return None
    return Question(call, room, files[0], files[1])


def main() -> None:
    """Answers until the questions end."""
    while question := next_question(sys.stdin.buffer):
        answer = expected.answer_to(question)
        sys.stdout.buffer.write(answer.number.to_bytes(8, "little") + answer.buffer)
        sys.stdout.buffer.flush()


if __name__ == "__main__":
    main()
