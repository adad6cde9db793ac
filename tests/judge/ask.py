"""Questions, answers, and the program that is asked: one process, fed in batches."""

import os
import select
import struct
import subprocess
import threading
import time
from collections.abc import Callable, Sequence
from dataclasses import dataclass
from typing import BinaryIO

READ, WRITE, CHECK, CHOOSE, LIST = 1, 2, 3, 4, 5
CALLS = {
    READ: "rate_plan_read",
    WRITE: "rate_plan_write",
    CHECK: "rate_plan_check",
    CHOOSE: "rate_plan_choose",
    LIST: "rate_plan_list",
}
FILLER = 0xA5
LONGEST = 4096
# The program stops after a million answers; a new one is started well before that.
ANSWERS_PER_PROCESS = 500_000
PATIENCE_SECONDS = 20.0


@dataclass(frozen=True)
class Question:
    """One call: which, the room of its buffer, and the bytes lent to it."""

    call: int
    room: int
    first: bytes
    second: bytes = b""

    def encoded(self) -> bytes:
        """The question as the program reads it."""
        head = struct.pack("<4H", self.call, self.room, len(self.first), len(self.second))
        return head + self.first + self.second


@dataclass(frozen=True)
class Answer:
    """The number that a call gave and its buffer afterwards."""

    number: int
    buffer: bytes = b""


# An answerer takes questions and gives one answer for each, or None where none came.
Answerer = Callable[[Sequence[Question]], list[Answer | None]]


class Program:
    """The program under test; started when first asked and again after it has ended."""

    def __init__(self, command: list[str]) -> None:
        self.command = command
        self.process: subprocess.Popen[bytes] | None = None
        self.answered = 0
        self.ending = ""

    def start(self) -> subprocess.Popen[bytes]:
        """The running process; a new one if there is none or the old one is nearly used up."""
        if self.process and self.answered > ANSWERS_PER_PROCESS:
            self.stop()
        if self.process is None:
            pipe = subprocess.PIPE
            self.process = subprocess.Popen(self.command, stdin=pipe, stdout=pipe, bufsize=0)
            self.answered = 0
        return self.process

    def stop(self) -> None:
        """Ends the process, whatever state it is in."""
        process, self.process = self.process, None
        if process is None:
            return
        process.stdin.close()
        try:
            process.wait(timeout=2)
        except subprocess.TimeoutExpired:
            process.kill()
            process.wait()
        process.stdout.close()

    def finish(self) -> str:
        """Ends the program after its last answer; says what is wrong with how it ends, or nothing."""
        process = self.process
        if process is None:
            return ""
        process.stdin.close()
        surplus = take(process.stdout.fileno(), 1)
        ended = how_it_ended(process)
        self.stop()
        return "the program wrote more than its answers" if surplus else "" if process.returncode == 0 else ended

    def ask(self, questions: Sequence[Question]) -> list[Answer | None]:
        """The answers in order; after an end of the program all that are missing are None."""
        process = self.start()
        # Fed from a second thread: both pipes are small, and each side waits when its pipe is full.
        feeder = threading.Thread(target=feed, args=(process.stdin, questions), daemon=True)
        feeder.start()
        wanted = sum(8 + question.room for question in questions)
        data = take(process.stdout.fileno(), wanted)
        self.answered += len(questions)
        if len(data) < wanted:
            self.ending = how_it_ended(process)
            process.kill()
            feeder.join()
            self.stop()
        feeder.join()
        return cut_up(data, questions)


def how_it_ended(process: subprocess.Popen[bytes]) -> str:
    """Why a program gives no more answers."""
    try:
        return f"the program ended with status {process.wait(timeout=2)}"
    except subprocess.TimeoutExpired:
        return f"the program said nothing for {PATIENCE_SECONDS:.0f} seconds"


def cut_up(data: bytes, questions: Sequence[Question]) -> list[Answer | None]:
    """The answers in a stretch of output; None where it ends too early."""
    answers: list[Answer | None] = []
    at = 0
    for question in questions:
        body, end = at + 8, at + 8 + question.room
        whole = end <= len(data)
        answers.append(Answer(int.from_bytes(data[at:body], "little"), data[body:end]) if whole else None)
        at = end
    return answers


def feed(pipe: BinaryIO, questions: Sequence[Question]) -> None:
    """Writes the questions; a program that has gone away is noticed by its missing answers."""
    data = memoryview(b"".join(question.encoded() for question in questions))
    try:
        while data:
            data = data[pipe.write(data) :]
    except (BrokenPipeError, ValueError):
        pass


def take(descriptor: int, wanted: int) -> bytes:
    """Up to `wanted` bytes; fewer if the program ends or says nothing for too long."""
    parts = []
    deadline = time.monotonic() + PATIENCE_SECONDS
    while wanted > 0:
        ready, _, _ = select.select([descriptor], [], [], max(0.0, deadline - time.monotonic()))
        part = os.read(descriptor, min(wanted, 1 << 20)) if ready else b""
        if not part:
            break
        parts.append(part)
        wanted -= len(part)
        deadline = time.monotonic() + PATIENCE_SECONDS
    return b"".join(parts)
