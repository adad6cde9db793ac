"""The outside judge: puts thousands of random files to the program and compares every answer."""

import argparse
import random
import sys
import time
from collections import Counter
from collections.abc import Callable, Iterator, Sequence

import ask
import cases
import crosscheck
import drawn
import expected
import figures
import refusals
import report
import rules_000
import shrink
from ask import Answer, Answerer, Question

SEED = 200_511
BATCH = 100
SECONDS_BETWEEN_LINES = 5.0
# Below these sizes a run is a trial, and a refusal that was not met says nothing.
FULL_REQUESTS, FULL_PLANS = 1000, 2000
# What can come of each kind of question: refusal numbers and 0 for acceptance, or the file chosen.
MEETABLE = {
    "requests": (*range(8), 16), "listings": (*range(8), 16), "plan files": tuple(range(16)), "pairs": (0, 1, 2),
}


class Failed(Exception):
    """Something differed; what is to be known about it has been printed."""


class Judge:
    """One run: asks, compares, counts."""

    def __init__(self, answerer: Answerer, seed: int, ending: Callable[[], str]) -> None:
        self.program = answerer
        self.seed = seed
        self.ending = ending
        self.asked = self.tried = 0
        self.said = time.monotonic()
        self.met: dict[str, Counter[int]] = {name: Counter() for name in MEETABLE}

    def answerer(self, questions: Sequence[Question]) -> list[Answer | None]:
        """Asks the program and counts."""
        self.asked += len(questions)
        return self.program(questions)

    def now_and_then(self, line: str) -> None:
        """Says how far the run is, unless something was said a moment ago."""
        if time.monotonic() - self.said > SECONDS_BETWEEN_LINES:
            self.said = time.monotonic()
            print(f"judge: {line}", flush=True)

    def differs(self, question: Question) -> bool:
        """Whether the program answers otherwise than this judge."""
        self.tried += 1
        self.now_and_then(f"{self.tried} files tried")
        return self.answerer([question])[0] != expected.answer_to(question)

    def compare(self, questions: Sequence[Question], name: Callable[[int], str]) -> list[Answer | None]:
        """Asks a batch and gives the answers; ends the run at the first one that differs."""
        wanted = [expected.answer_to(question) for question in questions]
        for at, (question, want) in enumerate(zip(questions, wanted)):
            self.count(question, want)
            if not crosscheck.consistent(question, want):
                self.fail(question, [crosscheck.describe(question, want)], name(at))
        answers = self.answerer(questions)
        for at, (question, want, got) in enumerate(zip(questions, wanted, answers)):
            if want != got:
                self.fail(question, report.difference_lines(question, want, got, self.ending()), name(at))
        return answers

    def count(self, question: Question, want: Answer) -> None:
        """Notes which refusal the question meets."""
        if question.call in (ask.READ, ask.WRITE):
            self.met["requests"][want.number >> 32] += 1
        elif question.call == ask.CHECK:
            self.met["plan files"][want.number >> 32] += 1
        elif question.call == ask.CHOOSE:
            self.met["pairs"][want.number] += 1
        elif question.call == ask.LIST:
            refusal = refusals.SHORT_BUFFER if want.number == 0 else refusals.request_verdict(question.first)
            self.met["listings"][refusal[0] if refusal else 0] += 1

    def fail(self, question: Question, lines: list[str], name: str) -> None:
        """Prints a difference, looks for a smaller one, keeps it, and ends the run."""
        print("\n".join([*lines, f"judge: case {name}, seed {self.seed}"]), flush=True)
        if self.differs(question):
            print("judge: looking for a smaller file that shows a difference", flush=True)
            question = shrink.shrunk(question, self.differs)
            want, (got,) = expected.answer_to(question), self.answerer([question])
            print("\n".join(report.difference_lines(question, want, got, self.ending())))
        last = f"judge: room {question.room}, seed {self.seed}, case {name}"
        print("\n".join([*report.keep(question), last]), flush=True)
        raise Failed

    def drawn_examples(self) -> None:
        """The examples that are drawn by hand."""
        self.compare(drawn.questions(), lambda at: f"drawn example, question {at}")
        print("judge: the drawn examples hold", flush=True)

    def papers(self) -> None:
        """The comparisons with the two papers, each of whose questions is compared like any other."""
        last: list[Question] = []

        def answerer(questions: Sequence[Question]) -> list[Answer | None]:
            last[:] = questions[-1:]
            return self.compare(questions, lambda at: f"the papers, after {held} statements that hold")

        held = 0
        for name, holds in paper_statements(answerer, self.seed):
            if not holds:
                # Every answer was as expected, so it is this judge that does not keep to the papers.
                lines = [f"judge: contradicts the papers, after {held} statements that hold: {name}"]
                print("\n".join([*lines, *(line for question in last for line in report.keep(question))]))
                raise Failed
            held += 1
            self.now_and_then(f"{held} statements of the papers hold")
        print(f"judge: {held} statements of the papers hold", flush=True)

    def phase(self, name: str, count: int, case: cases.Case) -> None:
        """All cases of one kind."""
        for start in range(0, count, BATCH):
            numbers = range(start, min(start + BATCH, count))
            batch = [(number, question) for number in numbers
                     for question in case(cases.dice(self.seed, name, number))]
            self.compare([question for _, question in batch], lambda at: f"{name} {batch[at][0]}")
            self.now_and_then(f"{numbers[-1] + 1} of {count} {name}")
        print(f"judge: {count} of {count} {name}", flush=True)

    def never_met(self) -> Iterator[str]:
        """Prints how often each refusal was met, and gives those that never were."""
        for kind, numbers in MEETABLE.items():
            met = self.met[kind]
            print(f"judge: {kind}: " + ", ".join(f"{number} met {met[number]}" for number in numbers))
            yield from (f"{kind} {number}" for number in numbers if not met[number])


def paper_statements(answerer: Answerer, seed: int) -> Iterator[tuple[str, bool]]:
    """What the two papers say, one statement after the other, and whether the program's answers bear it out."""
    yield from figures.report_statements()
    yield from figures.report_figure_1(answerer)
    yield from figures.document_000(answerer)
    yield from rules_000.section_v(answerer, seed)


def number_in(word: str) -> int:
    """A count on the command line."""
    if not (word.isascii() and word.isdigit()):
        raise argparse.ArgumentTypeError(f"'{word}' is not a number, 0 or more")
    return int(word)


def seed_in(word: str) -> int:
    """The seed on the command line; the word random draws one."""
    if word == "random":
        return random.SystemRandom().randrange(1 << 32)
    if not (word.isascii() and word.isdigit()):
        raise argparse.ArgumentTypeError(f"'{word}' is neither a number, 0 or more, nor the word random")
    return int(word)


def command_in(text: str) -> list[str]:
    """The command to ask: a program and its arguments."""
    if not text.split():
        raise argparse.ArgumentTypeError("no program is named")
    return text.split()


def arguments() -> argparse.Namespace:
    """The command line."""
    parser = argparse.ArgumentParser(description="Compares the program with a separate implementation.")
    parser.add_argument("--seed", type=seed_in, default=SEED, help="a number, or the word random")
    parser.add_argument("--requests", type=number_in, default=3000, help="how many random requests")
    parser.add_argument("--plans", type=number_in, default=4000, help="how many random plan files")
    parser.add_argument("--program", type=command_in, default="tools/run answers", help="the command to ask")
    return parser.parse_args()


def all_phases(judge: Judge, requests: int, plans: int) -> None:
    """Everything that is asked in one run."""
    # First, since here a program that ends or hangs is told at its first missing answer.
    judge.drawn_examples()
    judge.papers()
    judge.phase("requests", requests, cases.request_case)
    judge.phase("plan files", plans, cases.plan_case)
    judge.phase("pairs of plan files", plans // 4, cases.chooser_case)


def main() -> int:
    """Runs all phases; 0 only if nothing differed and every refusal was met."""
    options = arguments()
    print(f"judge: seed {options.seed}", flush=True)
    program = ask.Program(options.program)
    judge = Judge(program.ask, options.seed, lambda: program.ending)
    try:
        program.start()
        all_phases(judge, options.requests, options.plans)
        fault = program.finish()
    except Failed:
        return 1
    except OSError as error:
        print(f"judge: {error.filename or 'the program'}: {error.strerror}")
        return 1
    finally:
        program.stop()
    if fault:
        print(f"judge: after the last answer: {fault}")
        return 1
    missing = list(judge.never_met())
    if missing and options.requests >= FULL_REQUESTS and options.plans >= FULL_PLANS:
        print(f"judge: never met: {', '.join(missing)}")
        return 1
    print(f"judge: {judge.asked} questions answered as expected")
    return 0


if __name__ == "__main__":
    sys.exit(main())
