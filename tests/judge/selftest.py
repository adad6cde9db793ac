"""The judge's own test, quick: drawn examples, papers, brute force, driver, search for small files."""

import random
import sys
from collections.abc import Iterable, Sequence
from dataclasses import replace
from itertools import product
from pathlib import Path

import ask
import blocks
import cases
import crosscheck
import damage
import draw_requests
import drawn
import expected
import fairness
import figures
import files
import mmf
import rules_000
import shrink
import waterfill
from ask import Answer, Question
from files import PORTS, Plan, Request, make_request

SEED = 7


def right(questions: Sequence[Question]) -> list[Answer | None]:
    """An answerer without a fault."""
    return [expected.answer_to(question) for question in questions]


def all_hold(statements: Iterable[tuple[str, bool]]) -> bool:
    """Whether every statement holds; the first of those that do not are named."""
    broken = [name for name, holds in statements if not holds]
    for name in broken[:5]:
        print(f"selftest: does not hold ({len(broken)} such): {name}")
    return not broken


def drawn_examples() -> bool:
    """P1 to P12 and the refusals named beside them."""
    return all_hold([*drawn.examples().items(), *drawn.refused().items()])


def papers() -> bool:
    """The papers' figures and rules, and the report's algorithm against water-filling."""
    statements = [*figures.report_statements(), *figures.report_figure_1(right), *figures.document_000(right)]
    statements += rules_000.section_v(right, SEED)
    for number in range(150):
        request = draw_requests.draw_request(cases.dice(SEED, "report", number))
        by_report = files.over_least_base(mmf.flat(mmf.fra(request)[0]), [0] * files.CELLS)
        same = fairness.same_rates(by_report, waterfill.plan_of(request))
        statements.append((f"the report's algorithm on request {number}", same))
    return all_hold(statements)


def allocations(request: Request, base: int) -> list[Plan]:
    """All feasible and bounded allocations of a two by two switch over one base."""
    cells = files.used_cells(2, 2)
    plans = []
    for tops in product(*(range(request.demands[cell] * base + 1) for cell in cells)):
        numerators = [0] * files.CELLS
        for cell, top in zip(cells, tops):
            numerators[cell] = top
        plan = Plan(base, tuple(numerators), (0,) * files.CELLS)
        if fairness.feasible_and_bounded(request, plan):
            plans.append(plan)
    return plans


def beats(other: Plan, plan: Plan) -> bool:
    """Whether some flow has more in `other`, and no flow with at most as much has less."""
    pairs = list(zip(plan.numerators, other.numerators))
    return any(now > was and all(n >= w for w, n in pairs if w <= was) for was, now in pairs)


def brute_force() -> bool:
    """On tiny switches: the definition read word for word picks out the plan, and nothing else."""
    for capacities, demands in (
        ([1, 1, 1, 1], [1, 1, 1, 1]), ([2, 1, 1, 1], [1, 1, 0, 1]), ([1, 2, 2, 1], [2, 1, 1, 1]),
        ([0, 2, 1, 2], [1, 1, 2, 1]), ([2, 2, 1, 2], [1, 2, 2, 0]), ([1, 1, 2, 1], [1, 0, 1, 1]),
    ):
        request = make_request(capacities[:2], capacities[2:], [demands[:2], demands[2:]])
        own = waterfill.plan_of(request)
        everything = allocations(request, 2 * own.base)
        unbeaten = [plan for plan in everything if not any(beats(other, plan) for other in everything)]
        if len(unbeaten) != 1 or not fairness.same_rates(unbeaten[0], own):
            return False
        if [plan for plan in everything if fairness.fair(request, plan)] != unbeaten:
            return False
    return True


def single_changes() -> bool:
    """Any change confined to one word breaks the seal; values survive the way through a file."""
    rng = random.Random(SEED)
    for _ in range(100):
        request = draw_requests.draw_request(rng)
        plan = waterfill.plan_of(request)
        words = files.plan_words(request, plan)
        if (files.request_in(words), files.plan_in(words)) != (request, plan):
            return False
        at = rng.randrange(len(words))
        words[at] ^= rng.choice((1 << rng.randrange(32), rng.randint(1, blocks.MASK)))
        if blocks.sealed(words, at // blocks.WORDS):
            return False
    return all(len(damage.wrong_length(rng, bytes(512))) != 512 for _ in range(50))


def some_questions() -> list[Question]:
    """A few questions of each phase."""
    questions = []
    for number in range(25):
        for case in (cases.request_case, cases.plan_case, cases.chooser_case):
            questions += case(cases.dice(SEED, case.__name__, number))
    return questions


def judge_agrees_with_itself() -> bool:
    """The two ways of settling a question on the cases of a short run."""
    return all(crosscheck.consistent(asked, expected.answer_to(asked)) for asked in some_questions())


def driver() -> bool:
    """The stand-in as a process of its own gives the same answers; one that ends early is noticed."""
    questions = some_questions()
    program = ask.Program([sys.executable, str(Path(__file__).with_name("fake.py"))])
    answers = program.ask(questions)
    broken = program.ask([Question(ask.READ, 0, b""), Question(9, 0, b"")])
    again = program.ask(questions[:1])
    program.stop()
    noticed = broken[0] is not None and broken[1] is None
    return noticed and answers == right(questions) and again == answers[:1]


def with_full_for_bottleneck(questions: Sequence[Question]) -> list[Answer | None]:
    """An answerer that is wrong: it takes a wrong reason for right if the flow's input is merely full."""
    answers = right(questions)
    for at, question in enumerate(questions):
        number = answers[at].number
        if question.call == ask.CHECK and number >> 32 == 15:
            words = blocks.words_of(question.first)
            u = (number & blocks.MASK) // PORTS
            plan, request = files.plan_in(words), files.request_in(words)
            full = sum(plan.numerators[PORTS * u : PORTS * (u + 1)]) == request.inputs[u] * plan.base
            answers[at] = replace(answers[at], number=0) if full else answers[at]
    return answers


def with_doubled_base(questions: Sequence[Question]) -> list[Answer | None]:
    """An answerer that is wrong: its plan has a base twice too large whenever output 5 has a capacity."""
    answers = right(questions)
    for at, question in enumerate(questions):
        if question.call == ask.WRITE and answers[at].number == 0:
            request = files.request_in(blocks.words_of(question.first))
            plan = waterfill.plan_of(request)
            if request.outputs[5] > 100:
                tops = tuple(2 * top for top in plan.numerators)
                file = files.plan_bytes(request, Plan(2 * plan.base, tops, plan.reasons))
                answers[at] = Answer(0, file + answers[at].buffer[len(file) :])
    return answers


def smallest(answerer: ask.Answerer, case: cases.Case) -> Question:
    """The smallest question found that shows what is wrong with an answerer."""
    def differs(question: Question) -> bool:
        return answerer([question])[0] != expected.answer_to(question)

    for number in range(2000):
        for question in case(cases.dice(SEED, "planted", number)):
            if differs(question):
                return shrink.shrunk(question, differs)
    raise AssertionError("a planted fault was not found")


def planted_faults() -> bool:
    """Two planted faults are found and their files become small."""
    reason = smallest(with_full_for_bottleneck, cases.plan_case)
    ports = smallest(with_doubled_base, cases.request_case)
    words = blocks.words_of(ports.first)
    six_outputs = words[files.AT_N] == 6 and words[files.AT_OUTPUTS + 5] == 101
    return shrink.weight(reason)[1] <= 12 and six_outputs and shrink.weight(ports)[1] == 4


TESTS = (
    drawn_examples, papers, brute_force, single_changes, judge_agrees_with_itself, driver, planted_faults,
)


def main() -> int:
    """Runs every test and names those that fail."""
    failed = [test.__name__ for test in TESTS if not test()]
    for name in failed:
        print(f"selftest: failed: {name}")
    if not failed:
        print(f"selftest: {len(TESTS)} tests passed")
    return 1 if failed else 0


if __name__ == "__main__":
    sys.exit(main())
