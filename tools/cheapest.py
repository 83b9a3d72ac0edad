#!/usr/bin/env python3
"""The cheapest plan of a register (part 1 of a job, by itself), worked out from the scope paper and the requests by themselves, slowly
and in Python's whole numbers. It shares no code with the library; its answers are a second opinion, not a proof. Of a range, `16`, the
low coefficient is taken, so the cost that is printed is that with the low coefficients.

    tools/cheapest.py FILE              prints the lines of the register in FILE
    tools/cheapest.py --limit N FILE    the same with the visit limit N in place of the program's
    tools/cheapest.py --compare DIR     compares each NAME.register in DIR with NAME.cheapest

A comparison follows the search rule, and with at most 20 choices it also works out what every plan costs. It walks at most 200,000
visits of a search. One that has more is not walked to the end: it is named and counted apart, and of its NAME.cheapest only so much is
looked at, that it doesn't speak of fewer visits.

It takes minutes where the program `cheapest` takes seconds. `--limit N` bounds that: a search that would take more than N visits is
refused, `R 14 0`.

The exit status is 0 where there is a plan and 1 where the register or the search is refused; with `--compare` it is 0 where all lines
are as expected, else 1, also where DIR has no NAME.register ("0 passed, 0 failed"). Where something else is wrong it is 2, one line on
standard error says what, and nothing is printed. Such a line also says that FILE is a text and not a register; its bytes are refused
all the same.
"""
import re
import sys

sys.dont_write_bytecode = True

from check_job import Job, Refused, text
from command_line import expect, files, number, put, read, run, say
from job_text import TEXT, is_text

LIMIT = 100_000_000
WALKED = 200_000
EVERY = 20
TOO_MANY = "R 14 0\n"
NONE_FITS = "R 16 0\n"


def register_of(data):
    """The register; raises its refusal."""
    register = Job(data)
    register.register()
    register.ended()
    return register


class Search:
    """The rule of request R-3, with the rows of R-5. A partial plan is two numbers: the choices from `undecided` up are decided, those
    whose bits are in `fed` fed and the others unfed; the choices below `undecided` are not decided. Rows are looked at where no choice
    is undecided: a full plan that doesn't fit is visited and changes nothing else."""

    def __init__(self, register, limit):
        self.register, self.limit = register, limit
        self.visits, self.best, self.plan = 0, None, None
        self.visit(len(register.choices), 0)
        if self.plan is None:
            raise Refused(16, 0, 0)

    def sum_at(self, undecided, fed):
        unfed = -1 << undecided & ~fed
        total = self.register.base
        for mask, coefficient, _ in self.register.terms:
            wholly_fed = mask & ~fed == 0
            none_unfed = mask & unfed == 0
            if wholly_fed or none_unfed and coefficient < 0:
                total += coefficient
        return total

    def visit(self, undecided, fed):
        if self.visits == self.limit:
            raise Refused(14, 0, 0)
        self.visits += 1
        total = self.sum_at(undecided, fed)
        if self.best is not None and total >= self.best:
            return
        if undecided == 0:
            if self.register.fits(fed):
                self.best, self.plan = total, fed
        else:
            self.visit(undecided - 1, fed)
            self.visit(undecided - 1, fed | 1 << undecided - 1)


def lines(data, limit):
    """The lines of a register, and whether it has a plan."""
    try:
        register = register_of(data)
        search = Search(register, limit)
    except Refused as refusal:
        number, _, position = refusal.args
        return [f"R {number} {position}"], False
    return register.feedings(search.plan) + [f"S {search.best} {search.visits}"], True


def is_cheapest(data, expected):
    """Whether a text has the first of the cheapest plans that fit and its cost, by the costs of all plans, or says that none fits. Of a
    refused register and of one with more choices than that is done for nothing is said."""
    try:
        register = register_of(data)
    except Refused:
        return True
    if len(register.choices) > EVERY:
        return True
    lows = register.lows()
    costs = ((register.total(plan, lows), plan) for plan in range(1 << len(register.choices)) if register.fits(plan))
    cost, plan = min(costs, default=(None, None))
    if plan is None:
        return expected == NONE_FITS
    return expected.startswith("".join(line + "\n" for line in register.feedings(plan)) + f"S {cost} ")


def has_more(expected):
    """Whether a text may be that of a search with more visits than are walked."""
    last = re.fullmatch(r"(?:F \d+ \d+\n)*S -?\d+ (\d+)\n", expected)
    return expected in (TOO_MANY, NONE_FITS) or last is not None and int(last[1]) > WALKED


def compare(folder):
    registers = files(folder, ".register")
    failed, longer = [], []
    for path in registers:
        data, expected = read(path), read(path.with_suffix(".cheapest")).decode(errors="replace")
        walked = text(lines(data, WALKED)[0])
        more = walked == TOO_MANY
        agrees = has_more(expected) if more else walked == expected
        if not (agrees and is_cheapest(data, expected)):
            failed.append(path.name)
        elif more:
            longer.append(path.name)
    said = [f"not the expected lines: {name}" for name in failed]
    said += [f"not walked to the end, more than {WALKED:,} visits: {name}" for name in longer]
    apart = f", {len(longer)} not walked to the end" if longer else ""
    put(text(said + [f"{len(registers) - len(failed) - len(longer)} passed, {len(failed)} failed{apart}"]))
    return 1 if failed or not registers else 0


def main(words):
    if words[:1] == ["--compare"]:
        return compare(*expect(words[1:], "DIR"))
    limited = words[:1] == ["--limit"]
    word, file = expect(words[1:], "N", "FILE") if limited else (str(LIMIT), *expect(words, "FILE"))
    limit, data = number("N", word), read(file)
    printed, is_found = lines(data, limit)
    put(text(printed))
    if is_text(data):
        say(f"{file}: {TEXT}")
    return 0 if is_found else 1


if __name__ == "__main__":
    run(__doc__, main)
