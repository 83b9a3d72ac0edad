#!/usr/bin/env python3
"""The penalty form of a register and a scheme as a text that samplers read, and what a sampler answers as a plan. Worked out from the
scope paper and the requests by themselves, in Python's whole numbers.

    tools/penalty_qubo.py qubo FILE [SCHEME]                writes the form to standard output as a .qubo file, as qbsolv reads it
    tools/penalty_qubo.py list FILE [SCHEME]                writes it as a list of coordinates, as dimod reads it
    tools/penalty_qubo.py sample FORM BITS FILE [SCHEME]    prints what a sampler's answer is worth, and the plan that it carries

FILE is a job, or a register with a scheme directly behind it; what stands behind the scheme is not looked at. With SCHEME there are two
files: FILE is a register and SCHEME a scheme, each by itself. Of a range the low coefficient is taken.

The variables are numbered from 0, the choices first and then the products, as in the scheme. Each has a line, "i i weight", also where
its weight is 0, since the ends of a coupler are to be named so and a sampler answers only for what is named. Behind these stand the lines
"i j weight" of the pairs, i below j, without those of weight 0. The constant is not among them: it stands in the comment line "constant
C". So a sampler's energy plus C is the value of the penalty form, and at the filling of a plan it is the plan's cost. All numbers are
whole, and none is above 2^53, so numbers with a floating point hold them too.

FORM is a file that `qubo` or `list` has written. BITS is a sampler's answer: a digit 0 or 1 for each variable, variable 0 first, with
blanks between them or none, or - for standard input. Printed are the energy, the value, each product that is not its operands
multiplied, with its weight, and what the plan costs, in a job too where the register has ranges; then the plan, with the rows that it
does not fit. All of it is a text for `tools/job_text.py make`, which makes part 4 of it.

The exit status is 0; it is 1 where the register or the scheme is refused, and one line on standard error then has the refusal as
`feedcheck` prints it, and its part. Where something else is wrong it is 2, and one line on standard error says what: for example that
FORM is the form of another scheme. In both cases nothing is on standard output.
"""
import re
import sys
from collections import Counter

sys.dont_write_bytecode = True

from check_job import Job, Refused, text
from command_line import Misuse, Trouble, expect, put, read, run, say
from job_text import job_in, lines_of, plan_command, product_of, register_of, show


def uses(job, split):
    """The products that a term uses, by its split."""
    found, todo = set(), list(split)
    while todo:
        k = todo.pop()
        if k in job.products and k not in found:
            found.add(k)
            todo += job.products[k]
    return found


def weights(job):
    """The weight of each product."""
    sums = Counter()
    for split, low in zip(job.splits, job.lows()):
        sums.update({k: abs(low) for k in uses(job, split)})
    return {k: job.factor * sums[k] for k in job.products}


class Form:
    """A form: its constant, the coefficient of z_i at (i, i), for each variable, and that of z_i z_j, i below j, at (i, j), where it is
    not 0."""

    def __init__(self, constant, variables, entries):
        self.constant, self.variables = constant, variables
        self.entries = {(i, i): entries.get((i, i), 0) for i in range(variables)}
        self.entries.update({pair: c for pair, c in sorted(entries.items()) if c and pair[0] < pair[1]})

    def energy(self, filling):
        return sum(c for (i, j), c in self.entries.items() if filling[i] and filling[j])


def penalty_form(job):
    """The penalty form of what a job's parts 1 and 2 say."""
    entries = Counter(dict(zip(job.splits, job.lows())))  # no two terms have the same split
    for k, weight in weights(job).items():
        l, r = job.products[k]
        for pair, times in (((k, k), 3), ((l, k), -2), ((r, k), -2), ((l, r), 1)):
            entries[pair] += times * weight
    return Form(job.base, len(job.sets), entries)


def comments(form, sign):
    return [f"{sign} energy + constant = value of the penalty form", f"{sign} constant {form.constant}"]


def entries(form):
    return [f"{i} {j} {c}" for (i, j), c in form.entries.items()]


def qubo(form):
    n = form.variables
    return comments(form, "c") + [f"p qubo 0 {n} {n} {len(form.entries) - n}"] + entries(form)


def coordinates(form):
    return ["# vartype=BINARY"] + comments(form, "#") + entries(form)


def entry_of(words):
    """The pair and the number of a line of entries."""
    if len(words) != 3 or not all(re.fullmatch("-?[0-9]{1,30}", word) for word in words):
        raise Trouble(f"{' '.join(words)} is no line of two variables and a whole number")
    i, j, c = map(int, words)
    return (i, j), c


def form_in(lines):
    """The form in the lines of a file, a .qubo file or a list of coordinates."""
    constant, entries = None, {}
    for number, line in enumerate(lines, 1):
        words = line.split()
        if words[:1] in (["c"], ["#"]):
            said = re.fullmatch("[c#] constant (-?[0-9]{1,30})", " ".join(words))
            constant = int(said[1]) if said else constant
        elif words and words[:2] != ["p", "qubo"]:
            try:
                pair, c = entry_of(words)
            except Trouble as trouble:
                raise Trouble(f"line {number}: {trouble}") from None
            if pair in entries:
                raise Trouble(f"line {number}: {pair[0]} {pair[1]} stands there twice")
            entries[pair] = c
    if constant is None:
        raise Trouble("no comment line with the constant")
    return constant, entries


def need_equal(found, form):
    """Whether a file has the form that is due."""
    constant, entries = found
    if constant != form.constant:
        raise Trouble(f"the constant is {constant}, and {form.constant} is due")
    for i, j in sorted(entries.keys() | form.entries.keys()):
        has, due = entries.get((i, j), 0), form.entries.get((i, j), 0)
        if has != due:
            raise Trouble(f"not the form of this register and scheme: {i} {j} has {has}, and {due} is due")


def filling_of(word, variables):
    """The values of the variables, of a sampler's answer."""
    said = read(word).decode(errors="replace") if word == "-" else word
    digits = "".join(said.split())
    if re.search("[^01]", digits):
        raise Trouble(f"{word}: BITS are to be digits 0 and 1")
    if len(digits) != variables:
        raise Trouble(f"{word}: {len(digits)} digits, and {variables} are due, one for each variable")
    return [int(digit) for digit in digits]


def untrue(job, filling):
    """The products that are not their operands multiplied."""
    weight = weights(job)
    for k, (l, r) in job.products.items():
        if filling[k] != filling[l] * filling[r]:
            yield f"# product {k}, of weight {weight[k]}, is {filling[k]}, and {product_of(l, r)} is {filling[l] * filling[r]}"


def sampled(job, form, filling, register):
    """The lines of a sampler's answer."""
    fed = sum(1 << i for i in range(len(job.choices)) if filling[i])
    energy, plan = form.energy(filling), show(register + plan_command(fed))[-1]
    in_a_job = f", in a job {job.cost(fed)}" if job.ranged else ""
    said = [f"# energy {energy}", f"# value {energy + form.constant}", *untrue(job, filling)]
    return said + [f"# cost {job.total(fed, job.lows())}{in_a_job}", f"-{plan[5:]}"]


def read_parts(runs):
    """What parts 1 and 2 say, which stand in one run of bytes, or each in one to its end."""
    job = Job(runs[0])
    job.register()
    if len(runs) == 2:
        job.ended()
        job.job, job.next = runs[1], 0
    job.part = 2
    job.scheme()
    if len(runs) == 2:
        job.ended()
    return job


def sample(file, bits, job, register):
    form, lines = penalty_form(job), lines_of(read(file))
    if lines is None:
        raise Trouble(f"{file}: bytes where the text of a form is due")
    try:
        need_equal(form_in(lines), form)
    except Trouble as trouble:
        raise Trouble(f"{file}: {trouble}") from None
    return sampled(job, form, filling_of(bits, form.variables), register)


# what the tool does, by its first word: the names of the words before the files of the parts, and what is then printed
CALLS = {
    "qubo": ((), lambda job, register: qubo(penalty_form(job))),
    "list": ((), lambda job, register: coordinates(penalty_form(job))),
    "sample": (("FORM", "BITS"), sample),
}


def main(words):
    if not words or words[0] not in CALLS:
        raise Misuse(f"{words[0]} is none of {', '.join(CALLS)}" if words else f"one of {', '.join(CALLS)} is missing")
    names, call = CALLS[words[0]]
    given = words[1:]
    scheme = ("SCHEME",) if len(given) > len(names) + 1 else ()
    expect(given, *names, "FILE", *scheme)
    files = given[len(names):]
    runs = [job_in(file) for file in files]
    try:
        job = read_parts(runs)
    except Refused as refused:
        number, part, position = refused.args
        say(f"{files[-1] if part == 2 else files[0]}: R {number} {position}, in part {part}")
        return 1
    put(text(call(*given[:len(names)], job, register_of(runs[0]))))
    return 0


if __name__ == "__main__":
    run(__doc__, main)
