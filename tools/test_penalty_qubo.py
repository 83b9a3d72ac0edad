#!/usr/bin/env python3
"""Tries tools/penalty_qubo.py on each line of penalty.txt in crates/conformance/data, in the folder `kept` there and in the folders given.
Of an accepted line the whole table is made anew from each of the two texts, the entries and the constant, and compared with the line; a
refused one must be refused alike. With at most 10 variables it is worked out from the text alone what the form is worth at each filling.
At the filling of a plan that is to be the plan's cost. Where a plan fits, the least value over the fillings whose choices fit is to be the
least cost of the plans that fit, and each of those fillings is to carry a plan of that cost; with a factor of 2 or more it is to have each
product of a weight above 0 equal to its operands multiplied. With at most 6 variables each filling is given as a sample. It is a failure
if some kind of line or filling is seen nowhere, such as a factor 1 with a filling of the least value that has an untrue product.

Then the jobs, registers and schemes of `examples`, samples with the lines of each, which were worked out by hand, and forms and samples
that are wrong, with what is said of each.

    tools/test_penalty_qubo.py [FOLDER ..]
"""
import itertools
import pathlib
import sys
from collections import Counter
from types import SimpleNamespace

sys.dont_write_bytecode = True

from check_job import Job, Refused
from command_line import Trouble, run, tally
from job_text import make, plan_command, register_of
from kept_vectors import SHORT, table_after
from penalty_qubo import coordinates, filling_of, form_in, need_equal, penalty_form, qubo, read_parts, sampled, weights
from program_vectors import bytes_of, cases

ROOT = pathlib.Path(__file__).resolve().parent.parent
EXAMPLES, VECTORS = ROOT / "examples", ROOT / "crates/conformance/data"
# with so many variables at most each filling is worked out, or given as a sample too
EVERY, SAMPLED = 10, 6

KINDS = (
    "all", "sums", "refused", "factor 1", "factor above 1", "factor 1000", "ranges", "no plan fits", "a product of weight 0",
    "an untrue product of weight 0", "an untrue product with factor 1", "a sample with an untrue product", "a sample that does not fit",
)

# the parts in `examples`, a sample, and the lines of it
PAIR, TWICE = ("weights.pair.register", "weights.pair.scheme"), ("weights.pair.register", "weights.pair.twice.scheme")
FARM, SQUARE = ("weights.farm.job",), ("example.square.job",)
SAMPLES = [
    # the filling that is as cheap as the cheapest plan with the factor 1, though its product is not true, and is not with the factor 2
    (PAIR, "101", ["# energy 0", "# value 0", "# product 2, of weight 1, is 1, and z0 z1 is 0", "# cost 0",
                   "-  4  40 plan      fed 0x00000001  (choices 0)"]),
    (TWICE, "101", ["# energy 1", "# value 1", "# product 2, of weight 2, is 1, and z0 z1 is 0", "# cost 0",
                    "-  4  40 plan      fed 0x00000001  (choices 0)"]),
    (PAIR, "110", ["# energy 2", "# value 2", "# product 2, of weight 1, is 0, and z0 z1 is 1", "# cost 0",
                   "-  4  40 plan      fed 0x00000003  (choices 0 1)"]),
    (PAIR, "0 1 0\n", ["# energy 1", "# value 1", "# cost 1", "-  4  40 plan      fed 0x00000002  (choices 1)"]),
    (PAIR, "000", ["# energy 0", "# value 0", "# cost 0", "-  4  40 plan      fed 0x00000000  (no choice)"]),
    # a constant: the filling of the cheapest plan, and one that is not true
    (SQUARE, "1101", ["# energy -10", "# value 0", "# cost 0", "-  4  40 plan      fed 0x00000003  (choices 0 1)"]),
    (SQUARE, "0001", ["# energy 15", "# value 25", "# product 3, of weight 5, is 1, and z0 z1 is 0", "# cost 10",
                      "-  4  40 plan      fed 0x00000000  (no choice)"]),
    # ranges of 1 to 3 and of 0 to 2, both paid: 60 - 9 - 7 - 6 - 5 is 33
    (FARM, "110111111", ["# energy -26", "# value 34", "# cost 34, in a job 38",
                         "-  4  40 plan      fed 0x0000001B  (choices 0 1 3 4, terms 4 6 at high)"]),
    # the products 6 and 8 have weight 0 and cost nothing where they are not true, and both products of weight 10 are not true: 33 + 1 for
    # z_7, and 10 for each bracket, of z_5 = 0 and z_7 = 1
    (FARM, "110110010", ["# energy -6", "# value 54", "# product 5, of weight 10, is 0, and z0 z1 is 1", "# product 6, of weight 0, is 0, and z3 z4 is 1",
                         "# product 7, of weight 10, is 1, and z3 z5 is 0", "# cost 34, in a job 38",
                         "-  4  40 plan      fed 0x0000001B  (choices 0 1 3 4, terms 4 6 at high)"]),
    # three feedings of the tank that is fed exactly twice
    (FARM, "111000000", ["# energy -7", "# value 53", "# product 5, of weight 10, is 0, and z0 z1 is 1", "# cost 43, in a job 43",
                         "-  4  40 plan      fed 0x00000007  (choices 0 1 2, does not fit row 0)"]),
]

# the form of the pair with the factor 1 as a sampler may be given it: more comments, other blanks, entries in another order, without the
# entries that are 0
LOOSE = "c made by hand\nc constant 0\n\np  qubo 0 3 2 3\n0 2 -2\n 1 2  -2\n0 1 1\nc more\n2 2 2\r\n1 1 1\n"
# lines for those of the pair's .qubo file, by their numbers from 1, and what is said; None where a line is left out
OTHER = "not the form of this register and scheme: "
WRONG = [
    ({2: None}, "no comment line with the constant"),
    ({2: "c constant"}, "no comment line with the constant"),
    ({2: "c constant 0 0"}, "no comment line with the constant"),
    ({2: "c constant x"}, "no comment line with the constant"),
    ({2: "c constant 1"}, "the constant is 1, and 0 is due"),
    ({5: "1 1 2"}, f"{OTHER}1 1 has 2, and 1 is due"),
    ({5: None}, f"{OTHER}1 1 has 0, and 1 is due"),
    ({9: None}, f"{OTHER}1 2 has 0, and -2 is due"),
    ({9: "2 1 -2"}, f"{OTHER}1 2 has 0, and -2 is due"),
    ({4: "3 3 1"}, f"{OTHER}3 3 has 1, and 0 is due"),
    ({5: "1 1 1.0"}, "line 5: 1 1 1.0 is no line of two variables and a whole number"),
    ({5: "1 1"}, "line 5: 1 1 is no line of two variables and a whole number"),
    ({5: "1 1 1 1"}, "line 5: 1 1 1 1 is no line of two variables and a whole number"),
    ({5: "p cnf 3 3"}, "line 5: p cnf 3 3 is no line of two variables and a whole number"),
    ({6: "1 1 1"}, "line 6: 1 1 stands there twice"),
]
# what is no answer of a sampler for three variables
NO_SAMPLE = [
    ("", ": 0 digits, and 3 are due, one for each variable"),
    ("10", "10: 2 digits, and 3 are due, one for each variable"),
    ("1010", "1010: 4 digits, and 3 are due, one for each variable"),
    ("102", "102: BITS are to be digits 0 and 1"),
    ("1,0,1", "1,0,1: BITS are to be digits 0 and 1"),
    ("+1+1", "+1+1: BITS are to be digits 0 and 1"),
]


def numbers_in(lines, sign):
    """The constant and the entries that the lines of a text have, read here once more: comments by their sign, and lines of numbers."""
    [constant] = [int(line.split()[2]) for line in lines if line.startswith(f"{sign} constant ")]
    rows = [tuple(map(int, line.split())) for line in lines if line[0] in "-0123456789"]
    return constant, rows


def table_of(constant, rows, n):
    """The working table of docs/FORMAT.md: on the diagonal everything doubled, place i + 1 for variable i."""
    table = [[0] * (n + 1) for _ in range(n + 1)]
    for p, q, c in [(0, 0, constant)] + [(0 if i == j else i + 1, j + 1, c) for i, j, c in rows]:
        table[p][q] += c
        table[q][p] += c
    return table


def value(constant, rows, filling):
    return constant + sum(c for i, j, c in rows if filling[i] and filling[j])


def fed_by(job, filling):
    return sum(1 << i for i in range(len(job.choices)) if filling[i])


def true_filling(job, plan):
    return [int(mask & ~plan == 0) for mask in job.sets]


def untrue(job, filling):
    return {k for k, (l, r) in job.products.items() if filling[k] != filling[l] * filling[r]}


def is_read_as(lines, form):
    try:
        need_equal(form_in(lines), form)
    except Trouble:
        return False
    return True


class Trials:
    """What was tried, and how often each kind was seen."""

    def __init__(self):
        self.all, self.seen = [], Counter()

    def expect(self, said, name, holds):
        self.all.append((f"{said}: {name}", holds))

    def said(self, name, said, call):
        """A call must end with what is said."""
        try:
            found = f"nothing, but {call()}"
        except Trouble as trouble:
            found = str(trouble)
        self.expect(f"not said, but {found}: {said}", name, found == said)

    def case(self, name, first, second, length, number, part, position, *table):
        answer = tuple(map(int, (number, part, position)))
        if answer == SHORT:
            return
        try:
            job = read_parts([bytes_of(first), bytes_of(second)])
        except Refused as refused:
            self.seen["refused"] += 1
            self.expect(f"refused {refused.args} and not {answer}", name, refused.args == answer)
            return
        self.expect("accepted", name, answer == (0, 0, 0))
        self.seen[table[0]] += 1
        constant, rows = self.texts(name, job)
        found = table_after(SimpleNamespace(table=table_of(constant, rows, len(job.sets))), int(length))
        self.expect("not the table", name, [str(x) for x in found] == list(table))
        behind = read_parts([bytes_of(first) + bytes_of(second) + b"\x30"])
        self.expect("something else of one run of bytes", name, qubo(penalty_form(behind)) == qubo(penalty_form(job)))
        if len(job.sets) <= EVERY:
            self.every(name, job, constant, rows)
        if len(job.sets) <= SAMPLED:
            self.samples(name, job, bytes_of(first), constant, rows)

    def texts(self, name, job):
        """What both texts say, after what is said of their lines."""
        form, n = penalty_form(job), len(job.sets)
        constant, rows = numbers_in(qubo(form), "c")
        self.expect("not the same in both texts", name, numbers_in(coordinates(form), "#") == (constant, rows))
        self.expect("not as dimod reads it", name, coordinates(form)[0] == "# vartype=BINARY")
        nodes, couplers = rows[:n], rows[n:]
        self.expect("not the number of lines", name, qubo(form)[2] == f"p qubo 0 {n} {n} {len(couplers)}")
        self.expect("not a line for each variable", name, [row[:2] for row in nodes] == [(i, i) for i in range(n)])
        self.expect("no pairs, or 0", name, all(i < j < n and c for i, j, c in couplers))
        self.expect("not rising", name, sorted({row[:2] for row in couplers}) == [row[:2] for row in couplers])
        self.expect("above 2^53", name, all(abs(c) <= 2 ** 53 for _, _, c in rows))
        for text in (qubo(form), coordinates(form)):
            self.expect("not read back", name, is_read_as(text, form))
        return constant, rows

    def every(self, name, job, constant, rows):
        lows, plans = job.lows(), range(1 << len(job.choices))
        costs = {plan: job.total(plan, lows) for plan in plans}
        at_plans = all(value(constant, rows, true_filling(job, plan)) == costs[plan] for plan in plans)
        self.expect("not the cost at the filling of a plan", name, at_plans)
        fitting = [plan for plan in plans if job.fits(plan)]
        heavy = {k for k, weight in weights(job).items() if weight}
        self.seen["factor 1000" if job.factor == 1_000 else f"factor {'above ' if job.factor > 1 else ''}1"] += 1
        self.seen["ranges"] += job.ranged
        self.seen["a product of weight 0"] += len(heavy) < len(job.products)
        if not fitting:
            self.seen["no plan fits"] += 1
            return
        values = {filling: value(constant, rows, filling) for filling in itertools.product((0, 1), repeat=len(job.sets))
                  if job.fits(fed_by(job, filling))}
        least = min(values.values())
        self.expect("not the least cost", name, least == min(costs[plan] for plan in fitting))
        lowest = [filling for filling, worth in values.items() if worth == least]
        self.expect("a plan of another cost", name, all(costs[fed_by(job, filling)] == least for filling in lowest))
        wrong = [untrue(job, filling) for filling in lowest]
        self.seen["an untrue product of weight 0"] += any(products - heavy for products in wrong)
        if job.factor > 1:
            self.expect("an untrue product", name, not any(products & heavy for products in wrong))
        else:
            self.seen["an untrue product with factor 1"] += any(products & heavy for products in wrong)

    def samples(self, name, job, register, constant, rows):
        form = penalty_form(job)
        for filling in itertools.product((0, 1), repeat=len(job.sets)):
            lines = sampled(job, form, filling, register)
            worth, fed = value(constant, rows, filling), fed_by(job, filling)
            head = [f"# energy {worth - constant}", f"# value {worth}"]
            cost = f"# cost {job.total(fed, job.lows())}" + (f", in a job {job.cost(fed)}" if job.ranged else "")
            named = [int(line.split()[2].rstrip(",")) for line in lines[2:-2]]
            holds = lines[:2] == head and named == sorted(untrue(job, filling)) and lines[-2] == cost
            self.expect("not the lines of a sample", f"{name}, {filling}", holds)
            self.expect("not the plan", f"{name}, {filling}", make(lines) == plan_command(fed))
            self.expect("not whether it fits", f"{name}, {filling}", ("does not fit" in lines[-1]) != job.fits(fed))
            self.seen["a sample with an untrue product"] += bool(named)
            self.seen["a sample that does not fit"] += not job.fits(fed)

    def examples(self):
        """What is accepted or refused of the examples, and the two .qubo files."""
        for path in sorted(EXAMPLES.glob("*.job")):
            said = path.with_suffix(".out").read_text()
            try:
                job = read_parts([path.read_bytes()])
            except Refused as refused:
                number, _, position = refused.args
                self.expect("not the refusal", path.name, said == f"R {number} {position}\n")
            else:
                self.expect("not refused", path.name, not said.startswith("R") or int(said.split()[2]) >= job.next)
                self.texts(path.name, job)
        for scheme in sorted(EXAMPLES.glob("*.scheme")):
            job = read_parts([(EXAMPLES / PAIR[0]).read_bytes(), scheme.read_bytes()])
            written = "".join(line + "\n" for line in qubo(penalty_form(job)))
            self.expect("not the form", scheme.name, scheme.with_suffix(".qubo").read_text() == written)
            self.every(scheme.name, job, *numbers_in(qubo(penalty_form(job)), "c"))

    def by_hand(self):
        for names, word, lines in SAMPLES:
            runs = [(EXAMPLES / name).read_bytes() for name in names]
            job = read_parts(runs)
            form = penalty_form(job)
            found = sampled(job, form, filling_of(word, form.variables), register_of(runs[0]))
            self.expect(f"not the lines, but {found}", f"{names}, {word}", found == lines)
        pair, twice = (read_parts([(EXAMPLES / name).read_bytes() for name in names]) for names in (PAIR, TWICE))
        form, lines = penalty_form(pair), qubo(penalty_form(pair))
        self.expect("not read", "as a sampler may be given it", is_read_as(LOOSE.split("\n"), form))
        for changes, said in WRONG:
            changed = [changes.get(number, line) for number, line in enumerate(lines, 1)]
            text = [line for line in changed if line is not None]
            self.said(changes, said, lambda: need_equal(form_in(text), form))
        self.said("the factor 2", f"{OTHER}0 1 has 1, and 2 is due", lambda: need_equal(form_in(lines), penalty_form(twice)))
        for word, said in NO_SAMPLE:
            self.said(word, said, lambda: filling_of(word, 3))
        # the least values of the pair, with the fillings: with the factor 1 one is not true
        for job, lowest in ((pair, ["000", "100", "101", "111"]), (twice, ["000", "100", "111"])):
            form = penalty_form(job)
            words = ["".join(bits) for bits in itertools.product("01", repeat=3)]
            found = [word for word in words if form.energy(filling_of(word, 3)) == 0]
            self.expect(f"not the fillings of the least value, but {found}", f"factor {job.factor}", found == lowest)
            self.expect("below the least value", f"factor {job.factor}", all(form.energy(filling_of(word, 3)) >= 0 for word in words))


def main(folders):
    trials = Trials()
    for folder in [VECTORS, VECTORS / "kept", *map(pathlib.Path, folders)]:
        for name, *fields in cases(folder / "penalty.txt"):
            trials.case(name, *fields)
    for kind in KINDS:
        trials.expect("seen nowhere", kind, trials.seen[kind] > 0)
    trials.examples()
    trials.by_hand()
    return tally(trials.all)


if __name__ == "__main__":
    run(__doc__, main)
