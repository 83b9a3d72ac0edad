#!/usr/bin/env python3
"""Tries the bound in the relaxation, request R-8, in whole numbers. F is s times g with the null forms and row forms of a certificate,
each m times, without its subtracted forms, its squares and T. A point is a whole number D of at least 1 and for each variable i a whole
number y_i from 0 to D, with y_k <= y_l, y_k <= y_r and y_k >= y_l + y_r - D for each product k of l and r. At every point F, constants
times D^2, linear terms times D, products and squares as they are, must be at least T * D^2. At a plan that fits (D = 1) it must be s times
the cost. With ranges all this is said of the coefficients that count beside the job's plan. The first ten failures are printed, a value
below the bound with D, y, both numbers and the job's bytes.

The certificates are those of the accepted jobs in `examples` and in the folders given, and others made at random for their registers
and schemes, finished as tools/finish_certificate.py does it; accepted and refused are as tools/check_job.py answers. The points are
plans, points taken at random, and points moved downhill from such. Statements that are a little wrong are tried beside the right one,
and it is a failure if no point refutes one of them.

    tools/test_relaxation.py [FOLDER ..]
"""
import pathlib
import random
import sys
from collections import Counter

sys.dont_write_bytecode = True

from check_job import Job
from command_line import files, run
from finish_certificate import Unfinished, finish
from job_text import commands, encode, operands

EXAMPLES = pathlib.Path(__file__).resolve().parent.parent / "examples"
SEED = 8
# certificates made for each register and scheme, and failures that are printed
MADE, PRINTED = 8, 10

SMALL = (1, 2, 3, 5, 7, 12, 97, 360, 1_009)
LARGE = (65_537, 999_983, 10 ** 6, 10 ** 9 + 7, 2 ** 61 - 1, 10 ** 30)

ADDED = (0x31, 0x32, 0x33, 0x34, 0x3B)
SUBTRACTED = (0x35, 0x36, 0x37, 0x38, 0x39)
SQUARE = 0x3A
# multipliers before finishing, which may add two for each variable to the 1,024 that are allowed
MOST = 1_024 - 2 * 64

# a command's form: numbers, and the operands whose variables they stand before; l and r of `35` to `37` are those of the product k
FORMS = {
    0x31: [(1, "ii"), (-1, "i")],
    0x32: [(1, "i"), (-1, "ij")],
    0x33: [(1, "i"), (-1, "jk")],
    0x34: [(1, "ij"), (-1, "kl")],
    0x35: [(1, "l"), (-1, "k")],
    0x36: [(1, "r"), (-1, "k")],
    0x37: [(1, "k"), (-1, "l"), (-1, "r"), (1, "")],
    0x38: [(1, "i")],
    0x39: [(1, ""), (-1, "i")],
}

# statements that are wrong: four about the numbers at a point, two about plans, those that leave out a condition, which are tried with
# certificates that have its command, and those of a check that adds what a command is to subtract
LINEAR = "with linear terms times D^2"
ROUNDED = "with s times T/s rounded up in place of T"
MORE = "with T + 1 in place of T"
LOW = "with the low coefficient of each range, also where the plan feeds its choices"
ROWLESS = "without row forms"
UNFIT = "with s times the cost at plans that do not fit too"
LEFT_OUT = {
    0x35: "without y_k <= y_l",
    0x36: "without y_k <= y_r",
    0x37: "without y_k >= y_l + y_r - D",
    0x38: "without y_i >= 0",
    0x39: "without y_i <= D",
}
TURNED = {0x35: "with `35` added by the check", 0x36: "with `36` added by the check"}
WRONG = [LINEAR, ROUNDED, MORE, LOW, ROWLESS, UNFIT, *LEFT_OUT.values(), *TURNED.values()]


def places(*variables):
    """The places of a monomial of at most two variables, the lower one first: i + 1 for variable i, 0 where there is none."""
    return tuple(sorted([0] * (2 - len(variables)) + [i + 1 for i in variables]))


def form(byte, v):
    return [(places(*(v[factor] for factor in factors)), c) for c, factors in FORMS[byte]]


class Turned(Job):
    """A check that is wrong: it adds what one command is to subtract."""

    def __init__(self, job, turned):
        super().__init__(job)
        self.turned = turned

    def form(self, byte, v):
        return [(p, q, -c if byte == self.turned else c) for p, q, c in super().form(byte, v)]


class Certificate:
    """A job that a check has read, 0 or the refusal, and if it is accepted F: numbers by places."""

    def __init__(self, name, check):
        self.name, self.read, self.near, self.shape = name, check, False, None
        first = check.listings()[0][0].split()
        self.refused = int(first[1]) if first[0] == "R" else 0
        if not self.refused:
            job = check.job
            self.front = next(job[:at] for at, byte in commands(job) if byte == 0x30)
            self.behind = next(job[at + 1:] for at, byte in commands(job) if byte == 0x3F)
            self.commands = [(byte, operands(job, at)) for at, byte in commands(job) if byte in (*ADDED, *SUBTRACTED, SQUARE)]
            self.multipliers = [(byte, v) for byte, v in self.commands if byte != SQUARE]
            self.terms = {monomial: c for monomial, c in self.polynomial(check.coefficients()).items() if c}
            self.lows = self.polynomial(check.lows())

    def polynomial(self, coefficients):
        """F with such coefficients of the register's terms."""
        read = self.read
        terms = Counter({places(): read.s * read.base})
        for (l, r), coefficient in zip(read.splits, coefficients):
            terms[places(*{l, r})] += read.s * coefficient
        for byte, v in self.multipliers:
            if byte in ADDED:
                for monomial, c in self.row_form(v) if byte == 0x3B else form(byte, v):
                    terms[monomial] += v["m"] * c
        return terms

    def row_form(self, v):
        b, entries = self.read.rows[v["row"]]
        return [(places(v["i"], j), a) for j, a in enumerate(entries[:len(self.read.choices)])] + [(places(v["i"]), -b)]

    def value(self, point):
        """F at a point, which has D at place 0: constants are times D^2, linear terms times D, products and squares as they are."""
        return sum(c * point[p] * point[q] for (p, q), c in self.terms.items())

    def low_value(self, point):
        """The same with the low coefficient of each range."""
        return sum(c * point[p] * point[q] for (p, q), c in self.lows.items())

    def linear(self, point):
        return sum(c * point[q] for (p, q), c in self.terms.items() if p == 0 < q)

    def subtracts(self, byte):
        return any(byte == other and v["m"] > 0 for other, v in self.multipliers)

    def with_other(self, scale, target, others):
        """The bytes of a job with another certificate for the same register, scheme and plan."""
        front = self.front + encode(0x30, {"s": scale, "T": target})
        return front + b"".join(encode(byte, v) for byte, v in others) + b"\x3F" + self.behind

    def is_refused_with_more(self):
        more = Job(self.with_other(self.read.s, self.read.T + 1, self.commands))
        return more.listings()[0][0].startswith("R 9 ")


def inside(read, point, left_out=None):
    """Whether a point is one of the relaxed problem, or would be without the condition of one command."""
    D, y, products = point[0], point[1:], read.products.items()
    holds = {
        0x35: all(y[k] <= y[l] for k, (l, _) in products),
        0x36: all(y[k] <= y[r] for k, (_, r) in products),
        0x37: all(y[k] >= y[l] + y[r] - D for k, (l, r) in products),
        0x38: all(x >= 0 for x in y),
        0x39: all(x <= D for x in y),
    }
    return D >= 1 and all(held for byte, held in holds.items() if byte != left_out)


def filling(read, plan, D):
    """The point of a plan: D for each variable whose choices it all feeds, 0 for the others."""
    return [D] + [D if of & ~plan == 0 else 0 for of in read.sets]


def anywhere(read, D, chance):
    """A point taken at random, often with the least or the largest that a variable may be."""
    point = [D]
    for k in range(len(read.sets)):
        low, high = 0, D
        if k in read.products:
            l, r = (point[operand + 1] for operand in read.products[k])
            low, high = max(0, l + r - D), min(l, r)
        point.append(chance.choice((low, high, chance.randint(low, high))))
    return point


class Downhill:
    """Ways to go in the points of a scheme, each with the conditions that a step back and a step ahead come nearer to, and by how much.
    The conditions are that a form which certificates subtract is at least 0. Where that of `38` or `39` is left out y_i still goes from
    -D to 2 D only."""

    SWEEPS = 10

    def __init__(self, read, chance):
        variables = range(len(read.sets))
        conditions = [(byte, form(byte, {"k": k, "l": l, "r": r})) for k, (l, r) in read.products.items() for byte in (0x35, 0x36, 0x37)]
        conditions += [(byte, form(byte, {"i": i})) for i in variables for byte in (0x38, 0x39)]
        conditions += [(None, [(places(i), sign), (places(), far)]) for i in variables for sign, far in ((1, 1), (-1, 2))]
        self.conditions = [(byte, {q: c for (_, q), c in terms}) for byte, terms in conditions]
        self.ways = [(way, *self.met(way)) for way in self.directions(read, chance)]

    @staticmethod
    def directions(read, chance):
        """Each variable alone and with all that contain it, a product with operands, one operand against the other, some at random."""
        variables = range(len(read.sets))
        ways = [{i + 1: 1} for i in variables]
        ways += [{j + 1: 1 for j in variables if read.sets[i] & ~read.sets[j] == 0} for i in variables]
        for k, (l, r) in read.products.items():
            ways += [{k + 1: 1, l + 1: 1}, {k + 1: 1, r + 1: 1}, {k + 1: 1, l + 1: 1, r + 1: 1}, {l + 1: 1, r + 1: -1}]
        for _ in range(2 * len(variables)):
            some = chance.sample(variables, min(len(variables), chance.randint(2, 4)))
            ways.append({i + 1: chance.choice((1, -1)) for i in some})
        return ways

    def met(self, way):
        rates = [(x, sum(c * way.get(q, 0) for q, c in terms.items())) for x, (_, terms) in enumerate(self.conditions)]
        return [(x, rate) for x, rate in rates if rate > 0], [(x, -rate) for x, rate in rates if rate < 0]

    def shape(self, certificate):
        """The rows of twice F, as a symmetric table, and how much F bends along each way."""
        if not certificate.shape:
            rows = [Counter() for _ in range(len(certificate.read.sets) + 1)]
            for (p, q), c in certificate.terms.items():
                rows[p][q] += c
                rows[q][p] += c
            bends = [sum(d * e * rows[p].get(q, 0) for p, d in way.items() for q, e in way.items()) for way, _, _ in self.ways]
            certificate.shape = rows, bends
        return certificate.shape

    def descend(self, certificate, start, left_out=None):
        """A point at which F is as small as was found from a start, in whole steps along the ways, each time as many as is best. The
        conditions of one kind may be left out."""
        point, (rows, bends) = list(start), self.shape(certificate)
        slopes = [sum(c * point[q] for q, c in row.items()) for row in rows]
        room = [sum(c * point[q] for q, c in terms.items()) for _, terms in self.conditions]
        if left_out:
            room = [had + 100 * point[0] if byte == left_out else had for had, (byte, _) in zip(room, self.conditions)]
        for _ in range(self.SWEEPS):
            before = list(point)
            for (way, behind, ahead), bend in zip(self.ways, bends):
                slope = sum(d * slopes[p] for p, d in way.items())
                if slope or bend < 0:
                    steps = best(bend, slope, -nearest(room, behind), nearest(room, ahead))
                    move(steps, way, point, rows, slopes)
                    for x, rate in behind:
                        room[x] += rate * steps
                    for x, rate in ahead:
                        room[x] -= rate * steps
            if point == before:
                break
        return point


def nearest(room, conditions):
    """How many steps the conditions have room for."""
    return min([room[x] // rate for x, rate in conditions])


def best(bend, slope, low, high):
    """The number of steps from low to high for which F is least; it changes by half of bend * steps^2 + 2 * slope * steps."""
    ends = (low, high)
    if bend > 0:
        turn = -slope // bend
        ends = [max(low, min(high, steps)) for steps in (turn, turn + 1)]
    return min(ends, key=lambda steps: (bend * steps + 2 * slope) * steps)


def move(steps, way, point, rows, slopes):
    for p, d in way.items() if steps else ():
        point[p] += d * steps
        for q, c in rows[p].items():
            slopes[q] += d * steps * c


class Allowed:
    """The multiplier commands that a register and a scheme allow."""

    def __init__(self, read):
        self.sets, variables = read.sets, range(len(read.sets))
        self.pairs = {}
        for j in variables:
            for k in range(j + 1, len(variables)):
                self.pairs.setdefault(self.sets[j] | self.sets[k], []).append((j, k))
        below = [(i, j) for i in variables for j in variables if i != j and self.sets[j] & ~self.sets[i] == 0]
        self.named = {
            0x31: [{"i": i} for i in variables],
            0x32: [{"i": i, "j": j} for i, j in below],
            0x33: [{"i": i, "j": j, "k": k} for i in variables for j, k in self.pairs.get(self.sets[i], [])],
            0x34: [{"i": i, "j": j} for pairs in self.pairs.values() if len(pairs) > 1 for i, j in pairs],
            0x3B: [{"row": row, "i": i} for row in range(len(read.rows)) for i in variables],
            **{byte: [{"k": k} for k in read.products] for byte in (0x35, 0x36, 0x37)},
            **{byte: [{"i": i} for i in variables] for byte in (0x38, 0x39)},
        }

    def some(self, byte, size, chance):
        """A command of a kind with a multiplier of at most a size."""
        v = dict(chance.choice(self.named[byte]))
        if byte == 0x34:
            v["k"], v["l"] = chance.choice(self.pairs[self.sets[v["i"]] | self.sets[v["j"]]])
        return byte, {**v, "m": chance.randint(-size if byte in ADDED else 0, size)}

    def wild(self, most, size, chance, kinds=(*ADDED, *SUBTRACTED)):
        """Commands of each kind that there is, up to so many."""
        return [self.some(byte, size, chance) for byte in kinds if self.named[byte] for _ in range(chance.randint(0, most))]

    def valley(self, depth, chance):
        """Commands by which F is least inside: near half of D at choices and lower at products, which `32` holds below what they contain.
        Some of each kind move that point. Those with subtracted forms weigh little, or F would stay far above T D^2 there."""
        lower = depth // len(self.sets)
        floor = [(0x31, {**v, "m": depth + chance.randint(0, depth // 1_000)}) for v in self.named[0x31]]
        sides = [(0x32, {**v, "m": lower + chance.randint(0, lower // 100)}) for v in self.named[0x32]]
        return floor + sides + self.wild(3, depth // 100, chance, ADDED) + self.wild(2, depth // 100_000, chance, SUBTRACTED)


def changed(multipliers, chance):
    """The commands of a certificate, few or many of them with another multiplier or left out."""
    rare, much, others = chance.choice((2, 10, 100)), chance.choice((1, 30, 1_000)), []
    for byte, v in multipliers:
        if chance.randrange(rare):
            others.append((byte, v))
        elif chance.randrange(3):
            others.append((byte, {**v, "m": v["m"] + v["m"] * chance.randint(-much, much) // 1_000}))
    return others


def mixed(alike, scale, chance):
    """The commands of two certificates at another scale, in a proportion of sixteenths, or those of one where two have too many."""
    two, share = [chance.choice(alike), chance.choice(alike)], chance.randint(0, 16)
    parts = list(zip(two, (share, 16 - share))) if sum(len(c.multipliers) for c in two) <= MOST else [(two[0], 16)]
    return [(byte, {**v, "m": v["m"] * scale * part // (16 * c.read.s)}) for c, part in parts for byte, v in c.multipliers]


def held(multipliers):
    """Commands with their multipliers held in range, and no more of them than there may be before finishing."""
    limits = [10 ** 9 if byte == 0x3B else 10 ** 12 for byte, _ in multipliers]
    return [(byte, {**v, "m": max(-limit, min(limit, v["m"]))}) for limit, (byte, v) in zip(limits, multipliers)][:MOST]


def made(alike, allowed, number, chance):
    """A certificate made at random for the register and scheme of some, in one of four manners, None where it could not be finished."""
    one, manner = chance.choice(alike), ("wild", "changed", "mixed", "valley")[number % 4]
    if manner == "wild":
        scale = chance.choice((1, 7, 1_000, 999_983))
        multipliers = allowed.wild(chance.choice((1, 4, 20, 80)), 10 ** chance.randint(0, 8), chance)
    elif manner == "changed":
        scale = one.read.s
        multipliers = allowed.wild(1, scale // 10 ** chance.randint(0, 6), chance) + changed(one.multipliers, chance)
    elif manner == "mixed":
        scale = chance.randint(1, 10 ** chance.randint(2, 6))
        multipliers = mixed(alike, scale, chance)
    else:
        scale = chance.choice((100, 9_973, 100_000))
        multipliers = allowed.valley(min(10 ** 11, 100 * scale * sum(map(abs, one.read.coefficients()))), chance)
    try:
        job, _ = finish(one.with_other(scale, 0, held(multipliers)))
    except Unfinished:
        return None
    return Certificate(f"{one.name}, {manner} {number}", Job(job))


def overrated(certificate, byte):
    """A job that only a check accepts which adds `35` or `36`: with m times z_l - z_k, or z_r - z_k, that much less of `39` and `38` is
    needed, of 1 - z_l and of z_k. All three add up to m, and so much is put on the target."""
    read, left, others = certificate.read, Counter(), []
    for other, v in certificate.commands:
        if other in (0x38, 0x39):
            left[other, v["i"]] += v["m"]
        else:
            others.append((other, v))
    gain = 0
    for k, both in read.products.items():
        of = both[byte - 0x35]
        m = min(left[0x38, k], left[0x39, of])
        left[0x38, k] -= m
        left[0x39, of] -= m
        others.append((byte, {"k": k, "m": m}))
        gain += m
    return certificate.with_other(read.s, read.T + gain, others + [(other, {"i": i, "m": m}) for (other, i), m in left.items()])


class Trial:
    """What has passed and what has failed, and of each wrong statement the certificates that refute it, with D and both numbers."""

    def __init__(self, chance):
        self.chance, self.passed, self.failed, self.refuted = chance, 0, [], {wrong: {} for wrong in WRONG}

    def expect(self, holds, said):
        if holds:
            self.passed += 1
        else:
            self.failed.append(said)

    def refute(self, wrong, certificate, point, value, least):
        """Whether a point refutes a wrong statement, by which a value would be at least so much."""
        if value < least:
            self.refuted[wrong].setdefault(certificate.name, f"D {point[0]}, {value} is below {least}")
        return value < least

    def judge(self, certificate, point):
        """The statement at a point, and the wrong ones about its numbers."""
        read, square, value = certificate.read, point[0] ** 2, certificate.value(point)
        least = read.T * square
        if value >= least and inside(read, point):
            self.passed += 1
        else:
            said = f"{certificate.name}: D {point[0]}, y {point[1:]}, {value} and T D^2 is {least}; the job is {read.job.hex()}"
            self.failed.append(said if inside(read, point) else f"not a point: {said}")
        if 1_000 * (value - least) <= max(read.s, abs(read.T)) * square:
            certificate.near = True
        self.refute(LINEAR, certificate, point, value + (square - point[0]) * certificate.linear(point), least)
        self.refute(ROUNDED, certificate, point, value, read.s * -(-read.T // read.s) * square)
        self.refute(MORE, certificate, point, value, (read.T + 1) * square)
        self.refute(LOW, certificate, point, certificate.low_value(point), least)

    def plans(self, certificate, most):
        """Plans, all of a register with at most so many choices, else some, at D = 1."""
        read = certificate.read
        every = range(1 << len(read.choices))
        for plan in every if len(read.choices) <= most else [read.fed, *self.chance.sample(every, 16)]:
            point = filling(read, plan, 1)
            self.judge(certificate, point)
            value, cost = certificate.value(point), read.s * read.total(plan, read.coefficients())
            if read.fits(plan):
                self.expect(value == cost, f"{certificate.name}: plan {plan:b}, {value} is not s times the cost, {cost}")
            else:
                self.refute(ROWLESS, certificate, point, cost, read.T)
                self.refute(UNFIT, certificate, point, -abs(value - cost), 0)

    def points(self, certificate, downhill):
        """Points taken at random, and points downhill from the plan and from two such."""
        read, chance = certificate.read, self.chance
        for _ in range(24):
            D = chance.choice((*SMALL, *LARGE, chance.randint(1, 10 ** chance.randint(1, 12))))
            self.judge(certificate, anywhere(read, D, chance))
        starts = [anywhere(read, chance.choice(some), chance) for some in (SMALL, LARGE)]
        for start in [filling(read, read.fed, chance.choice(LARGE)), *starts]:
            self.judge(certificate, downhill.descend(certificate, start))

    def conditions_left_out(self, certificate, downhill):
        read, fed = certificate.read, certificate.read.fed
        for byte, wrong in LEFT_OUT.items():
            starts = [filling(read, fed, 2), filling(read, fed, 360), anywhere(read, 360, self.chance), filling(read, fed, 10 ** 9 + 7)]
            for start in starts if certificate.subtracts(byte) else ():
                point = downhill.descend(certificate, start, byte)
                least = read.T * point[0] ** 2
                self.expect(inside(read, point, byte), f"not a point even {wrong}: {certificate.name}")
                if inside(read, point):
                    self.judge(certificate, point)
                elif self.refute(wrong, certificate, point, certificate.value(point), least):
                    break

    def checks_that_add(self, certificate, downhill):
        for byte, wrong in TURNED.items():
            other = Certificate(certificate.name, Turned(overrated(certificate, byte), byte))
            if not other.refused:
                point = downhill.descend(other, filling(other.read, other.read.fed, 10 ** 6))
                if inside(other.read, point):
                    self.refute(wrong, other, point, other.value(point), other.read.T * point[0] ** 2)

    def register(self, alike):
        """The certificates of jobs with one register and scheme, and others, which are returned. Those that could not be finished are left
        out. The rest must be accepted, and refused with T + 1."""
        allowed, downhill = Allowed(alike[0].read), Downhill(alike[0].read, self.chance)
        others = [made(alike, allowed, number, self.chance) for number in range(MADE)]
        others = [other for other in others if other]
        for other in others:
            self.expect(not other.refused and other.is_refused_with_more(), f"refused, or not refused 9 with T + 1: {other.name}")
        others = [other for other in others if not other.refused]
        for certificate in alike:
            self.conditions_left_out(certificate, downhill)
            self.checks_that_add(certificate, downhill)
        for certificate in alike + others:
            self.plans(certificate, 10 if certificate in alike else 8)
            self.points(certificate, downhill)
        return others


def jobs(folders):
    """The certificates of the accepted jobs, each once, by register and scheme."""
    names, fronts = {}, {}
    for path in [path for folder in folders for path in files(folder, ".job")]:
        names.setdefault(path.read_bytes(), path.stem)
    for certificate in [Certificate(name, Job(job)) for job, name in names.items()]:
        if not certificate.refused:
            fronts.setdefault(certificate.front, []).append(certificate)
    return list(fronts.values())


def tell(which, certificates):
    """How many certificates there are, how many of them have a value near the bound, and how many commands of each kind."""
    near = sum(certificate.near for certificate in certificates)
    kinds = Counter(byte for certificate in certificates for byte, _ in certificate.multipliers)
    print(f"{len(certificates)} certificates {which}, {near} with a value above T D^2 by at most a thousandth of it or of s D^2")
    print("    commands: " + ", ".join(f"{byte:02X} {kinds[byte]}" for byte in sorted((*ADDED, *SUBTRACTED))))


def main(folders):
    trial = Trial(random.Random(SEED))
    registers = jobs([EXAMPLES, *folders])
    others = [other for alike in registers for other in trial.register(alike)]
    trial.expect(others, "no certificate was made")
    tell("of jobs", [certificate for alike in registers for certificate in alike])
    tell("made", others)
    print(f"{MADE * len(registers) - len(others)} more could not be finished")
    for wrong, by in trial.refuted.items():
        trial.expect(by, f"refuted by no point: {wrong}")
        print(f"refuted by {len(by)} certificates: {wrong}" + "".join(f"\n    {name}: {said}" for name, said in list(by.items())[:3]))
    for said in trial.failed[:PRINTED]:
        print(said)
    print(f"{trial.passed} passed, {len(trial.failed)} failed")
    return 1 if trial.failed else 0


if __name__ == "__main__":
    run(__doc__, main)
