#!/usr/bin/env python3
"""The lines of a job, worked out from the scope paper and the requests by themselves, slowly and in Python's whole numbers. It shares no
code with the library; its answers are a second opinion, not a proof.

    tools/check_job.py FILE              prints the lines of the job in FILE
    tools/check_job.py --supplier FILE   prints the lines that its supplier reads
    tools/check_job.py --both FILE       prints both listings side by side, the supplier's on the right
    tools/check_job.py --rest FILE       prints R, row by row, with what each row has left over, where `3F` is reached
    tools/check_job.py --compare DIR     compares each NAME.job in DIR with NAME.out, and with NAME.supplier where there is one

The exit status is 0 where the job is accepted and 1 where it is refused; with `--compare` it is 0 where all lines are as expected, else
1, also where DIR has no NAME.job ("0 passed, 0 failed"). Where something else is wrong it is 2, one line on standard error says what,
and nothing is printed. Such a line also says that `--rest` has nothing to print, where a job is refused before `3F`, and that FILE is a
text and not a job; its bytes are refused all the same.
"""
import sys

sys.dont_write_bytecode = True

from command_line import expect, files, put, read, run, say, tally
from job_text import COMMANDS, DAYS, MOST_FACTOR, ROW, SQUARE, TEXT, USUAL_DAY, is_text, operands, size


class Refused(Exception):
    pass


class Job:
    """A job, read part by part. A term is a mask, its low coefficient and its high one, which are the same for a `12` and a `15`."""

    def __init__(self, job):
        self.job, self.at, self.next, self.part = job, 0, 0, 1
        self.table, self.refusal = None, None

    def need(self, holds, number):
        if not holds:
            raise Refused(number, self.part, self.at)

    def take(self, *allowed):
        """The next command, one of those allowed, and its operands."""
        self.at = self.next
        self.need(self.at < len(self.job), 2)
        byte = self.job[self.at]
        self.need(byte in allowed, 1)
        self.next = self.at + size(byte)
        self.need(self.next <= len(self.job), 2)
        return byte, operands(self.job, self.at)

    def register(self):
        _, v = self.take(0x10)
        self.need(abs(v["cost"]) <= 1_000_000_000, 4)
        self.base, self.day, self.windows, self.choices, self.rows, self.terms = v["cost"], USUAL_DAY, [], [], [], []
        self.ranged = False  # whether it has a `16`
        after_base = [0x18]  # what may stand only directly after `10`
        while True:
            before_terms = [] if self.terms else [0x14]
            before_rows = [] if self.terms or self.rows else [0x11]
            before_choices = [] if self.terms or self.rows or self.choices else [0x13]
            byte, v = self.take(0x12, 0x15, 0x16, 0x1F, *after_base, *before_choices, *before_rows, *before_terms)
            after_base = []
            if byte == 0x18:
                self.need(v["length"] in DAYS, 4)
                self.day = v["length"]
            elif byte == 0x13:
                self.need(len(self.windows) < 64, 3)
                self.need(1 <= v["tank"] <= 9_999 and v["from"] < self.day and 1 <= v["to"] <= self.day, 4)
                self.need(v["from"] < v["to"], 6)
                self.need(not self.windows or self.windows[-1][:2] < (v["tank"], v["from"]), 7)
                self.windows.append((v["tank"], v["from"], v["to"]))
            elif byte == 0x11:
                self.need(len(self.choices) < 48, 3)
                self.need(1 <= v["tank"] <= 9_999 and v["minute"] < self.day, 4)
                choice = v["tank"], v["minute"]
                self.need(not self.choices or self.choices[-1] < choice, 7)
                windows = [range(start, end) for tank, start, end in self.windows if tank == v["tank"]]
                self.need(not windows or any(v["minute"] in window for window in windows), 13)
                self.choices.append(choice)
            elif byte == 0x14:
                entries = [v[name] for name in ROW]
                self.need(len(self.rows) < 8, 3)
                self.need(abs(v["b"]) <= 4_064, 4)
                self.need(not any(entries[len(self.choices):]), 5)
                self.rows.append((v["b"], entries))
            elif byte in (0x12, 0x15):
                self.need(len(self.terms) < 256, 3)
                self.need(1 <= abs(v["coefficient"]) <= 1_000_000, 4)
                self.term(v["mask"], v["coefficient"], v["coefficient"])
            elif byte == 0x16:
                self.need(len(self.terms) < 256, 3)
                self.need(abs(v["low"]) <= 1_000_000 and abs(v["high"]) <= 1_000_000, 4)
                self.term(v["mask"], v["low"], v["high"])
                self.ranged = True
            else:
                self.need(self.choices, 3)
                return

    def term(self, mask, low, high):
        self.need(0 < mask < 1 << len(self.choices), 5)
        self.need(low <= high, 6)
        self.need(not self.terms or self.terms[-1][0] < mask, 7)
        self.terms.append((mask, low, high))

    def scheme(self):
        self.sets = [1 << i for i in range(len(self.choices))]
        self.factor, self.products, self.splits = 1, {}, []
        at_front = [0x23]  # what may stand only at the front
        while True:
            before_splits = [] if self.splits else [0x21]
            byte, v = self.take(0x22, 0x2F, *at_front, *before_splits)
            at_front = []
            if byte == 0x23:
                self.need(1 <= v["factor"] <= MOST_FACTOR, 4)
                self.factor = v["factor"]
            elif byte == 0x2F:
                self.need(len(self.splits) == len(self.terms), 3)
                return
            elif byte == 0x21:
                self.product(v["l"], v["r"], len(self.sets))
            else:
                self.split(v["l"], v["r"])

    def product(self, l, r, k):
        self.need(len(self.products) < 32 and k < 64, 3)
        self.need(l < k and r < k, 5)
        self.need(l < r, 6)
        self.need(self.sets[l] | self.sets[r] not in self.sets, 8)
        self.sets.append(self.sets[l] | self.sets[r])
        self.products[k] = l, r

    def split(self, l, r):
        self.need(len(self.splits) < len(self.terms), 3)
        self.need(l < len(self.sets) and r < len(self.sets), 5)
        self.need(l <= r, 6)
        self.need(self.sets[l] | self.sets[r] == self.terms[len(self.splits)][0], 8)
        self.splits.append((l, r))

    def form(self, byte, v):
        """The form of a command `31` to `39`, after its checks: c times the factors of places p and q, for each (p, q, c)."""
        names = [v[f] for f, _ in COMMANDS[byte][2] if f != "m"]
        place = [i + 1 for i in names]
        self.need(abs(v["m"]) <= 10 ** 12 and (byte <= 0x34 or v["m"] >= 0), 4)
        self.need(all(i < len(self.sets) for i in names), 5)
        self.need(byte not in (0x35, 0x36, 0x37) or names[0] in self.products, 5)
        sets = [self.sets[i] for i in names]
        if byte == 0x31:
            return [(place[0], place[0], 1), (0, place[0], -1)]
        if byte == 0x32:
            self.need(sets[1] != sets[0] and sets[1] & ~sets[0] == 0, 8)
            return [(0, place[0], 1), (place[0], place[1], -1)]
        if byte == 0x33:
            self.need(names[1] < names[2], 6)
            self.need(sets[0] == sets[1] | sets[2], 8)
            return [(0, place[0], 1), (place[1], place[2], -1)]
        if byte == 0x34:
            self.need(names[0] < names[1] and names[2] < names[3], 6)
            self.need(sets[0] | sets[1] == sets[2] | sets[3], 8)
            return [(place[0], place[1], 1), (place[2], place[3], -1)]
        if byte == 0x38:
            return [(0, place[0], 1)]
        if byte == 0x39:
            return [(0, 0, 1), (0, place[0], -1)]
        l, r = (operand + 1 for operand in self.products[names[0]])
        if byte == 0x37:
            return [(0, place[0], 1), (0, l, -1), (0, r, -1), (0, 0, 1)]
        return [(0, l if byte == 0x35 else r, 1), (0, place[0], -1)]

    def row_form(self, v):
        """The form of `3B`, after its checks: the variable times what the row's sum is more than b."""
        self.need(abs(v["m"]) <= 10 ** 9, 4)
        self.need(v["row"] < len(self.rows) and v["i"] < len(self.sets), 5)
        b, entries = self.rows[v["row"]]
        place = v["i"] + 1
        return [(place, j + 1, a) for j, a in enumerate(entries[:len(self.choices)])] + [(0, place, -b)]

    def certificate(self):
        _, v = self.take(0x30)
        self.scale(v)
        while True:
            byte, v = self.take(*range(0x31, 0x3C), 0x3F)
            if byte == 0x3F:
                self.table = self.residual()
                return self.carry()
            if byte == 0x3A:
                self.square(v)
            else:
                self.multiplier(byte, v)

    def scale(self, v):
        self.need(1 <= v["s"] <= 1_000_000 and abs(v["T"]) <= 4 * 10 ** 15, 4)
        self.s, self.T, self.multipliers, self.squares = v["s"], v["T"], [], []

    def multiplier(self, byte, v):
        self.need(len(self.multipliers) < 1_024, 3)
        added = byte <= 0x34 or byte == 0x3B
        self.multipliers.append((v["m"] if added else -v["m"], self.row_form(v) if byte == 0x3B else self.form(byte, v)))

    def square(self, v):
        entries = [v[name] for name in SQUARE]
        self.need(len(self.squares) < 64, 3)
        self.need(1 <= v["weight"] <= 1_000_000 and all(abs(x) <= 10_000 for x in entries), 4)
        self.need(not any(entries[len(self.sets) + 1:]), 5)
        self.squares.append((v["weight"], entries))

    def residual(self):
        side = len(self.sets) + 1
        table = [[0] * side for _ in range(side)]

        def add(times, form):
            for p, q, c in form:
                table[p][q] += times * c
                table[q][p] += times * c

        add(self.s, [(0, 0, self.base)])
        for (l, r), coefficient in zip(self.splits, self.coefficients()):
            add(self.s, [(0 if l == r else l + 1, r + 1, coefficient)])
        for times, form in self.multipliers:
            add(times, form)
        add(-1, [(0, 0, self.T)])
        for weight, v in self.squares:
            for i in range(side):
                for j in range(side):
                    table[i][j] -= weight * v[i] * v[j]
        return table

    def carry(self):
        self.need(all(left >= 0 for left in self.left_over()), 9)

    def left_over(self):
        """For each row of R its diagonal entry less the sum of the absolute values of the others."""
        return [row[i] + abs(row[i]) - sum(map(abs, row)) for i, row in enumerate(self.table)]

    def plan(self):
        _, v = self.take(0x40, 0x41)
        self.need(v["fed"] < 1 << len(self.choices), 5)
        self.need(self.fits(v["fed"]), 15)
        self.fed = v["fed"]

    def ended(self):
        self.at = self.next
        self.need(self.at == len(self.job), 12)

    def fits(self, plan):
        """Whether the sum of the entries that a plan feeds is b, in each row."""
        return all(sum(a for j, a in enumerate(entries) if plan >> j & 1) == b for b, entries in self.rows)

    def beside(self, plan):
        """The coefficient of each term that counts beside a plan: the high one where it feeds the term's choices, else the low one."""
        return [high if mask & ~plan == 0 else low for mask, low, high in self.terms]

    def lows(self):
        return [low for _, low, _ in self.terms]

    def coefficients(self):
        """The coefficients that the certificate is about. Without a `16` there is one for each term, whatever the plan."""
        return self.beside(self.fed) if self.ranged else self.lows()

    def total(self, plan, coefficients):
        """What a plan costs with such coefficients."""
        return self.base + sum(c for (mask, _, _), c in zip(self.terms, coefficients) if mask & ~plan == 0)

    def cost(self, plan):
        return self.total(plan, self.beside(plan))

    def feedings(self, plan):
        """The lines of a plan's feedings."""
        return [f"F {t} {m}" for i, (t, m) in enumerate(self.choices) if plan >> i & 1]

    def parts(self):
        """The readers of the parts with their numbers, in the order in which they are read. The last two hang on the first."""
        yield 1, self.register
        yield 2, self.scheme
        last = [(3, self.certificate), (4, self.plan)]
        yield from reversed(last) if self.ranged else last

    def whole(self):
        """Reads a job to its end."""
        for self.part, reader in self.parts():
            reader()
        self.ended()

    def listings(self):
        """The lines that the farm reads, and those that the supplier reads. Where the job is refused, the one line is kept too."""
        try:
            self.whole()
        except Refused as refusal:
            number, _, position = refusal.args
            self.refusal = f"R {number} {position}"
            return [self.refusal], [self.refusal]
        cost, bound = self.cost(self.fed), -(-self.T // self.s)
        last = f"B {bound} {cost} {cost - bound}"
        choices = [f"T {i} {t} {m}" for i, (t, m) in enumerate(self.choices)]
        fed = [f"C {i} {self.fed >> i & 1}" for i in range(len(self.choices))]
        return choices + self.feedings(self.fed) + [last], fed + [last]


def farm(job):
    return job.listings()[0]


def supplier(job):
    return job.listings()[1]


def both(job):
    """Both listings side by side, the two lines of a choice in one row and the two last lines in one."""
    left, right = job.listings()
    beside = right[:-1] + [""] * (len(left) - len(right)) + right[-1:]
    width = max(map(len, left))
    return [f"{line:{width}} | {other}".rstrip() for line, other in zip(left, beside)]


def rest(job):
    """R, row by row."""
    job.listings()
    rows = zip(job.table, job.left_over()) if job.table else []
    return [f"row {i}, left over {left}: " + " ".join(map(str, row)) for i, (row, left) in enumerate(rows)]


PRINTED = {"--supplier": supplier, "--both": both, "--rest": rest}


def text(lines):
    return "".join(line + "\n" for line in lines)


def compare(folder):
    trials = []
    for path in files(folder, ".job"):
        for lines, ending in zip(Job(read(path)).listings(), (".out", ".supplier")):
            expected = path.with_suffix(ending)
            if ending == ".out" or expected.exists():
                trials.append((f"not the expected lines: {expected.name}", text(lines).encode() == read(expected)))
    return tally(trials)


def remarks(job, printed):
    """What is to be said of a job that the lines that are printed do not say."""
    if not printed:
        yield f"refused before `3F`, so there is no R to print: {job.refusal}"
    if is_text(job.job):
        yield TEXT


def main(words):
    if words[:1] == ["--compare"]:
        return compare(*expect(words[1:], "DIR"))
    lines_of = PRINTED[words.pop(0)] if words and words[0] in PRINTED else farm
    [file] = expect(words, "FILE")
    job = Job(read(file))
    lines = lines_of(job)
    put(text(lines))
    said = "; ".join(remarks(job, lines))
    if said:
        say(f"{file}: {said}")
    return 1 if job.refusal else 0


if __name__ == "__main__":
    run(__doc__, main)
