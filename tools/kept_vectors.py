#!/usr/bin/env python3
"""Says which lines of a folder of vectors do not hold, by the scope paper and the requests as check_job.py, cheapest.py, costliest.py
and penalty_qubo.py read them:

    tools/kept_vectors.py FOLDER    FOLDER is crates/conformance/data/kept, or another with files of vectors

Each line that does not hold is printed, by its file and its name. Where a request alters answers, change check_job.py first: the lines
that are printed then are those that the request alters.

Judged are all lines of register.txt, scheme.txt, cost.txt, penalty.txt, check.txt, job.txt, listing.txt, supplier.txt, search.txt,
costliest.txt and feedcheck.txt. There is no second opinion on what build and plain write. Of build.txt and plain.txt what is refused in
the parts that the call reads, or for a table, is judged, and the other lines are counted as not judged. Other files are passed over.

The exit status is 0 where all lines that are judged hold, else 1. Where something else is wrong it is 2, and one line on standard
error says what.
"""
import sys

sys.dont_write_bytecode = True

from cheapest import Search, register_of
from check_job import Job, Refused, farm, supplier, text
from command_line import Trouble, expect, files, put, run
from costliest import costliest
from penalty_qubo import penalty_form
from program_vectors import bytes_of, cases

ACCEPTED, SHORT, NO_SUPPLIER = (0, 0, 0), (11, 0, 0), (17, 0, 0)
TABLE, SUPPLIERS, MOST = 4_225, 16, 2 ** 32 - 1
# a number of a table and a byte of a buffer before a call
BEFORE, UNWRITTEN = 77, b"\xAA"


class NotJudged(Exception):
    pass


def answered(job, reading):
    """The job, and the refusal of what is read of it, or zeros."""
    try:
        reading()
    except Refused as refused:
        return job, refused.args
    return job, ACCEPTED


def opened(runs):
    """The job whose parts are runs of bytes by themselves, by their numbers, and its refusal or zeros. The parts that are given are read in
    the job's order, each to the end of its run."""
    job = Job(b"")

    def read():
        for job.part, reader in job.parts():
            if job.part in runs:
                job.job, job.next = bytes_of(runs[job.part]), 0
                reader()
                job.ended()

    return answered(job, read)


def beside(plan, runs):
    """Some parts, and the plan too where the register has a `16`. Where it has none the plan is not looked at."""
    job, answer = opened({1: runs[1]})
    return {**runs, 4: plan} if answer == ACCEPTED and job.ranged else runs


def numbers(lists):
    return [x for numbers in lists for x in numbers]


def table_after(job, length):
    """The fields of a lent table of so many numbers: R where `3F` was reached, or the penalty form, else as it was."""
    if job.table is None:
        return ["same"]
    variables, entries = len(job.table) - 1, numbers(job.table)
    if variables <= 8:
        return ["all", variables, *entries]
    check = 0
    for x in entries + [BEFORE] * (length - len(entries)):
        for byte in x.to_bytes(8, "little", signed=True):
            check = (31 * check + byte) % 2_147_483_647
    return ["sums", variables, check, *((sum(row) + 2 ** 63) % 2 ** 64 - 2 ** 63 for row in job.table)]


def buffer_after(room, written=b""):
    return (written + UNWRITTEN * (room - len(written))).hex().upper() or "-"


def register(first):
    job, answer = opened({1: first})
    if answer != ACCEPTED:
        return [*answer, 0, 0, 0, 0, 0, 0, 0]
    rows, terms = [(b, *entries) for b, entries in job.rows], [(mask, low) for mask, low, _ in job.terms]
    lists = [*job.choices, *terms, [len(job.windows)], *job.windows, [job.day, len(rows)], *rows]
    lists += [[int(job.ranged)], [high for _, _, high in job.terms]]
    return [*answer, job.base, len(job.choices), len(job.terms), *numbers(lists)]


def scheme(first, second):
    job, answer = opened({1: first, 2: second})
    if answer != ACCEPTED:
        return [*answer, 0, 0, 0, 0]
    products = [(*operands, job.sets[k]) for k, operands in job.products.items()]
    return [*answer, len(job.choices), len(products), len(job.splits), *numbers(products + job.splits), job.factor]


def build(first, room):
    _, answer = opened({1: first})
    if answer == ACCEPTED:
        raise NotJudged
    return [*answer, 0, buffer_after(int(room))]


def cost(first, fourth):
    job, answer = opened({1: first, 4: fourth})
    return [*answer, job.cost(job.fed) if answer == ACCEPTED else 0]


def table_of(constant, variables, entries):
    """The table of a form without squares, of its constant and of its coefficients by (i, i) and (i, j)."""
    table = [[0] * (variables + 1) for _ in range(variables + 1)]
    table[0][0] = 2 * constant
    for (i, j), c in entries.items():
        p = 0 if i == j else i + 1
        table[p][j + 1] = table[j + 1][p] = c
    return table


def penalty(first, second, length):
    job, answer = opened({1: first, 2: second}) if int(length) >= TABLE else (Job(b""), SHORT)
    if answer == ACCEPTED:
        form = penalty_form(job)
        job.table = table_of(form.constant, form.variables, form.entries)
    return [*answer, *table_after(job, int(length))]


def bound(job):
    return -(-job.T // job.s)


def check(first, second, third, fourth, length):
    job, answer = opened(beside(fourth, {1: first, 2: second, 3: third})) if int(length) >= TABLE else (Job(b""), SHORT)
    return [*answer, bound(job) if answer == ACCEPTED else 0, *table_after(job, int(length))]


def plain(first, second, fourth, room):
    _, answer = opened(beside(fourth, {1: first, 2: second}))
    if answer == ACCEPTED:
        raise NotJudged
    return [*answer, 0, buffer_after(int(room))]


def job_call(given, length, number, accepted, refused):
    length, before = int(length), (int(accepted), int(refused))
    if int(number) >= SUPPLIERS:
        return [*NO_SUPPLIER, 0, 0, 0, *before, 0, "same"]
    job = Job(bytes_of(given))
    _, answer = answered(job, job.whole) if length >= TABLE else (job, SHORT)
    least, spent = (bound(job), job.cost(job.fed)) if answer == ACCEPTED else (0, 0)
    after = (before[0] + 1, before[1]) if answer == ACCEPTED else (before[0], before[1] + 1)
    after = tuple(min(count, MOST) for count in after)
    return [*answer, least, spent, spent - least, *after, int(after != before), *table_after(job, length)]


def listing(lines_of, given, length, room):
    length, room = int(length), int(room)
    job = Job(bytes_of(given))
    written = text(lines_of(job)).encode() if length >= TABLE else None
    if written is None or room < len(written):
        return [*SHORT, 0, buffer_after(room), *table_after(job, length)]
    return [*ACCEPTED, len(written), buffer_after(room, written), *table_after(job, length)]


def search(first, limit):
    try:
        found = Search(register_of(bytes_of(first)), int(limit))
    except Refused as refused:
        return [*refused.args, 0, 0, 0]
    return [*ACCEPTED, found.plan, found.best, found.visits]


def costliest_call(m, d, room):
    try:
        written = costliest(int(m), int(d))
    except Refused as refused:
        return [*refused.args, 0, buffer_after(int(room))]
    if int(room) < len(written):
        return [*SHORT, 0, buffer_after(int(room))]
    return [*ACCEPTED, len(written), buffer_after(int(room), written)]


def feedcheck(given):
    written = text(farm(Job(bytes_of(given)))).encode()
    return [buffer_after(len(written), written)]


# file: how many fields a call is given, and what it answers for them
CALLS = {
    "register": (1, register),
    "scheme": (2, scheme),
    "build": (2, build),
    "cost": (2, cost),
    "penalty": (3, penalty),
    "check": (5, check),
    "plain": (4, plain),
    "job": (5, job_call),
    "listing": (3, lambda *given: listing(farm, *given)),
    "supplier": (3, lambda *given: listing(supplier, *given)),
    "search": (2, search),
    "costliest": (3, costliest_call),
    "feedcheck": (1, feedcheck),
}


def holds(call, fields):
    """Whether the fields behind what a call is given are its answer."""
    count, answer = CALLS[call]
    if len(fields) < count:
        raise ValueError
    return [str(x) for x in answer(*fields[:count])] == fields[count:]


def main(words):
    failed, passed, unknown = [], 0, 0
    for path in files(*expect(words, "FOLDER"), ".txt"):
        try:
            for name, *fields in cases(path) if path.stem in CALLS else ():
                try:
                    if holds(path.stem, fields):
                        passed += 1
                    else:
                        failed.append(f"does not hold: {path.name} {name}\n")
                except NotJudged:
                    unknown += 1
        except ValueError:
            raise Trouble(f"{path}: a line that is none of this call's") from None
    put("".join(failed) + f"{passed} passed, {len(failed)} failed, {unknown} not judged\n")
    return 1 if failed or not passed else 0


if __name__ == "__main__":
    run(__doc__, main)
