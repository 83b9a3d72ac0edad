#!/usr/bin/env python3
"""Finishes a supplier's certificate as docs/SUPPLIERS.md tells: from a job whose certificate has the scale and the rounded multipliers
(its target and squares are not looked at) it writes the job with squares, mended rows and the largest target that the rest carries,
and prints the last of the lines that the farm reads of it.

    tools/finish_certificate.py IN OUT    writes the job in IN, finished, to OUT, which may be the same file

Multipliers of one kind and of the same variables are added up, those that mend the rows among them, and a sum that is above its limit
is written as several commands. Where `38` and `39` have the same variable, what is in both is left out and put on the target. The
certificate is made with squares and without; that with the larger target is written. If the job is accepted as it is and its target is
at least as large, it is written as it is, and a line on standard error says so.

The exit status is 0 where a job is written; it is always one that tools/check_job.py accepts. It is 1 where that can't be done, and one
line on standard error says why: what is looked at of the job is refused, and the refusal's line is printed, or both certificates would
be refused; nothing is then written to OUT. Where something else is wrong it is 2, and one line on standard error says what. That is so
too where OUT is written and the line can't be printed then, since standard output is closed or full; OUT is there all the same.
"""
import math
import sys
from collections import Counter

sys.dont_write_bytecode = True

from check_job import Job, farm
from command_line import expect, put, run, say, write
from job_text import SQUARE, encode, job_in

ENTRY, WEIGHT, SQUARES = 10_000, 1_000_000, 64
MULTIPLIERS = 1_024


class Unfinished(Exception):
    """Why no finished job is written, and what is printed then."""

    def __init__(self, said, printed=""):
        super().__init__(said)
        self.printed = printed


class Given(Job):
    """A job whose certificate is to be finished: its target and squares are not looked at, and its table is B for T = 0. The multipliers
    are added up by their command byte and what they name. What stands before the certificate and behind it stays, byte for byte."""

    def scale(self, v):
        super().scale({**v, "T": 0})
        self.front, self.sums = self.job[:self.at], Counter()

    def multiplier(self, byte, v):
        super().multiplier(byte, v)
        self.sums[byte, tuple(x for x in v.items() if x[0] != "m")] += v["m"]

    def square(self, v):
        pass

    def carry(self):
        self.behind = self.next

    def with_certificate(self, target, sums, squares):
        scale, end = encode(0x30, {"s": self.s, "T": target}), b"\x3F"
        return self.front + scale + b"".join(commands(sums)) + b"".join(squares) + end + self.job[self.behind:]


def limit(byte):
    return 10 ** 9 if byte == 0x3B else 10 ** 12


def count(sums):
    """How many commands the sums of multipliers take."""
    return sum(-(-abs(m) // limit(byte)) for (byte, _), m in sums.items())


def commands(sums):
    for (byte, named), m in sums.items():
        while m:
            piece = max(-limit(byte), min(limit(byte), m))
            yield encode(byte, {**dict(named), "m": piece})
            m -= piece


def subtract(rest, weight, v):
    for i in range(len(rest)):
        for j in range(len(rest)):
            rest[i][j] -= weight * v[i] * v[j]


def square_of(row, p, todo, is_last):
    """The weight and the entries of a square that takes away a pivot's row, None where there is none."""
    if row[p] < 1:
        return None
    root = math.sqrt(row[p])
    column = [x / root if j == 0 or j in todo else 0.0 for j, x in enumerate(row)]
    weight = max(1, math.ceil((max(map(abs, column)) / (ENTRY - 1)) ** 2))
    v = [round(x / math.sqrt(weight)) for x in column]
    if not is_last:
        v[p] -= 1
    return (weight, v) if weight <= WEIGHT and any(v) else None


def squares_of(rest, least):
    """Squares, largest pivot first, subtracted from the rest as they are made. Row 0 is no pivot: T takes what is left there. Where
    there are squares enough each pivot has two, the second for what rounding the first left in its row."""
    made, todo = [], set(range(1, len(rest)))
    turns = (False, True) if 2 * len(todo) <= SQUARES else (True,)
    while todo:
        p = max(todo, key=lambda i: rest[i][i])
        if rest[p][p] < least:
            break
        for is_last in turns:
            square = square_of(rest[p], p, todo, is_last)
            if square:
                weight, v = square
                subtract(rest, weight, v)
                made.append(encode(0x3A, {"weight": weight, **dict(zip(SQUARE, v))}))
        todo.discard(p)
    return made


def without_common(sums, named):
    """Leaves out what `38` and `39` of a variable have in common, z_i and 1 - z_i being 1 together, and answers what that was."""
    low, high = (0x38, named), (0x39, named)
    common = min(sums[low], sums[high])
    sums[low] -= common
    sums[high] -= common
    return common


def mend(rest, sums):
    """`31` where a row falls short without column 0; then `38` and `39` for what column 0 holds. The rest is changed alike."""
    for i in range(1, len(rest)):
        row, named = rest[i], (("i", i - 1),)
        room = row[i] - sum(abs(x) for j, x in enumerate(row) if j not in (0, i))
        if room < 0:
            m = (1 - room) // 2
            sums[0x31, named] += m
            row[i] += 2 * m
            row[0] -= m
            room += 2 * m
        if row[0] > 0:
            sums[0x38, named] += row[0]
            row[0] = 0
        elif -row[0] > room:
            m = -row[0] - room
            sums[0x39, named] += m
            row[0] += m
            rest[0][0] -= 2 * m
        rest[0][i] = row[0]
        rest[0][0] += 2 * without_common(sums, named)


def finished(given, with_squares):
    """The largest target, and the job with it."""
    rest, sums = [list(row) for row in given.table], given.sums.copy()
    squares = squares_of(rest, given.s // 100 + 1) if with_squares else []
    mend(rest, sums)
    if count(sums) > MULTIPLIERS:
        raise Unfinished(f"with its rows mended the certificate would have {count(sums)} multipliers, and {MULTIPLIERS} are allowed")
    target = (rest[0][0] - sum(map(abs, rest[0][1:]))) // 2
    job = Job(given.with_certificate(target, sums, squares))
    job.listings()
    if job.refusal:
        raise Unfinished(f"with its rows mended the job would be refused: {job.refusal}")
    return target, job.job


def best(given):
    """The finished job with the larger target, that with squares where both are as large."""
    made = []
    for with_squares in (True, False):
        try:
            made.append(finished(given, with_squares))
        except Unfinished as unfinished:
            last = unfinished
    if not made:
        raise last
    return max(made, key=lambda target_and_job: target_and_job[0])


def finish(job):
    """The job that is written, and what is said of it where it is the given one."""
    given, own = Given(job), Job(job)
    given.listings()
    if given.refusal:
        raise Unfinished("the job is refused, whatever its target and its squares", f"{given.refusal}\n")
    own.listings()
    try:
        target, better = best(given)
    except Unfinished as unfinished:
        if own.refusal:
            raise
        return job, f"{unfinished}; its own is accepted"
    if own.refusal or own.T < target:
        return better, ""
    return job, f"its own certificate is accepted with T {own.T}, finished it has T {target}"


def main(words):
    source, target = expect(words, "IN", "OUT")
    try:
        job, said = finish(job_in(source))
    except Unfinished as unfinished:
        put(unfinished.printed)
        say(f"{source}: {unfinished}; nothing is written")
        return 1
    write(target, job)
    put(f"{farm(Job(job))[-1]}\n")
    if said:
        say(f"{source}: {said}; the job is written unchanged")
    return 0


if __name__ == "__main__":
    run(__doc__, main)
