#!/usr/bin/env python3
"""Tries tools/finish_certificate.py on the jobs in `examples`, in `crates/conformance/data/suppliers` and in the folders given: each as
it is, without its squares and its target, with its multipliers repeated up to 1,024 and as large as they may be, and with a certificate
that is damaged in several ways. What is finished must be accepted, as tools/check_job.py answers, have the register, the scheme, the
plan and the scale of the job, the largest target that its certificate carries, and a bound that is not worse than the one that the job
has as it is. What is not finished must be refused as it is. The jobs of `examples` that have multipliers of a solver must come to the
bound of the solver's own squares, and those with a certificate of our own to its target, which squares only make smaller. Then a
certificate with wrong squares, certificates that take several `31` of one variable, or more than 1,024 multipliers, jobs whose masks and
plan are of 64 bits without need, jobs with a factor before their products, and jobs that are refused, with the line of each.

    tools/test_finish_certificate.py [FOLDER ..]
"""
import pathlib
import random
import sys
from collections import Counter

sys.dont_write_bytecode = True

from check_job import Job
from command_line import files, run, tally
from finish_certificate import Given, Unfinished, finish
from job_text import commands, cut, encode, make, operands, order_of, size

ROOT = pathlib.Path(__file__).resolve().parent.parent
EXAMPLES, SUPPLIERS = ROOT / "examples", ROOT / "crates/conformance/data/suppliers"
SEED, DAMAGED = 5, 4

# a job whose target is out of range, and multipliers for it whose rows can't be mended by one `31` of a variable, or not by 1,024 of all
LARGE = """
-  1  10 base     cost 10
-  1  11 choice   tank 4  minute 480
-  1  11 choice   tank 4  minute 720
-  1  11 choice   tank 7  minute 480
-  1  12 term     mask 0b001  coefficient -6
-  1  12 term     mask 0b010  coefficient -4
-  1  12 term     mask 0b111  coefficient 5
-  1  1F end
-  2  21 product  l 0  r 1
-  2  22 split    l 0  r 0
-  2  22 split    l 1  r 1
-  2  22 split    l 2  r 3
-  2  2F end
-  3  30 scale    s 1  T 9000000000000000
{}-  3  3F end
-  4  40 plan     fed 0b011
"""
SPREAD, TOO_MANY = ("-  3  32 add  i 3  j 0  m 1000000000000\n" * count for count in (8, 1_024))

# bytes in place of those of examples/example.job from a position on, and the line of the refusal: no `30`, the end of the job where part 3
# begins, in a multiplier and before the plan, a scale of 0, a multiplier out of range and of a variable that is not there, a plan of a
# choice that is not there, a byte behind it, and an error of parts 1 and 2
REFUSED = [
    (64, "3F 40 03000000", "R 1 64"),
    (64, "", "R 2 64"),
    (80, "", "R 2 77"),
    (108, "", "R 2 108"),
    (64, "30 00000000 0000000000000000 3F 40 03000000", "R 4 64"),
    (77, "39 00 FFFFFFFFFFFFFFFF 3F 40 03000000", "R 4 77"),
    (77, "39 05 0600000000000000 3F 40 03000000", "R 5 77"),
    (108, "40 08000000", "R 5 108"),
    (113, "00", "R 12 113"),
    (0, "7E", "R 1 0"),
    (48, "21 01 00", "R 6 48"),
    (48, "23 0000", "R 4 48"),
    (48, "23 E803 21 01 00", "R 6 51"),
    (48, "23 E803 23 E803", "R 1 51"),
]


def parts(job):
    """Each command, with its operands."""
    return [(byte, operands(job, at)) for at, byte in commands(job)]


def joined(commands_and_operands):
    return b"".join(encode(byte, values) for byte, values in commands_and_operands)


def bare(job):
    """A job without its squares and with 0 for its target."""
    return joined((byte, {**v, "T": 0} if byte == 0x30 else v) for byte, v in parts(job) if byte != 0x3A)


def widened(job):
    """A job with each `12` written as `15` and each `40` as `41`."""
    return joined(({0x12: 0x15, 0x40: 0x41}.get(byte, byte), v) for byte, v in parts(job))


def with_factor(job, factor):
    """A job that says no factor with one."""
    register = cut(job)[0]
    return register + encode(0x23, {"factor": factor}) + job[len(register):]


def enlarged(job):
    """A job with its multipliers repeated up to the 1,024 that are allowed, each as large as it may be, and without squares."""
    others = parts(job)
    limits = [(byte, v, 10 ** 9 if byte == 0x3B else 10 ** 12) for byte, v in others if "m" in v]
    full = [(byte, {**v, "m": limit if v["m"] >= 0 else -limit}) for byte, v, limit in limits * 1_024][:1_024]
    at = next(i for i, (byte, _) in enumerate(others) if byte == 0x30) + 1
    return joined(others[:at] + full + [(byte, v) for byte, v in others[at:] if "m" not in v and byte != 0x3A])


def damaged(job, chance):
    """A job with another byte in its certificate, one more or one less, a command left out, one doubled, cut off there, or without its
    first command."""
    starts = [at for at, byte in commands(job) if 0x30 <= byte <= 0x3F]
    first, end = starts[0], starts[-1] + 1
    at, start = chance.randrange(first, end), chance.choice(starts)
    command = job[start:start + size(job[start])]
    return chance.choice((
        job[:at] + bytes([chance.randrange(256)]) + job[at + 1:],
        job[:at] + bytes([chance.randrange(256)]) + job[at:],
        job[:at] + job[at + 1:],
        job[:start] + job[start + len(command):],
        job[:start] + command + job[start:],
        job[:at],
        job[:first] + job[first + size(0x30):],
    ))


def without_certificate(job):
    return [part for number, part in zip(order_of(job), cut(job)) if number != 3]


def read(job, kind=Job):
    reader = kind(job)
    reader.listings()
    return reader


def with_more(job):
    """A job with a target larger by 1."""
    return joined((byte, {**v, "T": v["T"] + 1} if byte == 0x30 else v) for byte, v in parts(job))


class Trials:
    """What was tried, and how often each outcome was seen."""

    def __init__(self):
        self.all, self.seen = [], Counter()

    def expect(self, said, name, holds):
        self.all.append((f"{said}: {name}", holds))

    def not_finished(self, name, own, unfinished):
        self.expect("accepted as it is, and not finished", name, own.refusal is not None)
        if unfinished.printed:
            self.seen["refused"] += 1
            refusal = unfinished.printed.split()
            own_refusal = own.refusal.split() if own.refusal else refusal
            self.expect("refused before the job as it is", name, int(refusal[2]) >= int(own_refusal[2]))
        else:
            self.seen["too many"] += 1

    def finished(self, name, own, new):
        self.expect("finished, and refused", name, new.refusal is None)
        same = without_certificate(new.job) == without_certificate(own.job) and new.s == read(own.job, Given).s
        self.expect("another register, scheme, plan or scale", name, same)
        if own.refusal is None:
            self.expect("a worse target", name, new.T >= own.T)
        if new.job == own.job:
            self.seen["unchanged"] += 1
        else:
            self.seen["with squares" if new.squares else "without squares"] += 1
            self.expect("not the largest target", name, str(read(with_more(new.job)).refusal).startswith("R 9 "))

    def job(self, name, job):
        own = read(job)
        try:
            written, _ = finish(job)
        except Unfinished as unfinished:
            self.not_finished(name, own, unfinished)
        else:
            self.finished(name, own, read(written))

    def made_by_hand(self):
        spread, too_many = (make(LARGE.format(multipliers).split("\n")) for multipliers in (SPREAD, TOO_MANY))
        self.job("spread", spread)
        self.job("too many", too_many)
        mended = Counter(v["i"] for byte, v in parts(finish(spread)[0]) if byte == 0x31)
        self.expect("not several `31` of one variable", "spread", mended[0] > 1 and mended[3] > 1)
        self.expect("something else is said", "too many", said_of(too_many).startswith("with its rows mended the certificate would have "))
        square = (EXAMPLES / "example.square.job").read_bytes()
        wrong = joined((byte, {**v, "weight": 0, "z63": 10_001} if byte == 0x3A else v) for byte, v in parts(square))
        self.job("wrong squares", wrong)
        self.expect("not finished as without squares", "wrong squares", said_of(wrong) == "" and finish(wrong) == finish(bare(square)))
        for name in ("labs05.csdp.bad-t-up", "prices.wide"):
            narrow = bare((EXAMPLES / f"{name}.job").read_bytes())
            self.job(f"{name}, 64 bits", widened(narrow))
            self.expect("not the same but for the width", name, finish(widened(narrow))[0] == widened(finish(narrow)[0]))
            heavy = with_factor(narrow, 1_000)
            self.job(f"{name}, factor 1,000", heavy)
            self.expect("not the same but for the factor", name, finish(heavy)[0] == with_factor(finish(narrow)[0], 1_000))
        example = (EXAMPLES / "example.job").read_bytes()
        for at, other, line in REFUSED:
            job = example[:at] + bytes.fromhex(other)
            self.job(line, job)
            self.expect("not the refusal's line", line, said_of(job) == f"{line}\n")


def said_of(job):
    """What is printed of a job that is not finished, or, where nothing is, why it is not."""
    try:
        finish(job)
    except Unfinished as unfinished:
        return unfinished.printed or str(unfinished)
    return ""


def main(folders):
    trials, chance = Trials(), random.Random(SEED)
    for path in [path for folder in [EXAMPLES, SUPPLIERS, *folders] for path in files(folder, ".job")]:
        job = path.read_bytes()
        trials.job(path.name, job)
        if not read(job).refusal:
            trials.job(f"{path.name}, bare", bare(job))
            trials.job(f"{path.name}, enlarged", enlarged(job))
            for number in range(DAMAGED):
                trials.job(f"{path.name}, damaged {number}", damaged(job, chance))
    for path in files(EXAMPLES, ".csdp.job") + files(EXAMPLES, ".sdpa.job"):
        own, new = read(path.read_bytes()), read(finish(bare(path.read_bytes()))[0])
        trials.expect("not the bound of the solver's squares", path.name, -(-new.T // new.s) == -(-own.T // own.s))
    for path in files(EXAMPLES, ".plain.job") + files(SUPPLIERS, ".plain.job"):
        own, new = read(path.read_bytes()), read(finish(bare(path.read_bytes()))[0])
        trials.expect("not the target without squares", path.name, new.T == own.T)
    trials.made_by_hand()
    for outcome in ("refused", "too many", "unchanged", "with squares", "without squares"):
        trials.expect("not seen", outcome, trials.seen[outcome] > 0)
    return tally(trials.all)


if __name__ == "__main__":
    run(__doc__, main)
