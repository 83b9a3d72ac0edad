#!/usr/bin/env python3
"""The costliest register of M terms of D choices each, part 1 of a job by itself, worked out from the requests by themselves. It shares no
code with the library; its bytes are a second opinion, not a proof.

    tools/costliest.py M D    writes the register to standard output

No two terms share a choice. The base cost is 0, every coefficient is 1, and the choices are tank 1 at the minutes from 0 up. The builder
forms M times (D - 2) products of it, and of no register with at most M terms that name at most D choices each does it form more;
docs/PRODUCTS.md has the table.

M and D are whole numbers from 0 to 4294967295. There is no such register where M is 0, D is below 3 or above 32, or M times D is above
32, which the library refuses 18. The exit status is then 1, one line on standard error says so, and nothing is on standard output. Where
the register is written it is 0. Where something else is wrong it is 2, and one line on standard error says what.
"""
import sys

sys.dont_write_bytecode = True

from check_job import Refused
from command_line import expect, number, put, run, say
from job_text import encode

LEAST_DEGREE, MOST_NAMED = 3, 32
OUT_OF_RANGE = 18


def costliest(m, d):
    """The bytes; raises the refusal."""
    if m == 0 or not LEAST_DEGREE <= d <= MOST_NAMED or m * d > MOST_NAMED:
        raise Refused(OUT_OF_RANGE, 0, 0)
    commands = [encode(0x10, {"cost": 0})]
    for i in range(m * d):
        commands.append(encode(0x11, {"tank": 1, "minute": i}))
    for t in range(m):
        named = range(t * d, t * d + d)
        commands.append(encode(0x12, {"mask": sum(1 << i for i in named), "coefficient": 1}))
    return b"".join(commands) + encode(0x1F, {})


def main(words):
    m, d = (number(name, word) for name, word in zip("MD", expect(words, "M", "D")))
    try:
        put(costliest(m, d))
    except Refused as refused:
        say(f"M {m} and D {d}: R {refused.args[0]}, since M is 0, D is below 3 or above 32, or M times D is above 32")
        return 1
    return 0


if __name__ == "__main__":
    run(__doc__, main)
