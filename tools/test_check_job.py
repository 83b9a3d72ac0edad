#!/usr/bin/env python3
"""Tries the two listings of tools/check_job.py. Of the jobs in `examples` and in the folders given: each that is accepted is moved to
other tanks and minutes, five times; each time the supplier's lines must stay and the farm's must not. A job that is refused must have its
one line in both, and R is there to be printed exactly where `3F` is reached. Of each with ranges that has the gap 0 no plan that fits may
cost less than its plan, whether a range is at its low or at its high, and no plan that fits less than the bound, with the coefficients
that count; the least cost is that of all plans, or with more than 16 choices what the search of tools/cheapest.py finds. Then the two
listings side by side, of one job of each kind, and of the pair of jobs in `examples` that differ only in tanks, minutes and windows; and
jobs with ranges, jobs with many choices or with the commands `15` and `41`, and jobs with the command `23`, right ones and others, with the
last line of each, which was worked out by hand.

    tools/test_check_job.py [FOLDER ..]
"""
import itertools
import pathlib
import random
import sys

sys.dont_write_bytecode = True

from cheapest import Search
from check_job import Job, both, farm, rest, supplier
from command_line import files, run, tally
from job_text import USUAL_DAY, blank, commands, encode, operands

EXAMPLES = pathlib.Path(__file__).resolve().parent.parent / "examples"

# with so many choices at most the costs of all plans are worked out; a search is to take no more visits than these
EVERY, VISITS = 16, 1_000_000

# rows of both listings
BOTH = {
    "example": [
        "T 0 4 480 | C 0 1",
        "T 1 4 720 | C 1 1",
        "T 2 7 480 | C 2 0",
        "F 4 480   |",
        "F 4 720   |",
        "B 0 0 0   | B 0 0 0",
    ],
    "windows.night.bad-outside": ["R 13 45 | R 13 45"],
}

# a job whose plan feeds nothing, with the lowest target that there may be, -4 * 10^15
NOTHING = bytes.fromhex("10 00000000 11 0100 0000 1F 2F 30 01000000 0000E66C05CAF1FF 3F 40 00000000")
NOTHING_BOTH = [
    "T 0 1 0                                | C 0 0",
    "B -4000000000000000 0 4000000000000000 | B -4000000000000000 0 4000000000000000",
]

# with ranges: choice 0 is tank 1 at minute 0, choice 1 tank 1 at minute 1, and the base cost is 10
ONE, TWO = "10 0A000000 11 0100 0000 ", "10 0A000000 11 0100 0000 11 0100 0100 "
SPLIT, FED, UNFED = "1F 22 00 00 2F ", "40 01000000 ", "40 00000000 "
TEN = "30 01000000 0A00000000000000 3F"


def scale(target):
    return "30 01000000 " + target.to_bytes(8, "little", signed=True).hex() + " "


def cheaper(m):
    """The commands of `39` for choice 0 and of the end."""
    return "39 00 " + m.to_bytes(8, "little").hex() + " 3F"


def many(kinds):
    """A register of nine choices and of terms with the masks 1, 2, 3, .. and of the kinds given, without its end."""
    terms = {"12": (4, "01000000"), "15": (8, "01000000"), "16": (4, "00000000 01000000")}
    named = (f"{kind} {mask.to_bytes(terms[kind][0], 'little').hex()} {terms[kind][1]} " for mask, kind in enumerate(kinds, 1))
    return "10 00000000 " + "".join(f"11 {tank:02}00 0000 " for tank in range(1, 10)) + "".join(named)


RANGED = [
    # a saving of 5 to 3: with the plan that feeds it 3 counts and 7 is the bound, with the plan that doesn't 5 and 5; one more is refused
    (ONE + "16 01000000 FBFFFFFF FDFFFFFF " + SPLIT + FED + scale(7) + cheaper(3), "B 7 7 0"),
    (ONE + "16 01000000 FBFFFFFF FDFFFFFF " + SPLIT + FED + scale(8) + cheaper(3), "R 9 56"),
    (ONE + "16 01000000 FBFFFFFF FDFFFFFF " + SPLIT + UNFED + scale(5) + cheaper(5), "B 5 10 5"),
    (ONE + "16 01000000 FBFFFFFF FDFFFFFF " + SPLIT + UNFED + scale(7) + cheaper(3), "R 9 56"),
    # a price of 0 to 3 is not paid where nothing is fed; the same number twice is a range too, and so is 0 twice
    (ONE + "16 01000000 00000000 03000000 " + SPLIT + UNFED + TEN, "B 10 10 0"),
    (ONE + "16 01000000 FBFFFFFF FBFFFFFF " + SPLIT + FED + scale(5) + cheaper(5), "B 5 5 0"),
    (ONE + "16 01000000 00000000 00000000 " + SPLIT + FED + TEN, "B 10 10 0"),
    # two terms by turns, and the sum of what counts: 3 of both choices at its high of 2, 1 by its `12`, 2 at its low where it isn't fed
    (TWO + "12 01000000 FAFFFFFF 16 02000000 FCFFFFFF FFFFFFFF 16 03000000 01000000 02000000 1F 22 00 00 22 01 01 22 00 01 2F "
     "40 03000000 " + scale(-100) + "31 00 0100000000000000 31 01 0100000000000000 39 00 0700000000000000 39 01 0200000000000000 3F",
     "B -100 5 105"),
    # the smallest numbers and the largest, and one past each; low above high only where both are in range
    (ONE + "16 01000000 C0BDF0FF 40420F00 " + SPLIT + FED + scale(10) + "38 00 40420F0000000000 3F", "B 10 1000010 1000000"),
    (ONE + "16 01000000 C0BDF0FF 40420F00 " + SPLIT + UNFED + scale(-999_990) + cheaper(1_000_000), "B -999990 10 1000000"),
    (ONE + "16 01000000 BFBDF0FF 40420F00 " + SPLIT + FED + TEN, "R 4 10"),
    (ONE + "16 01000000 C0BDF0FF 41420F00 " + SPLIT + FED + TEN, "R 4 10"),
    (ONE + "16 01000000 41420F00 00000000 " + SPLIT + FED + TEN, "R 4 10"),
    (ONE + "16 01000000 00000000 BFBDF0FF " + SPLIT + FED + TEN, "R 4 10"),
    (ONE + "16 01000000 01000000 00000000 " + SPLIT + FED + TEN, "R 6 10"),
    # masks: none, one that is not there, and those that do not rise from one kind to the other, or within this one
    (ONE + "16 00000000 01000000 00000000 " + SPLIT + FED + TEN, "R 5 10"),
    (ONE + "16 02000000 01000000 00000000 " + SPLIT + FED + TEN, "R 5 10"),
    (ONE + "16 00000000 41420F00 00000000 " + SPLIT + FED + TEN, "R 4 10"),
    (TWO + "12 02000000 01000000 16 02000000 01000000 02000000 1F", "R 7 24"),
    (TWO + "12 02000000 01000000 16 01000000 01000000 02000000 1F", "R 7 24"),
    (TWO + "12 02000000 01000000 16 01000000 03000000 02000000 1F", "R 6 24"),
    (TWO + "16 02000000 01000000 02000000 12 02000000 01000000 1F", "R 7 28"),
    (TWO + "16 02000000 01000000 02000000 16 02000000 01000000 03000000 1F", "R 7 28"),
    # cut off, before any choice, with no choice at all, before a choice, a row, a window and a length
    (ONE + "16 01000000 00000000 000000", "R 2 10"),
    ("10 0A000000 16 01000000 00000000 00000000 1F", "R 5 5"),
    (ONE + "16 01000000 00000000 00000000 11 0200 0000", "R 1 23"),
    (ONE + "16 01000000 00000000 00000000 14 0000" + 32 * "00", "R 1 23"),
    (ONE + "16 01000000 00000000 00000000 13 0100 0000 0100", "R 1 23"),
    (ONE + "16 01000000 00000000 00000000 18 A005", "R 1 23"),
    ("16 01000000 00000000 00000000", "R 1 0"),
    (ONE + SPLIT[:2] + "16 01000000 00000000 00000000", "R 1 11"),
    # 256 of both kinds are allowed, and the next is too many, whatever is wrong with it
    (many(["12", "16"] * 128) + "1F 7E", "R 1 2867"),
    (many(["12", "16"] * 128) + "16 00000000 41420F00 00000000", "R 3 2866"),
    (many(["16", "12"] * 128) + "12 00000000 00000000", "R 3 2866"),
    (many(["16"] * 256) + "16 01010000 00000000", "R 2 3378"),
    # where the plan is due: the certificate, nothing, a plan cut off, one of a choice that isn't there, and behind it another one, the end
    # of the job, a byte behind the end and a plan behind the end
    (ONE + "16 01000000 00000000 03000000 " + SPLIT + TEN + FED, "R 1 28"),
    (ONE + "16 01000000 00000000 03000000 " + SPLIT, "R 2 28"),
    (ONE + "16 01000000 00000000 03000000 " + SPLIT + "40 010000", "R 2 28"),
    (ONE + "16 01000000 00000000 03000000 " + SPLIT + "40 03000000" + TEN, "R 5 28"),
    (ONE + "16 01000000 00000000 03000000 " + SPLIT + UNFED + UNFED, "R 1 33"),
    (ONE + "16 01000000 00000000 03000000 " + SPLIT + UNFED, "R 2 33"),
    (ONE + "16 01000000 00000000 03000000 " + SPLIT + UNFED + TEN + "00", "R 12 47"),
    (ONE + "16 01000000 00000000 03000000 " + SPLIT + UNFED + TEN + UNFED, "R 12 47"),
    # a plan before the certificate in a register without ranges
    (ONE + "12 01000000 03000000 " + SPLIT + UNFED + TEN, "R 1 24"),
    # a plan that doesn't fit comes before what is wrong with the certificate, and a choice that isn't there before that
    (ONE + "14 0100 01" + 31 * "00" + "16 01000000 00000000 03000000 " + SPLIT + UNFED + "7E", "R 15 63"),
    (ONE + "14 0100 01" + 31 * "00" + "16 01000000 00000000 03000000 " + SPLIT + "40 02000000 7E", "R 5 63"),
    (ONE + "14 0100 01" + 31 * "00" + "16 01000000 00000000 03000000 " + SPLIT + FED + "7E", "R 1 68"),
]


def choices(n):
    """A register of n choices, choice i being tank 1 at minute i, with the base cost 0 and without its end."""
    return "10 00000000 " + "".join(f"11 0100 {minute:02X}00 " for minute in range(n))


def wide(*named):
    """A mask of 64 bits that names choices."""
    return sum(1 << i for i in named).to_bytes(8, "little").hex() + " "


def products(n, count):
    """So many products of two choices of the first n, first those of neighbours, then those with one choice between them."""
    pairs = [(i, i + 1) for i in range(n - 1)] + [(i, i + 2) for i in range(n - 2)]
    return "".join(f"21 {l:02X} {r:02X} " for l, r in pairs[:count])


def alone(i):
    """The end of a register with one term, of choice i alone and with the coefficient 1, a scheme for it, and a certificate with T = 0."""
    return f"1F 22 {i:02X} {i:02X} 2F " + scale(0) + f"38 {i:02X} 0100000000000000 3F "


# a certificate with T = 0; the end of a register without terms and a scheme without products before it
ZERO = scale(0) + "3F "
BARE = "1F 2F " + ZERO
NONE, ALL_32 = "40 00000000", "40 FFFFFFFF"
# w = 1 and the last of the 65 entries 1, that of variable 63
LAST = "3A 01000000 " + 64 * "0000" + "0100 "
# one at the places of all 32 entries, and at the last alone
ROW_OF_ALL, ROW_OF_31 = "14 0000 " + 32 * "01", "14 0000 " + 31 * "00" + "01 "
# terms of choices 31, 32 and of both, and what stands behind them: 3 and 4 saved, 1 paid for both
ACROSS = "12 00000080 FDFFFFFF 15 " + wide(32) + "FCFFFFFF 15 " + wide(31, 32) + "01000000 1F 22 1F 1F 22 20 20 22 1F 20 2F "
ACROSS_BOUND = scale(-9) + "31 1F 0100000000000000 31 20 0100000000000000 39 1F 0400000000000000 39 20 0500000000000000 3F "

LARGE = [
    # 48 choices, and a 49th, whatever else is wrong with it but that it is cut off; a `40` names the first 32 of them
    (choices(48) + BARE + NONE, "B 0 0 0"),
    (choices(48) + BARE + ALL_32, "B 0 0 0"),
    (choices(48) + BARE + "41 " + wide(*range(48)), "B 0 0 0"),
    (choices(49) + BARE + NONE, "R 3 245"),
    (choices(48) + "11 0000 0000", "R 3 245"),
    (choices(48) + "11 0100 30", "R 2 245"),
    # `41` in each number of choices, and what it names that isn't there, in either half
    (choices(1) + BARE + "41 " + wide(0), "B 0 0 0"),
    (choices(1) + BARE + "41 " + wide(1), "R 5 26"),
    (choices(1) + BARE + "41 " + wide(32), "R 5 26"),
    (choices(1) + BARE + "41 " + wide(63), "R 5 26"),
    (choices(32) + BARE + "41 " + wide(*range(32)), "B 0 0 0"),
    (choices(32) + BARE + "41 " + wide(32), "R 5 181"),
    (choices(33) + BARE + "41 " + wide(32), "B 0 0 0"),
    (choices(33) + BARE + "41 " + wide(0, 33), "R 5 186"),
    (choices(33) + BARE + ALL_32, "B 0 0 0"),
    (choices(48) + BARE + "41 " + wide(48), "R 5 261"),
    (choices(48) + BARE + "41 " + wide(0, 47, 63), "R 5 261"),
    (choices(31) + BARE + ALL_32, "R 5 176"),
    # cut off, with four bytes too many, twice, where part 3 is due, and in part 1
    (choices(33) + BARE + "41 " + wide(32)[:14], "R 2 186"),
    (choices(33) + BARE + NONE + "00000000", "R 12 191"),
    (choices(33) + BARE + "41 " + wide(32) + NONE, "R 12 195"),
    (choices(33) + "1F 2F 41 " + wide(32) + ZERO, "R 1 172"),
    (choices(33) + "41 " + wide(32), "R 1 170"),
    # `15` in each number of choices, a small mask too, and what it names that isn't there
    (choices(1) + "15 " + wide(0) + "01000000 " + alone(0) + "40 01000000", "B 0 1 1"),
    (choices(1) + "15 " + wide(0) + "01000000 " + alone(0) + "41 " + wide(0), "B 0 1 1"),
    (choices(1) + "15 " + wide(1) + "01000000", "R 5 10"),
    (choices(1) + "15 " + wide(0, 32) + "01000000", "R 5 10"),
    (choices(32) + "15 " + wide(31) + "01000000 " + alone(31) + "41 " + wide(31), "B 0 1 1"),
    (choices(32) + "15 " + wide(32) + "01000000", "R 5 165"),
    (choices(33) + "15 " + wide(32) + "01000000 " + alone(32) + "41 " + wide(32), "B 0 1 1"),
    (choices(33) + "15 " + wide(32) + "01000000 " + alone(32) + ALL_32, "B 0 0 0"),
    (choices(33) + "15 " + wide(0, 33) + "01000000", "R 5 170"),
    (choices(48) + "15 " + wide(47) + "01000000 " + alone(47) + "41 " + wide(47), "B 0 1 1"),
    (choices(48) + "15 " + wide(0, 48) + "01000000", "R 5 245"),
    (choices(48) + "15 " + wide(63) + "01000000", "R 5 245"),
    (choices(48) + "15 " + wide() + "01000000", "R 5 245"),
    (choices(48) + "12 00000000 01000000", "R 5 245"),
    # its coefficient: 0 and past both limits before the mask, and at both limits
    (choices(33) + "15 " + wide() + "00000000", "R 4 170"),
    (choices(33) + "15 " + wide(33) + "41420F00", "R 4 170"),
    (choices(33) + "15 " + wide(32) + "BFBDF0FF", "R 4 170"),
    (choices(33) + "15 " + wide(32) + "C0BDF0FF 1F 22 20 20 2F " + scale(-1_000_000) + "39 20 40420F0000000000 3F 41 " + wide(32),
     "B -1000000 -1000000 0"),
    (choices(33) + "15 " + wide(32) + "40420F00 1F 22 20 20 2F " + scale(0) + "38 20 40420F0000000000 3F 41 " + wide(32),
     "B 0 1000000 1000000"),
    # masks rise through `12`, `15` and `16`, as numbers: equal ones, lower ones, and halves of which only one rises
    (choices(33) + "12 02000000 01000000 15 " + wide(1) + "01000000", "R 7 179"),
    (choices(33) + "15 " + wide(1) + "01000000 12 02000000 01000000", "R 7 183"),
    (choices(33) + "15 " + wide(1) + "01000000 15 " + wide(1) + "01000000", "R 7 183"),
    (choices(33) + "16 02000000 00000000 01000000 15 " + wide(1) + "01000000", "R 7 183"),
    (choices(33) + "15 " + wide(1) + "01000000 16 02000000 00000000 01000000", "R 7 183"),
    (choices(33) + "15 " + wide(32) + "01000000 12 FFFFFFFF 01000000", "R 7 183"),
    (choices(33) + "15 " + wide(32) + "01000000 16 FFFFFFFF 00000000 01000000", "R 7 183"),
    (choices(34) + "15 " + wide(33) + "01000000 15 " + wide(0, 32) + "01000000", "R 7 188"),
    (choices(34) + "15 " + wide(0, 32) + "01000000 15 " + wide(33) + "01000000 7E", "R 1 201"),
    (choices(33) + "15 " + wide(0) + "01000000 12 02000000 01000000 15 " + wide(32) + "01000000 7E", "R 1 205"),
    # out of its place: before any choice, before a choice, a row, a window and a length, and behind the end; and cut off
    ("10 00000000 15 " + wide(0) + "01000000", "R 5 5"),
    (choices(1) + "15 " + wide(0) + "01000000 11 0200 0000", "R 1 23"),
    (choices(1) + "15 " + wide(0) + "01000000 " + ROW_OF_31, "R 1 23"),
    (choices(1) + "15 " + wide(0) + "01000000 13 0100 0000 0100", "R 1 23"),
    (choices(1) + "15 " + wide(0) + "01000000 18 A005", "R 1 23"),
    (choices(1) + "1F 15 " + wide(0) + "01000000", "R 1 11"),
    (choices(1) + "15 " + wide(0) + "010000", "R 2 10"),
    # 256 of all three kinds are allowed, and the next is too many, whatever is wrong with it
    (many(["12", "15", "16", "15"] * 64) + "1F 7E", "R 1 3123"),
    (many(["12", "15", "16", "15"] * 64) + "15 " + wide() + "00000000", "R 3 3122"),
    (many(["15"] * 256) + "12 00000000 00000000", "R 3 3378"),
    # 32 products, and no more than 64 variables: with 48 choices 16 products, with 33 of them 31, with 31 of them 32 and 63 variables
    (choices(48) + "1F " + products(48, 16) + "2F " + ZERO + NONE, "B 0 0 0"),
    (choices(48) + "1F " + products(48, 17) + "2F " + ZERO + NONE, "R 3 294"),
    (choices(48) + "1F " + products(48, 16) + "21 FF 00", "R 3 294"),
    (choices(33) + "1F " + products(33, 31) + "2F " + ZERO + NONE, "B 0 0 0"),
    (choices(33) + "1F " + products(33, 32) + "2F " + ZERO + NONE, "R 3 264"),
    (choices(32) + "1F " + products(32, 32) + "2F " + ZERO + NONE, "B 0 0 0"),
    (choices(32) + "1F " + products(32, 33) + "2F " + ZERO + NONE, "R 3 262"),
    (choices(31) + "1F " + products(31, 32) + "2F " + ZERO + NONE, "B 0 0 0"),
    (choices(31) + "1F " + products(31, 33) + "2F " + ZERO + NONE, "R 3 257"),
    # variable 63 and the last entry of a square, where there are 64 variables and where there are 63
    (choices(48) + "1F " + products(48, 16) + "2F " + scale(-1) + "31 3F 0100000000000000 " + LAST + "3F " + NONE, "B -1 0 1"),
    (choices(48) + "1F " + products(48, 16) + "2F " + scale(0) + "38 40 0000000000000000", "R 5 308"),
    (choices(48) + "1F " + products(48, 15) + "2F " + scale(0) + LAST, "R 5 305"),
    # rows with 31, 32, 33 and 48 choices: which entries are free, and which choices count
    (choices(31) + ROW_OF_31, "R 5 160"),
    (choices(32) + ROW_OF_31 + BARE + ALL_32, "R 15 216"),
    (choices(33) + ROW_OF_31 + BARE + "41 " + wide(0, 32), "B 0 0 0"),
    (choices(33) + ROW_OF_31 + BARE + "41 " + wide(31, 32), "R 15 221"),
    (choices(48) + ROW_OF_ALL + BARE + "41 " + wide(*range(32, 48)), "B 0 0 0"),
    (choices(48) + ROW_OF_ALL + BARE + "41 " + wide(31, 32), "R 15 296"),
    (choices(48) + ROW_OF_ALL + BARE + "41 " + wide(31, 48), "R 5 296"),
    # a row form with a choice that is in no row has one product, and with choice 31 a square
    (choices(33) + ROW_OF_31 + "1F 2F " + scale(0) + "3B 00 1F 0100000000000000 3F " + NONE, "B 0 0 0"),
    (choices(33) + ROW_OF_31 + "1F 2F " + scale(0) + "3B 00 20 0100000000000000 3F " + NONE, "R 9 231"),
    (choices(33) + ROW_OF_31 + "1F 2F " + scale(-1) + "3B 00 1F 0100000000000000 3B 00 20 0100000000000000 "
     "31 20 0100000000000000 3F " + NONE, "B -1 0 1"),
    # costs of terms on both sides of bit 32
    (choices(48) + ACROSS + ACROSS_BOUND + "41 " + wide(31, 32), "B -9 -6 3"),
    (choices(48) + ACROSS + ACROSS_BOUND + "41 " + wide(32, 47), "B -9 -4 5"),
    (choices(48) + ACROSS + ACROSS_BOUND + "40 00000080", "B -9 -3 6"),
    (choices(48) + ACROSS + ACROSS_BOUND + "41 " + wide(0, 47), "B -9 0 9"),
    # with a range: of all choices that it can name, of one that the plan doesn't feed and of one that it feeds; `41` where the plan is due,
    # right and wrong, and behind part 3
    (choices(34) + "16 FFFFFFFF 00000000 01000000 7E", "R 1 188"),
    (choices(34) + "16 01000000 00000000 01000000 1F 22 00 00 2F 41 " + wide(32, 33) + ZERO, "B 0 0 0"),
    (choices(34) + "16 01000000 00000000 01000000 1F 22 00 00 2F 41 " + wide(0, 33) + scale(0) + "38 00 0100000000000000 3F", "B 0 1 1"),
    (choices(34) + "16 01000000 00000000 01000000 1F 22 00 00 2F 41 " + wide(0, 33) + ZERO, "R 9 215"),
    (choices(34) + "16 01000000 00000000 01000000 1F 22 00 00 2F 41 " + wide(34) + "7E", "R 5 193"),
    (choices(34) + ROW_OF_ALL + "16 01000000 00000000 01000000 1F 22 00 00 2F 41 " + wide(0, 33) + "7E", "R 15 228"),
    (choices(34) + "16 01000000 00000000 01000000 1F 22 00 00 2F 41 " + wide(33) + ZERO + "00", "R 12 216"),
    (choices(34) + "16 01000000 00000000 01000000 1F 22 00 00 2F " + ZERO + "41 " + wide(33), "R 1 193"),
]

# two choices and a term of both, of 25 bytes; a scheme for it with a product, command by command; and what stands behind its splits
BOTH_FED = choices(2) + "12 03000000 01000000 1F "
PRODUCT, SPLIT_2 = "21 00 01 ", "22 02 02 "
BEHIND = "2F " + scale(0) + "38 02 0100000000000000 3F 40 03000000"

FACTOR = [
    # none, the smallest, the next, the largest: the same lines; and one past both ends, with its bytes exchanged, the highest of 16 bits
    (BOTH_FED + PRODUCT + SPLIT_2 + BEHIND, "B 0 1 1"),
    (BOTH_FED + "23 0100 " + PRODUCT + SPLIT_2 + BEHIND, "B 0 1 1"),
    (BOTH_FED + "23 0200 " + PRODUCT + SPLIT_2 + BEHIND, "B 0 1 1"),
    (BOTH_FED + "23 E803 " + PRODUCT + SPLIT_2 + BEHIND, "B 0 1 1"),
    (BOTH_FED + "23 0000 " + PRODUCT + SPLIT_2 + BEHIND, "R 4 25"),
    (BOTH_FED + "23 E903 " + PRODUCT + SPLIT_2 + BEHIND, "R 4 25"),
    (BOTH_FED + "23 03E8 " + PRODUCT + SPLIT_2 + BEHIND, "R 4 25"),
    (BOTH_FED + "23 FFFF", "R 4 25"),
    # cut off, and the last command of the job
    (BOTH_FED + "23", "R 2 25"),
    (BOTH_FED + "23 00", "R 2 25"),
    (BOTH_FED + "23 0100", "R 2 28"),
    # a second one, also where it is cut off or out of range, and behind one that is out of range
    (BOTH_FED + "23 0100 23 0100 " + PRODUCT + SPLIT_2 + BEHIND, "R 1 28"),
    (BOTH_FED + "23 0100 23", "R 1 28"),
    (BOTH_FED + "23 0100 23 0000", "R 1 28"),
    (BOTH_FED + "23 0000 23 0100", "R 4 25"),
    # behind a product, a split and the end of the part, in part 1, and in place of the base cost
    (BOTH_FED + PRODUCT + "23 0100 " + SPLIT_2 + BEHIND, "R 1 28"),
    (BOTH_FED + PRODUCT + SPLIT_2 + "23 0100 " + BEHIND, "R 1 31"),
    (BOTH_FED + PRODUCT + SPLIT_2 + "2F 23 0100", "R 1 32"),
    (choices(2) + "23 0100", "R 1 15"),
    ("23 0100", "R 1 0"),
    # nothing else in the scheme, too few splits, and a product, a split and a byte that are wrong behind it
    (choices(1) + "1F 23 E803 2F " + ZERO + NONE, "B 0 0 0"),
    (BOTH_FED + "23 E803 2F", "R 3 28"),
    (BOTH_FED + "23 E803 21 02 00", "R 5 28"),
    (BOTH_FED + "23 E803 22 00 00", "R 8 28"),
    (BOTH_FED + "23 E803 7E", "R 1 28"),
    # with a range, where the plan is due behind the scheme all the same, and with the most variables and one more
    (ONE + "16 01000000 00000000 03000000 1F 23 E803 22 00 00 2F " + UNFED + TEN, "B 10 10 0"),
    (ONE + "16 01000000 00000000 03000000 1F 23 E803 22 00 00 2F " + TEN + UNFED, "R 1 31"),
    (choices(48) + "1F 23 E803 " + products(48, 16) + "2F " + ZERO + NONE, "B 0 0 0"),
    (choices(48) + "1F 23 E803 " + products(48, 17) + "2F " + ZERO + NONE, "R 3 297"),
]


def moved(job, chance):
    """A job with other tanks and minutes: those that it names are exchanged for others in the same order, minutes for ones of its day."""
    parts = [(byte, operands(job, at)) for at, byte in commands(job)]
    day = next((values["length"] for byte, values in parts if byte == 0x18), USUAL_DAY)
    for names, numbers in ((("tank",), range(1, 10_000)), (("minute", "from", "to"), range(day))):
        old = sorted({values[name] for _, values in parts for name in names if name in values})
        other = dict(zip(old, sorted(chance.sample(numbers, len(old)))))
        parts = [(byte, {f: other[x] if f in names else x for f, x in values.items()}) for byte, values in parts]
    return b"".join(encode(byte, values) for byte, values in parts)


def lines(lines_of, job):
    return lines_of(Job(job))


def reaches_end(job, read):
    """Whether the line of a job, the first, tells that `3F` of part 3 was reached: the job is accepted, refused 9, or refused at or after
    the plan."""
    kind, number, *position = read[0].split()
    end = next((at + 1 for at, byte in commands(job) if byte == 0x3F), len(job) + 1)
    return kind == "T" or number == "9" or int(position[0]) >= end


class Known:
    """A register with one coefficient for each term, as a search looks at it."""

    def __init__(self, read, coefficients):
        self.base, self.choices, self.fits = read.base, read.choices, read.fits
        self.terms = [(mask, c, c) for (mask, _, _), c in zip(read.terms, coefficients)]


def least_costs(read):
    """What works out the least cost of a plan that fits, with such coefficients."""
    if len(read.choices) > EVERY:
        return lambda coefficients: Search(Known(read, coefficients), VISITS).best
    fitting = list(filter(read.fits, range(1 << len(read.choices))))
    return lambda coefficients: min(read.total(plan, coefficients) for plan in fitting)


def costs_most(job, most):
    """What is not true of an accepted job, by the least costs, None where all is. With the coefficients that count no plan that fits is to
    cost less than the bound. If the gap is 0 and there are at most so many ranges, the plan is to be a cheapest one that fits with each
    range at its low or its high; costs are linear in the coefficients, so it is one then with all between."""
    read = Job(job)
    read.listings()
    least, bound = least_costs(read), -(-read.T // read.s)
    if least(read.coefficients()) < bound:
        return "a plan costs less than the bound"
    ends = [sorted({low, high}) for _, low, high in read.terms]
    if read.cost(read.fed) > bound or sum(len(both) > 1 for both in ends) > most:
        return None
    for coefficients in itertools.product(*ends):
        if least(coefficients) < read.total(read.fed, coefficients):
            return f"another plan is cheaper with {coefficients}"
    return None


def main(folders):
    chance = random.Random(7)
    trials = []
    for path in [path for folder in [EXAMPLES, *folders] for path in files(folder, ".job")]:
        job = path.read_bytes()
        read, rows = lines(farm, job), lines(rest, job)
        trials.append((f"R where there is none, or none where there is one: {path.name}", bool(rows) == reaches_end(job, read)))
        if read[0].startswith("R"):
            trials.append((f"not the one line of a refused job: {path.name}", lines(supplier, job) == read and len(read) == 1))
            continue
        for other in [moved(job, chance) for _ in range(5)]:
            trials.append((f"the supplier reads something else: {path.name}", lines(supplier, other) == lines(supplier, job)))
            trials.append((f"the farm reads nothing else: {path.name}", lines(farm, other) != read))
            trials.append((f"something else was moved: {path.name}", blank(other) == blank(job)))
        if any(byte == 0x16 for _, byte in commands(job)):
            trials.append((f"{costs_most(job, 10)}: {path.name}", costs_most(job, 10) is None))
    for name, rows in BOTH.items():
        trials.append((f"not the rows of both listings: {name}", lines(both, (EXAMPLES / f"{name}.job").read_bytes()) == rows))
    trials.append(("not the rows of both listings: nothing fed", lines(both, NOTHING) == NOTHING_BOTH))
    for job, line in RANGED + LARGE + FACTOR:
        last = lines(both, bytes.fromhex(job))[-1].split("|")
        trials.append((f"not the last line: {line}, but {last}: {job}", [it.strip() for it in last] == [line, line]))
    night, other = ((EXAMPLES / f"windows.{name}.job").read_bytes() for name in ("night", "night.moved"))
    trials.append(("not the same but for tanks, minutes and windows", night != other and blank(night) == blank(other)))
    trials.append(("the supplier reads something else of the pair", lines(supplier, night) == lines(supplier, other)))
    return tally(trials)


if __name__ == "__main__":
    run(__doc__, main)
