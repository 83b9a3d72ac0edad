#!/usr/bin/env python3
"""Tries tools/job_text.py: bytes to lines and back, and the lines of what `blank` writes, on every example, on every file of the folders
given, and on damaged copies of eight jobs, one without windows, one with them, one with a day's length too, two with a row, one with
ranges, one with a row, ranges and a factor, and one with masks and a plan of 64 bits: each front of it, each byte changed to thirteen
others, each byte left out; and that the parts of what can be cut into four are the whole of it. Then the bytes that `blank` writes of some
others, the lines of registers with windows, lengths, rows, ranges and masks of 64 bits, right ones and others, of what names a row, of
factors in their place and out of it, of plans before part 3, and of parts apart from their register, where nothing is said that the whole
job shows otherwise, lines that are no command and what is said of them, registers written by hand, the parts of jobs, and which bytes are
a text.

    tools/test_job_text.py [FOLDER ..]
"""
import pathlib
import re
import sys

sys.dont_write_bytecode = True

from command_line import Trouble, files, run, tally
from job_text import COMMANDS, ENDS, blank, commands, cut, is_text, lines_of, make, order_of, register_of, show

EXAMPLES = pathlib.Path(__file__).resolve().parent.parent / "examples"

# jobs whose damaged copies are tried, and whose part 1
JOBS = ("example", "windows.night", "days.autumn", "raceway.four", "prices.quoted", "weights.farm")

# runs of bytes, command by command, with the line of each
SHOWN = [
    # windows in order, misordered and out of range, a choice at the last minute before "from", at "from", at "to", of a tank without
    # a window, at the last minute of the day and one behind it, and a window that is cut off
    [
        ("10 00000000", "00000  1  10 base      cost 0"),
        ("13 0400 2805 A005", "00005  1  13 window    tank 4  from 1320  to 1440  (window 0, 22:00 to 24:00)"),
        ("13 0700 0000 6801", "00012  1  13 window    tank 7  from 0  to 360  (window 1, 00:00 to 06:00)"),
        ("13 0800 5802 5802", "00019  1  13 window    tank 8  from 600  to 600  (window 2)"),
        ("13 0900 0000 A105", "00026  1  13 window    tank 9  from 0  to 1441  (window 3)"),
        ("11 0400 2705", "00033  1  11 choice    tank 4  minute 1319  (choice 0, 21:59, in no window of its tank)"),
        ("11 0400 2805", "00038  1  11 choice    tank 4  minute 1320  (choice 1, 22:00)"),
        ("11 0700 6801", "00043  1  11 choice    tank 7  minute 360  (choice 2, 06:00, in no window of its tank)"),
        ("11 0A00 6801", "00048  1  11 choice    tank 10  minute 360  (choice 3, 06:00)"),
        ("11 0A00 9F05", "00053  1  11 choice    tank 10  minute 1439  (choice 4, 23:59)"),
        ("11 0A00 A005", "00058  1  11 choice    tank 10  minute 1440  (choice 5)"),
        ("13 0B00 0000 68", "00063  -  raw  13 0B 00 00 00 68"),
    ],
    # the long day: a window to its end and one past it, a choice in its last minute and one behind it
    [
        ("10 00000000", "00000  1  10 base      cost 0"),
        ("18 DC05", "00005  1  18 day       length 1500  (25 hours)"),
        ("13 0400 DB05 DC05", "00008  1  13 window    tank 4  from 1499  to 1500  (window 0, 24:59 to 25:00)"),
        ("13 0700 0000 DD05", "00015  1  13 window    tank 7  from 0  to 1501  (window 1)"),
        ("11 0400 DB05", "00022  1  11 choice    tank 4  minute 1499  (choice 0, 24:59)"),
        ("11 0800 DC05", "00027  1  11 choice    tank 8  minute 1500  (choice 1)"),
    ],
    # the short day, alike
    [
        ("10 00000000", "00000  1  10 base      cost 0"),
        ("18 6405", "00005  1  18 day       length 1380  (23 hours)"),
        ("13 0400 6305 6405", "00008  1  13 window    tank 4  from 1379  to 1380  (window 0, 22:59 to 23:00)"),
        ("13 0700 0000 6505", "00015  1  13 window    tank 7  from 0  to 1381  (window 1)"),
        ("11 0400 6305", "00022  1  11 choice    tank 4  minute 1379  (choice 0, 22:59)"),
        ("11 0800 6405", "00027  1  11 choice    tank 8  minute 1380  (choice 1)"),
    ],
    # the usual length said, and a second length, which is in no place for one
    [
        ("10 00000000", "00000  1  10 base      cost 0"),
        ("18 A005", "00005  1  18 day       length 1440  (24 hours)"),
        ("18 DC05", "00008  1  18 day       length 1500"),
        ("11 0800 9F05", "00011  1  11 choice    tank 8  minute 1439  (choice 0, 23:59)"),
        ("11 0800 A005", "00016  1  11 choice    tank 8  minute 1440  (choice 1)"),
    ],
    # a length that no day has, and no times behind it; then one that is cut off
    [
        ("10 00000000", "00000  1  10 base      cost 0"),
        ("18 DB05", "00005  1  18 day       length 1499"),
        ("13 0400 0000 6801", "00008  1  13 window    tank 4  from 0  to 360  (window 0)"),
        ("11 0400 0000", "00015  1  11 choice    tank 4  minute 0  (choice 0)"),
        ("18 DC", "00020  -  raw  18 DC"),
    ],
    # rows in order, entries of 8 bits and a total below 0, a row without entries, a row that names a choice that is not there; what
    # names a row, a product among the variables, a row that is not there and a variable that is not there; a plan that does not fit
    [
        ("10 00000000", "00000  1  10 base      cost 0"),
        ("11 0300 6801", "00005  1  11 choice    tank 3  minute 360  (choice 0, 06:00)"),
        ("11 0300 5802", "00010  1  11 choice    tank 3  minute 600  (choice 1, 10:00)"),
        ("14 0200 0101" + 30 * "00", "00015  1  14 row       b 2  z0 1  z1 1  (row 0: z0 + z1 = 2)"),
        ("14 20F0 807F" + 30 * "00", "00050  1  14 row       b -4064  z0 -128  z1 127  (row 1: -128 z0 + 127 z1 = -4064)"),
        ("14 0000 00FF" + 30 * "00", "00085  1  14 row       b 0  z1 -1  (row 2: -z1 = 0)"),
        ("14 0100" + 32 * "00", "00120  1  14 row       b 1  (row 3: 0 = 1)"),
        ("14 0100 01" + 30 * "00" + "FE", "00155  1  14 row       b 1  z0 1  z31 -2  (row 4: z0 - 2 z31 = 1, names what is not there)"),
        ("1F", "00190  1  1F end"),
        ("21 00 01", "00191  2  21 product   l 0  r 1  (variable 2 = z0 z1: choices 0 1)"),
        ("2F", "00194  2  2F end"),
        ("30 01000000 0000000000000000", "00195  3  30 scale     s 1  T 0  (bound 0)"),
        ("3B 00 00 FFFFFFFFFFFFFFFF", "00208  3  3B add       row 0  i 0  m -1  (z0 (z0 + z1 - 2))"),
        ("3B 01 02 00CA9A3B00000000", "00219  3  3B add       row 1  i 2  m 1000000000  (z2 (-128 z0 + 127 z1 + 4064))"),
        ("3B 02 01 0200000000000000", "00230  3  3B add       row 2  i 1  m 2  (z1 (-z1))"),
        ("3B 03 01 0000000000000000", "00241  3  3B add       row 3  i 1  m 0  (z1 (0 - 1))"),
        ("3B 05 00 0100000000000000", "00252  3  3B add       row 5  i 0  m 1  (names what is not there)"),
        ("3B 00 03 0100000000000000", "00263  3  3B add       row 0  i 3  m 1  (names what is not there)"),
        ("3F", "00274  3  3F end"),
        ("40 01000000", "00275  4  40 plan      fed 0x00000001  (choices 0, does not fit row 0, does not fit row 1, does not fit row 3)"),
    ],
    # a scheme apart from its register, and a certificate behind it
    [
        ("21 00 01", "00000  2  21 product   l 0  r 1  (z0 z1)"),
        ("21 02 02", "00003  2  21 product   l 2  r 2  (z2 z2)"),
        ("22 00 00", "00006  2  22 split     l 0  r 0  (term 0 = z0)"),
        ("22 04 01", "00009  2  22 split     l 4  r 1  (term 1 = z4 z1)"),
        ("2F", "00012  2  2F end"),
        ("30 02000000 0300000000000000", "00013  3  30 scale     s 2  T 3  (bound 2)"),
        ("35 00 0100000000000000", "00026  3  35 subtract  k 0  m 1  (z_l - z0)"),
        ("3F", "00036  3  3F end"),
    ],
    # a scheme without products, and a certificate apart from both: every form, with its own numbers
    [
        ("2F", "00000  2  2F end"),
        ("40 05000000", "00001  4  40 plan      fed 0x00000005  (choices 0 2)"),
    ],
    [
        ("30 01000000 FDFFFFFFFFFFFFFF", "00000  3  30 scale     s 1  T -3  (bound -3)"),
        ("31 09 0100000000000000", "00013  3  31 add       i 9  m 1  (z9^2 - z9)"),
        ("32 00 09 0100000000000000", "00023  3  32 add       i 0  j 9  m 1  (z0 - z0 z9)"),
        ("33 09 00 01 0100000000000000", "00034  3  33 add       i 9  j 0  k 1  m 1  (z9 - z0 z1)"),
        ("34 00 01 02 03 0100000000000000", "00046  3  34 add       i 0  j 1  k 2  l 3  m 1  (z0 z1 - z2 z3)"),
        ("35 09 0100000000000000", "00059  3  35 subtract  k 9  m 1  (z_l - z9)"),
        ("36 09 0100000000000000", "00069  3  36 subtract  k 9  m 1  (z_r - z9)"),
        ("37 09 0100000000000000", "00079  3  37 subtract  k 9  m 1  (z9 - z_l - z_r + 1)"),
        ("38 09 0100000000000000", "00089  3  38 subtract  i 9  m 1  (z9)"),
        ("39 09 0100000000000000", "00099  3  39 subtract  i 9  m 1  (1 - z9)"),
        ("3B 00 09 0100000000000000", "00109  3  3B add       row 0  i 9  m 1"),
        ("3F", "00120  3  3F end"),
        ("40 00000000", "00121  4  40 plan      fed 0x00000000  (no choice)"),
    ],
    # a plan by itself
    [("40 03000000", "00000  4  40 plan      fed 0x00000003  (choices 0 1)")],
    # a plan that fits, and a row that is cut off
    [
        ("10 00000000", "00000  1  10 base      cost 0"),
        ("11 0300 6801", "00005  1  11 choice    tank 3  minute 360  (choice 0, 06:00)"),
        ("14 0100 01" + 31 * "00", "00010  1  14 row       b 1  z0 1  (row 0: z0 = 1)"),
        ("1F", "00045  1  1F end"),
        ("40 01000000", "00046  4  40 plan      fed 0x00000001  (choices 0)"),
    ],
    [
        ("10 00000000", "00000  1  10 base      cost 0"),
        ("14 0100 01", "00005  -  raw  14 01 00 01"),
    ],
    # ranges among terms: of numbers below and above 0, of the largest, of one number, misordered, out of range, without a choice; the
    # plan before the certificate, with the ranges that it feeds; and a plan behind the certificate, where the job has ended
    [
        ("10 00000000", "00000  1  10 base      cost 0"),
        ("11 0300 6801", "00005  1  11 choice    tank 3  minute 360  (choice 0, 06:00)"),
        ("11 0300 5802", "00010  1  11 choice    tank 3  minute 600  (choice 1, 10:00)"),
        ("16 01000000 FAFFFFFF 05000000", "00015  1  16 range     mask 0x00000001  low -6  high 5  (term 0: choices 0)"),
        ("12 02000000 FCFFFFFF", "00028  1  12 term      mask 0x00000002  coefficient -4  (term 1: choices 1)"),
        ("16 03000000 C0BDF0FF 40420F00", "00037  1  16 range     mask 0x00000003  low -1000000  high 1000000  (term 2: choices 0 1)"),
        ("16 04000000 00000000 00000000", "00050  1  16 range     mask 0x00000004  low 0  high 0  (term 3: choices 2)"),
        ("16 05000000 02000000 01000000", "00063  1  16 range     mask 0x00000005  low 2  high 1  (term 4: choices 0 2, low above high)"),
        ("16 FFFFFFFF 00000080 FFFFFF7F", "00076  1  16 range     mask 0xFFFFFFFF  low -2147483648  high 2147483647"
         f"  (term 5: choices {' '.join(map(str, range(32)))})"),
        ("16 00000000 00000000 00000000", "00089  1  16 range     mask 0x00000000  low 0  high 0  (term 6: no choice)"),
        ("1F", "00102  1  1F end"),
        ("22 00 01", "00103  2  22 split     l 0  r 1  (term 0 = z0 z1: choices 0 1)"),
        ("2F", "00106  2  2F end"),
        ("40 05000000", "00107  4  40 plan      fed 0x00000005  (choices 0 2, terms 0 3 4 6 at high)"),
        ("30 01000000 0000000000000000", "00112  3  30 scale     s 1  T 0  (bound 0)"),
        ("3F", "00125  3  3F end"),
        ("40 05000000", "00126  -  raw  40 05 00 00 00"),
    ],
    # a plan before the certificate that feeds no range and does not fit, and a range that is cut off
    [
        ("11 0300 6801", "00000  1  11 choice    tank 3  minute 360  (choice 0, 06:00)"),
        ("14 0100 01" + 31 * "00", "00005  1  14 row       b 1  z0 1  (row 0: z0 = 1)"),
        ("16 01000000 00000000 01000000", "00040  1  16 range     mask 0x00000001  low 0  high 1  (term 0: choices 0)"),
        ("1F", "00053  1  1F end"),
        ("40 00000000", "00054  4  40 plan      fed 0x00000000  (no choice, does not fit row 0)"),
        ("16 01000000 00000000 010000", "00059  -  raw  16 01 00 00 00 00 00 00 00 01 00 00"),
    ],
    # masks of 64 bits among those of 32: one that 32 bits can say, one on both sides of bit 32, the largest, none; a plan of 64 bits, and
    # one behind it, where the job has ended
    [
        ("10 00000000", "00000  1  10 base      cost 0"),
        ("11 0300 6801", "00005  1  11 choice    tank 3  minute 360  (choice 0, 06:00)"),
        ("12 01000000 FAFFFFFF", "00010  1  12 term      mask 0x00000001  coefficient -6  (term 0: choices 0)"),
        ("15 0200000000000000 FCFFFFFF", "00019  1  15 term      mask 0x0000000000000002  coefficient -4  (term 1: choices 1)"),
        ("12 03000000 05000000", "00032  1  12 term      mask 0x00000003  coefficient 5  (term 2: choices 0 1)"),
        ("15 0100008001800000 40420F00", "00041  1  15 term      mask 0x0000800180000001  coefficient 1000000"
         "  (term 3: choices 0 31 32 47)"),
        ("15 FFFFFFFFFFFFFFFF 00000080", "00054  1  15 term      mask 0xFFFFFFFFFFFFFFFF  coefficient -2147483648"
         f"  (term 4: choices {' '.join(map(str, range(64)))})"),
        ("15 0000000000000000 00000000", "00067  1  15 term      mask 0x0000000000000000  coefficient 0  (term 5: no choice)"),
        ("1F", "00080  1  1F end"),
        ("2F", "00081  2  2F end"),
        ("30 01000000 0000000000000000", "00082  3  30 scale     s 1  T 0  (bound 0)"),
        ("3F", "00095  3  3F end"),
        ("41 0100000000010000", "00096  4  41 plan      fed 0x0000010000000001  (choices 0 40)"),
        ("41 0000000000000000", "00105  -  raw  41 00 00 00 00 00 00 00 00"),
    ],
    # with a range: a plan of 64 bits before part 3, behind which the job ends, and one behind the end
    [
        ("11 0300 6801", "00000  1  11 choice    tank 3  minute 360  (choice 0, 06:00)"),
        ("16 01000000 00000000 01000000", "00005  1  16 range     mask 0x00000001  low 0  high 1  (term 0: choices 0)"),
        ("15 0000000001000000 01000000", "00018  1  15 term      mask 0x0000000100000000  coefficient 1  (term 1: choices 32)"),
        ("1F", "00031  1  1F end"),
        ("41 0100000001000000", "00032  4  41 plan      fed 0x0000000100000001  (choices 0 32, terms 0 at high)"),
        ("3F", "00041  3  3F end"),
        ("41 0000000000000000", "00042  -  raw  41 00 00 00 00 00 00 00 00"),
    ],
    # 33 choices: a row names the first 32, and choice 32 counts in none; a product with it, and plans of it alone and with others
    [
        *((f"11 0100 {i:02X}00", f"{5 * i:05}  1  11 choice    tank 1  minute {i}  (choice {i}, 00:{i:02})") for i in range(33)),
        ("14 0100 01" + 30 * "00" + "FF", "00165  1  14 row       b 1  z0 1  z31 -1  (row 0: z0 - z31 = 1)"),
        ("1F", "00200  1  1F end"),
        ("21 00 20", "00201  2  21 product   l 0  r 32  (variable 33 = z0 z32: choices 0 32)"),
        ("41 0000000001000000", "00204  4  41 plan      fed 0x0000000100000000  (choices 32, does not fit row 0)"),
    ],
    [
        *((f"11 0100 {i:02X}00", f"{5 * i:05}  1  11 choice    tank 1  minute {i}  (choice {i}, 00:{i:02})") for i in range(33)),
        ("14 0100 01" + 30 * "00" + "FF", "00165  1  14 row       b 1  z0 1  z31 -1  (row 0: z0 - z31 = 1)"),
        ("41 0100000001000000", "00200  4  41 plan      fed 0x0000000100000001  (choices 0 32)"),
    ],
    # a term and a plan of 64 bits that are cut off, and a plan of 64 bits by itself
    [
        ("10 00000000", "00000  1  10 base      cost 0"),
        ("15 0100000000000000 010000", "00005  -  raw  15 01 00 00 00 00 00 00 00 01 00 00"),
    ],
    [
        ("3F", "00000  3  3F end"),
        ("41 01000000 000000", "00001  -  raw  41 01 00 00 00 00 00 00"),
    ],
    [("41 0300000000000000", "00000  4  41 plan      fed 0x0000000000000003  (choices 0 1)")],
    # a factor in its place, the largest, and in none: a second one, behind a product, a split and the end of the part
    [
        ("11 0300 6801", "00000  1  11 choice    tank 3  minute 360  (choice 0, 06:00)"),
        ("11 0300 5802", "00005  1  11 choice    tank 3  minute 600  (choice 1, 10:00)"),
        ("1F", "00010  1  1F end"),
        ("23 E803", "00011  2  23 weights   factor 1000  (all weights times 1000)"),
        ("23 0200", "00014  2  23 weights   factor 2"),
        ("21 00 01", "00017  2  21 product   l 0  r 1  (variable 2 = z0 z1: choices 0 1)"),
        ("23 0200", "00020  2  23 weights   factor 2"),
        ("22 02 02", "00023  2  22 split     l 2  r 2  (term 0 = z2: choices 0 1)"),
        ("23 0200", "00026  2  23 weights   factor 2"),
        ("2F", "00029  2  2F end"),
        ("23 0200", "00030  2  23 weights   factor 2"),
    ],
    # one too large, none, one before the end of part 1, and one that is cut off
    [
        ("1F", "00000  1  1F end"),
        ("23 E903", "00001  2  23 weights   factor 1001"),
    ],
    [
        ("1F", "00000  1  1F end"),
        ("23 0000", "00001  2  23 weights   factor 0"),
    ],
    [
        ("10 00000000", "00000  1  10 base      cost 0"),
        ("23 0200", "00005  2  23 weights   factor 2"),
    ],
    [
        ("1F", "00000  1  1F end"),
        ("23 01", "00001  -  raw  23 01"),
    ],
    # apart from the register: the smallest at the front and another behind it, and one too large at the front
    [
        ("23 0100", "00000  2  23 weights   factor 1  (all weights times 1)"),
        ("23 0300", "00003  2  23 weights   factor 3"),
        ("21 00 01", "00006  2  21 product   l 0  r 1  (z0 z1)"),
        ("2F", "00009  2  2F end"),
    ],
    [("23 FFFF", "00000  2  23 weights   factor 65535")],
]

NO_NUMBER = "is no number: decimal without zeros before it, 0x and hexadecimal, or 0b and binary"
ORDER = "a line has position, part, command byte, name, operands"

# lines that are no command, and what is said of each
NO_COMMANDS = [
    # an operand is missing, has no number or comes from another command
    ("00005  1  13 window    tank 4  from 1320", "to is missing"),
    ("00005  1  13 window    tank 4  from 1320  to", "to has no number"),
    ("00005  1  13 window    tank 4  from 1320  minute 1440", "window has no operand minute"),
    ("00005  1  18 day", "length is missing"),
    ("00005  1  18 day       length", "length has no number"),
    ("00005  1  18 day       minute 1500", "day has no operand minute"),
    ("00005  1  14 row", "b is missing"),
    ("00005  1  14 row       z0 1", "b is missing"),
    ("00005  1  14 row       b 2  z0", "z0 has no number"),
    ("00005  1  14 row       b 2  z32 1", "row has no operand z32"),
    ("00005  1  14 row       b 2  c 1", "row has no operand c"),
    ("00015  1  16 range     mask 0x00000001  low -6", "high is missing"),
    ("00015  1  16 range     mask 0x00000001  high 5", "low is missing"),
    ("00015  1  16 range     mask 0x00000001  low -6  high", "high has no number"),
    ("00015  1  16 range     mask 0x00000001  low -6  coefficient 5", "range has no operand coefficient"),
    ("00015  1  15 term      mask 0x0000000000000001", "coefficient is missing"),
    ("00015  1  15 term      coefficient 1", "mask is missing"),
    ("00015  1  15 term      mask 0x0000000000000001  low 1", "term has no operand low"),
    ("00048  2  23 weights", "factor is missing"),
    ("00048  2  23 weights   factor", "factor has no number"),
    ("00048  2  23 factor 3", f"the name weights is missing before factor: {ORDER}"),
    ("00048  2  23 weights   times 3", "weights has no operand times"),
    ("00048  2  23 weights   factor 3  factor 3", "factor is given twice"),
    ("00275  4  41 plan", "fed is missing"),
    ("00275  4  41 plan      fed", "fed has no number"),
    ("00208  3  3B add       row 0  m 1", "i is missing"),
    ("00208  3  3B add       i 0  m 1", "row is missing"),
    ("00047  1  1F end       to 3", "end has no operand to"),
    ("-  3  3A square", "weight is missing"),
    ("-  3  3A square  weight 1  z64 1", "square has no operand z64"),
    # a number out of its operand's range, at both ends and for each width
    ("00000  1  10 base      cost 99999999999", "cost 99999999999 is not within -2147483648 and 2147483647"),
    ("00000  1  10 base      cost 2147483648", "cost 2147483648 is not within -2147483648 and 2147483647"),
    ("00000  1  10 base      cost -2147483649", "cost -2147483649 is not within -2147483648 and 2147483647"),
    ("00005  1  13 window    tank 4  from 1320  to 65536", "to 65536 is not within 0 and 65535"),
    ("00005  1  13 window    tank 4  from -1  to 1440", "from -1 is not within 0 and 65535"),
    ("00005  1  18 day       length 65536", "length 65536 is not within 0 and 65535"),
    ("00005  1  18 day       length -1", "length -1 is not within 0 and 65535"),
    ("00048  2  23 weights   factor 65536", "factor 65536 is not within 0 and 65535"),
    ("00048  2  23 weights   factor -1", "factor -1 is not within 0 and 65535"),
    ("00005  1  14 row       b 2  z0 128", "z0 128 is not within -128 and 127"),
    ("00005  1  14 row       b 2  z0 -129", "z0 -129 is not within -128 and 127"),
    ("00005  1  14 row       b 32768  z0 1", "b 32768 is not within -32768 and 32767"),
    ("00005  1  12 term      mask 0x100000000  coefficient 1", "mask 0x100000000 is not within 0 and 4294967295"),
    ("00015  1  16 range     mask 0x00000001  low -2147483649  high 5", "low -2147483649 is not within -2147483648 and 2147483647"),
    ("00015  1  16 range     mask 0x00000001  low -6  high 2147483648", "high 2147483648 is not within -2147483648 and 2147483647"),
    ("00005  1  15 term      mask 0x10000000000000000  coefficient 1", f"mask 0x10000000000000000 is not within 0 and {2 ** 64 - 1}"),
    ("00005  1  15 term      mask -1  coefficient 1", f"mask -1 is not within 0 and {2 ** 64 - 1}"),
    ("00005  1  15 term      mask 1  coefficient 2147483648", "coefficient 2147483648 is not within -2147483648 and 2147483647"),
    ("00275  4  40 plan      fed 0x100000000", "fed 0x100000000 is not within 0 and 4294967295"),
    ("00275  4  41 plan      fed 0x10000000000000000", f"fed 0x10000000000000000 is not within 0 and {2 ** 64 - 1}"),
    ("00208  3  3B add       row -1  i 0  m 1", "row -1 is not within 0 and 255"),
    ("00208  3  3B add       row 256  i 0  m 1", "row 256 is not within 0 and 255"),
    ("-  3  30 scale  s 1  T 9223372036854775808", f"T {2 ** 63} is not within {-2 ** 63} and {2 ** 63 - 1}"),
    # a minus sign that is another
    ("00000  1  10 base      cost \u22125", "cost \u22125: write - before a negative number"),
    ("00000  1  10 base      cost \u20130x5", "cost \u20130x5: write - before a negative number"),
    ("00005  1  14 row       b 2  z0 \uff0d1", "z0 \uff0d1: write - before a negative number"),
    # no number, the same operand twice
    ("00005  1  11 choice    tank four  minute 480", f"tank four {NO_NUMBER}"),
    ("00005  1  11 choice    tank 4  minute 08:00", f"minute 08:00 {NO_NUMBER}"),
    ("00005  1  11 choice    tank 4  minute 0480", f"minute 0480 {NO_NUMBER}"),
    ("00005  1  11 choice    tank 4  minute 480.5", f"minute 480.5 {NO_NUMBER}"),
    ("00005  1  11 choice    tank 4  minute 480  tank 5", "tank is given twice"),
    ("00005  1  11 choice    tank 4  tank 4  minute 480", "tank is given twice"),
    ("-  1  14 row  b 1  z0 1  z0 0", "z0 is given twice"),
    # a column is missing or holds something else
    ("-  1", f"no command byte: {ORDER}"),
    ("-  1  choice  tank 4", f"choice is no command byte: {ORDER}"),
    ("-  1  1A  tank 4  minute 480", f"1A is no command byte: {ORDER}"),
    ("-  1  111 choice  tank 4  minute 480", f"111 is no command byte: {ORDER}"),
    ("-  1  11  tank 4  minute 480", f"the name choice is missing before tank: {ORDER}"),
    ("-  1  11 choice  tank 4  minute", "minute has no number"),
    ("-  1  11 choice  4 tank  480 minute", "choice has no operand 4"),
    ("00063  -  raw  13 0B 0", "what stands after raw is no row of bytes, two hexadecimal digits each"),
    ("00063  -  raw  13 XY", "what stands after raw is no row of bytes, two hexadecimal digits each"),
]

# lines in which position, part or name are others than `show` prints, and whose bytes are those of the command all the same
LOOSE = [
    ("x  9  11 window  minute 480  tank 4", "11 0400 E001"),
    ("-  -  0x11 choice  tank 0b100  minute 0x1E0  (at eight", "11 0400 E001"),
    ("99999  1  1f", "1F"),
    ("-  1  1F nothing", "1F"),
    ("-  2  23 heavier  factor 0x3E8", "23 E803"),
    ("-  1  15 term  coefficient -1  mask 0b1", "15 0100000000000000 FFFFFFFF"),
    (f"-  1  15 range  mask 0b1{47 * '0'}  coefficient 1", "15 0000000000800000 01000000"),
    ("-  4  41 plan  fed 0", "41 0000000000000000"),
    (f"-  4  41 plan  fed {2 ** 47}", "41 0000000000800000"),
]

# the register of examples/example.job as a farm may write it: no positions, no meanings, masks in binary
WRITTEN = """
# tank 4 twice, tank 7 once
-  1  10 base    cost 10
-  1  11 choice  tank 4  minute 480
-  1  11 choice  tank 4  minute 720
-  1  11 choice  tank 7  minute 480

# costs
-  1  12 term    mask 0b001  coefficient -6
-  1  12 term    mask 0b010  coefficient -4
-  1  12 term    mask 0b111  coefficient 5
-  1  1F end
"""

# the same with the usual length said, as in examples/days.usual.job
WRITTEN_LENGTH = WRITTEN.replace("cost 10\n", "cost 10\n-  1  18 day     length 1440\n")


# a job with a row
ROW = bytes.fromhex("10 0A000000 11 0300 6801 11 0300 5802 11 0800 D002 14 0100 0101" + 30 * "00" + "12 04000000 FDFFFFFF 1F 22 02 02 2F"
                    "30 01000000 0700000000000000 3B 00 01 0000000000000000 39 02 0300000000000000 3F 40 06000000")


# a job with masks and a plan of 64 bits, all of which 32 bits could say
WIDE = bytes.fromhex("10 0A000000 11 0300 6801 11 0300 5802 12 01000000 FDFFFFFF 15 0200000000000000 FCFFFFFF"
                     "15 0300000000000000 02000000 1F 21 00 01 22 00 00 22 01 01 22 02 02 2F 30 01000000 0300000000000000"
                     "39 00 0300000000000000 39 01 0400000000000000 38 02 0200000000000000 3F 41 0300000000000000")


# bytes, and what is left of them without tanks, minutes and windows: each command of part 1 and then a byte that is none, a window
# and a choice that are cut off, a choice behind the plan, no bytes
BLANK = [
    ("10 0A000000 18 DC05 13 0400 2805 A005 13 0700 0000 DC05 11 0400 2805 11 0800 DB05 14 0100 0101" + 30 * "00"
     + "12 03000000 FDFFFFFF 16 04000000 01000000 02000000 1F 7E 11 0400 2705",
     "10 0A000000 18 DC05 13 0000 0000 0000 13 0000 0000 0000 11 0000 0000 11 0000 0000 14 0100 0101" + 30 * "00"
     + "12 03000000 FDFFFFFF 16 04000000 01000000 02000000 1F 7E 11 0400 2705"),
    ("11 0400 2705 13 0400 2805 A0", "11 0000 0000 13 0400 2805 A0"),
    ("11 0400 27", "11 0400 27"),
    ("40 03000000 11 0400 2705", "40 03000000 11 0400 2705"),
    ("11 0400 2705 15 0300000000000000 FDFFFFFF 1F 41 0300000000000000 11 0400 2705",
     "11 0000 0000 15 0300000000000000 FDFFFFFF 1F 41 0300000000000000 11 0400 2705"),
    ("15 0300000000000000 FDFFFF", "15 0300000000000000 FDFFFF"),
    ("11 0400 2705 1F 23 0400 21 00 01", "11 0000 0000 1F 23 0400 21 00 01"),
    ("", ""),
]

# bytes, and their parts as far as these have an end: the shortest ones, with nothing behind them and with bytes that are no plan, parts
# in another order, an end too many, and an end cut off by a command that is none; and with a range, where part 4 stands before part 3
RANGE, IN_LETTERS = "16 01000000 00000000 01000000", "16 01 00 00 00 00 00 00 00 01 00 00 00"
CUT = [
    ("1F 2F 3F", ["1f", "2f", "3f", ""]),
    ("1F 2F 3F 7E 1F 2F", ["1f", "2f", "3f", "7e 1f 2f"]),
    ("1F 3F 2F", ["1f"]),
    ("1F 2F", ["1f", "2f"]),
    ("1F 1F 2F 3F", ["1f"]),
    ("1F 2F 7E 3F", ["1f", "2f"]),
    ("1F 2F 40 00000000 3F", ["1f", "2f"]),
    (f"{RANGE} 1F 2F 40 00000000 3F", [f"{IN_LETTERS} 1f", "2f", "40 00 00 00 00", "3f"]),
    (f"{RANGE} 1F 2F 40 00000000 3F 7E", [f"{IN_LETTERS} 1f", "2f", "40 00 00 00 00", "3f 7e"]),
    (f"{RANGE} 1F 2F 40 00000000", [f"{IN_LETTERS} 1f", "2f", "40 00 00 00 00", ""]),
    (f"{RANGE} 1F 2F 40 000000", [f"{IN_LETTERS} 1f", "2f"]),
    (f"{RANGE} 1F 2F 3F 40 00000000", [f"{IN_LETTERS} 1f", "2f"]),
    (f"1F {RANGE} 2F 3F 40 00000000", ["1f"]),
    ("1F 2F 3F 41 0000000000000000", ["1f", "2f", "3f", "41 00 00 00 00 00 00 00 00"]),
    ("1F 2F 41 0000000000000000 3F", ["1f", "2f"]),
    (f"{RANGE} 1F 2F 41 0000000000000000 3F 7E", [f"{IN_LETTERS} 1f", "2f", "41 00 00 00 00 00 00 00 00", "3f 7e"]),
    (f"{RANGE} 1F 2F 41 0000000000 3F", [f"{IN_LETTERS} 1f", "2f"]),
    ("15 0100000000000000 01000000 1F 2F 3F", ["15 01 00 00 00 00 00 00 00 01 00 00 00 1f", "2f", "3f", ""]),
    ("1F 23 0200 2F 3F", ["1f", "23 02 00 2f", "3f", ""]),
    ("1F 23 2F3F 2F 3F 7E", ["1f", "23 2f 3f 2f", "3f", "7e"]),
    (f"{RANGE} 1F 23 0200 2F 40 00000000 3F", [f"{IN_LETTERS} 1f", "23 02 00 2f", "40 00 00 00 00", "3f"]),
    ("1F 23 2F", ["1f"]),
    ("23 0200 1F 2F 3F", []),
    ("2F 3F", []),
    ("", []),
]


def operands_of(lines):
    """Lines without what they mean."""
    return [line.split("  (")[0] for line in lines]


def damaged(job):
    for at in range(len(job)):
        yield job[:at]
        yield job[:at] + job[at + 1:]
        for byte in (0x00, 0x11, 0x13, 0x14, 0x15, 0x16, 0x18, 0x23, 0x3B, 0x3F, 0x40, 0x41, 0xFF):
            yield job[:at] + bytes([byte]) + job[at + 1:]


# bytes that are a text for `make`, and bytes that are not
TEXTS = [b"-", b"# a register\n", b"\n\n  00000  1  10 base  cost 0\r\n", b"\xEF\xBB\xBF-  1  1F end\n", "# f\u00fctterung\n".encode()]
NO_TEXTS = [b"", b"\n", b"\x10", b"~", b"R 1 0\n", b"- \x00", b"- \xFF", b"-\x1F", b"A- # 0 0 ", WRITTEN.encode("utf-16")]


def are_parts(parts, order):
    """Whether each of the first three has commands of its part only, and the end of the part once, as its last command."""
    for number, part in list(zip(order, parts))[:3]:
        run_of_commands = [byte for _, byte in commands(part)]
        ends = [byte in ENDS[number] for byte in run_of_commands]
        if ends.index(True) != len(ends) - 1 or {COMMANDS[byte][0] for byte in run_of_commands} != {number}:
            return False
    return True


def said_alike(lines, number, part, is_last):
    """Whether the lines of part 2, 3 or 4 apart from its register say nothing that the job's lines do not say of the same commands, but
    that the operands of products that are not known are `z_l` and `z_r`."""
    apart = show(part)
    if number == 1 or not apart or apart[0].split()[1] != str(number):
        return True
    whole = lines[-len(apart):] if is_last else [line for line in lines if line.split()[1] == str(number)]
    for own, other in zip(apart, whole, strict=True):
        said = re.sub(r"z_[lr]", "z[0-9]+", re.escape(own.split("  (")[1][:-1])) if "  (" in own else ""
        if own[5:].split("  (")[0] != other[5:].split("  (")[0] or not re.search(said, other):
            return False
    return True


def said_of(lines):
    try:
        make(lines)
    except Trouble as trouble:
        return str(trouble)
    return None


def main(folders):
    jobs = [(path.name, path.read_bytes()) for folder in [EXAMPLES, *folders] for path in files(folder) if path.is_file()]
    for name in JOBS:
        jobs += [(f"{name}, damaged", job) for job in damaged((EXAMPLES / f"{name}.job").read_bytes())]
    jobs += [("a row, damaged", job) for job in [ROW, *damaged(ROW)]]
    jobs += [("64 bits", WIDE)] + [("64 bits, damaged", job) for job in damaged(WIDE)]
    trials = []
    for name, job in jobs:
        lines = show(job)
        trials.append((f"not the same bytes: {name}", make(lines) == job))
        left = [re.sub(r"  (tank|minute|from|to) \d+", r"  \1 0", line) for line in operands_of(lines)]
        trials.append((f"not blank, or something else is: {name}", operands_of(show(blank(job))) == left))
        parts, order = cut(job), order_of(job)
        if len(parts) == 4 and "damaged" not in name:
            alike = all(said_alike(lines, *it, it[0] == order[-1]) for it in zip(order, parts))
            trials.append((f"not so in the whole job: {name}", alike))
        if len(parts) == 4:
            trials.append((f"not the job, or not its parts: {name}", b"".join(parts) == job and are_parts(parts, order)))
    trials += [(f"not what is left: {job}", blank(bytes.fromhex(job)) == bytes.fromhex(left)) for job, left in BLANK]
    for shown in SHOWN:
        lines = show(bytes.fromhex("".join(part for part, _ in shown)))
        trials += [(f"not the line: {line}", found == line) for (_, line), found in zip(shown, lines, strict=True)]
        trials += [(f"not the bytes: {line}", make([line]) == bytes.fromhex(part)) for part, line in shown]
    for line, said in NO_COMMANDS:
        found = said_of(["# a comment", "", line])
        trials.append((f"taken for a command, or something else is said: {line}: {found}", found == f"line 3: {said}"))
    trials += [(f"not the bytes: {line}", make([line]) == bytes.fromhex(command)) for line, command in LOOSE]
    for name, written in (("example", WRITTEN), ("days.usual", WRITTEN_LENGTH)):
        register = (EXAMPLES / f"{name}.register").read_bytes()
        for text in (written, written.replace("\n", "\r\n"), written.replace("\n", "\r"), "\ufeff" + written):
            trials.append((f"not the bytes of what a farm wrote: {name}", make(lines_of(text.encode())) == register))
    trials += [(f"not a text: {data}", is_text(data)) for data in TEXTS]
    trials += [(f"a text: {data}", not is_text(data)) for data in [*NO_TEXTS, ROW, WIDE]]
    for name in JOBS:
        job, register = ((EXAMPLES / f"{name}.{kind}").read_bytes() for kind in ("job", "register"))
        trials += [(f"not part 1: {name}", register_of(whole) == register) for whole in (job, register)]
        trials += [(f"cut before the end of part 1: {name}", register_of(job[:n]) is None) for n in range(len(register))]
        ends = [len(b"".join(cut(job)[:number])) for number in (1, 2, 3)]
        trials += [(f"not so many ends: {name}, {n} bytes", len(cut(job[:n])) == sum(n >= end for end in ends) + (n >= ends[2]))
                   for n in range(len(job) + 1)]
    trials += [("not part 1: a row", register_of(ROW) == ROW[:65])]
    trials += [(f"no end of part 1: {bad}", register_of(bytes.fromhex(bad)) is None) for bad in ("7E 1F", "10 00000000 21 00 01 1F")]
    trials += [(f"not the parts: {job}", [part.hex(" ") for part in cut(bytes.fromhex(job))] == parts) for job, parts in CUT]
    return tally(trials)


if __name__ == "__main__":
    run(__doc__, main)
