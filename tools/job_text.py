#!/usr/bin/env python3
"""A job, or a part of one, as lines of text, and such lines as bytes.

    tools/job_text.py show FILE        prints the lines of the bytes in FILE
    tools/job_text.py make FILE        writes the bytes of the lines in FILE to standard output
    tools/job_text.py register FILE    writes part 1 of the job in FILE to standard output
    tools/job_text.py cut FILE NAME    cuts the job in FILE into the files NAME.register, NAME.scheme, NAME.certificate and NAME.plan
    tools/job_text.py blank FILE       writes the job in FILE with 0 for each tank, minute, "from" and "to" to standard output
    tools/job_text.py plan REGISTER LINES    writes part 4, the plan that LINES names, to standard output; LINES may be - for standard input

A line is a command: position, part, command byte, name, operands, and in parentheses what they mean. `make` looks only at the command byte
and the operands, so positions need not be mended after a change, and in lines written by hand `-` may stand in their place; it passes over
empty lines and lines that begin with `#`. A number may be decimal, hexadecimal (0x7) or binary (0b111). A square's entries are c for the
constant and z0 to z63 for the variables, those of a row of the register z0 to z31 for the first 32 choices; those that are 0 are left out.
`12` and `40` have 32 bits for a mask or a plan, `15` and `41` have 64. The command byte says which of the two a term or a plan is, also
where the number has room in either. A range is a term with a low and a high coefficient; "at high" stands behind a plan with the ranges
whose choices it feeds, of which the high one counts beside it. A time is hours and minutes since the day began, 24:59 for the last minute
of a day of 25 hours; it is left out where the minute is not one of the day, whose length is that of the `18` directly after `10`, or the
usual one.
Where a file begins with a command of part 2, 3 or 4, only that is said which holds whatever register stands before it. A scheme, a
certificate or a plan is explained in full behind its register (`cat my.register my.scheme > both`, and `show both`).
From the first byte that is no command, or begins a command that is cut off, or stands after the job's end, the bytes are shown as they
are, after `raw`, and `blank` leaves them as they are. `register` and `cut` look only for the end of a part, not whether what stands before
it is right. What stands behind part 3 is NAME.plan. Where part 1 has a range, the plan stands before part 3, and what stands behind it is
NAME.certificate. So the four files, one after the other in the job's order of parts, are the job.

LINES is what `cheapest` or `feedcheck` prints. Each line `F tank minute` feeds the choice of part 1 of REGISTER that has this tank and
this minute; lines that begin with T, S or B, and empty ones, are passed over. Of the register `plan` looks only at the choices. It writes
`40` where no choice from 32 on is fed, else `41`.

The exit status is 0, or 2 where that can't be done; one line on standard error then says why, and nothing is on standard output.
Where a part has no end, or NAME is empty or ends with /, `cut` writes no file.
"""
import re
import sys

sys.dont_write_bytecode = True

from command_line import Misuse, Trouble, expect, put, read, run, write

# the lengths that a day may have, in minutes: where the clocks go forward, as usual, where they go back
SHORT_DAY, USUAL_DAY, LONG_DAY = 1_380, 1_440, 1_500
DAYS = SHORT_DAY, USUAL_DAY, LONG_DAY

# command byte: part, name, operands; an operand is a name, a width in bytes and whether it is signed
U8, U16, U32, U64, I8, I16, I32, I64 = (1, False), (2, False), (4, False), (8, False), (1, True), (2, True), (4, True), (8, True)
SQUARE = ["c"] + [f"z{i}" for i in range(64)]
ROW = [f"z{i}" for i in range(32)]
COMMANDS = {
    0x10: (1, "base", [("cost", I32)]),
    0x11: (1, "choice", [("tank", U16), ("minute", U16)]),
    0x12: (1, "term", [("mask", U32), ("coefficient", I32)]),
    0x13: (1, "window", [("tank", U16), ("from", U16), ("to", U16)]),
    0x14: (1, "row", [("b", I16)] + [(name, I8) for name in ROW]),
    0x15: (1, "term", [("mask", U64), ("coefficient", I32)]),
    0x16: (1, "range", [("mask", U32), ("low", I32), ("high", I32)]),
    0x18: (1, "day", [("length", U16)]),
    0x1F: (1, "end", []),
    0x21: (2, "product", [("l", U8), ("r", U8)]),
    0x22: (2, "split", [("l", U8), ("r", U8)]),
    0x23: (2, "weights", [("factor", U16)]),
    0x2F: (2, "end", []),
    0x30: (3, "scale", [("s", U32), ("T", I64)]),
    0x31: (3, "add", [("i", U8), ("m", I64)]),
    0x32: (3, "add", [("i", U8), ("j", U8), ("m", I64)]),
    0x33: (3, "add", [("i", U8), ("j", U8), ("k", U8), ("m", I64)]),
    0x34: (3, "add", [("i", U8), ("j", U8), ("k", U8), ("l", U8), ("m", I64)]),
    0x35: (3, "subtract", [("k", U8), ("m", I64)]),
    0x36: (3, "subtract", [("k", U8), ("m", I64)]),
    0x37: (3, "subtract", [("k", U8), ("m", I64)]),
    0x38: (3, "subtract", [("i", U8), ("m", I64)]),
    0x39: (3, "subtract", [("i", U8), ("m", I64)]),
    0x3A: (3, "square", [("weight", U32)] + [(name, I16) for name in SQUARE]),
    0x3B: (3, "add", [("row", U8), ("i", U8), ("m", I64)]),
    0x3F: (3, "end", []),
    0x40: (4, "plan", [("fed", U32)]),
    0x41: (4, "plan", [("fed", U64)]),
}
HEXADECIMAL = ("mask", "fed")
# operands on which the supplier's lines of an accepted job do not depend
HIDDEN = ("tank", "minute", "from", "to")
# command byte: entries that are left out where they are 0
ENTRIES = {0x14: ROW, 0x3A: SQUARE}
# the parts in the order in which a job has them, without a range in part 1 and with one, and the commands of which one ends each
USUAL_ORDER, RANGED_ORDER = (1, 2, 3, 4), (1, 2, 4, 3)
ENDS = {1: (0x1F,), 2: (0x2F,), 3: (0x3F,), 4: (0x40, 0x41)}
# the names that `cut` gives the files of the four parts
PARTS = {1: "register", 2: "scheme", 3: "certificate", 4: "plan"}
# the choices of a register, whose fed ones have a bit each in the plan's mask
MOST_CHOICES = 48
# the largest factor of a scheme's weights
MOST_FACTOR = 1_000
# what looks like a minus sign and is none in a number here
NO_MINUS = "\u2010\u2011\u2012\u2013\u2014\u2015\u207b\u2212\u2796\ufe58\ufe63\uff0d"

ORDER = "a line has position, part, command byte, name, operands"
TEXT = "text where bytes are due; tools/job_text.py make turns its lines into bytes"


def size(byte):
    """The bytes of a command."""
    return 1 + sum(width for _, (width, _) in COMMANDS[byte][2])


def operands(job, at):
    """The operands of the command at a position, by name."""
    values = {}
    end = at + 1
    for name, (width, signed) in COMMANDS[job[at]][2]:
        values[name] = int.from_bytes(job[end:end + width], "little", signed=signed)
        end += width
    return values


def encode(byte, values):
    """The bytes of a command."""
    parts = [bytes([byte])]
    for name, (width, signed) in COMMANDS[byte][2]:
        value = values.get(name, 0) if name in ENTRIES.get(byte, ()) else values[name]
        parts.append(value.to_bytes(width, "little", signed=signed))
    return b"".join(parts)


def plan_command(fed):
    """The bytes of a plan, in the form that a writer takes: `40` where the choices that are fed have room in it, else `41`."""
    return encode(0x41 if fed >> 32 else 0x40, {"fed": fed})


def commands(job):
    """The position and byte of each command, up to the first byte that is none, or begins one that is cut off, or stands after the end of
    the job, which is the plan, or, where a range was met, the end of part 3."""
    at, last = 0, ENDS[USUAL_ORDER[-1]]
    while at < len(job) and job[at] in COMMANDS and at + size(job[at]) <= len(job):
        yield at, job[at]
        if job[at] == 0x16:
            last = ENDS[RANGED_ORDER[-1]]
        at = len(job) if job[at] in last else at + size(job[at])


def order_of(job):
    """The parts in the order in which a job has them."""
    return RANGED_ORDER if any(byte == 0x16 for _, byte in commands(job)) else USUAL_ORDER


def choices_of(mask):
    if mask is None:
        return "names what is not there"
    return "choices " + " ".join(str(i) for i in range(mask.bit_length()) if mask >> i & 1) if mask else "no choice"


def time_of(minute):
    """Hours and minutes since the day began. Where the clocks change it is not what they show."""
    return f"{minute // 60:02}:{minute % 60:02}"


def product_of(l, r):
    return f"z{l}" if l == r else f"z{l} z{r}"


def sum_of(entries):
    """The sum of a row's entries times their choices."""
    said = ""
    for j, entry in enumerate(entries):
        if entry:
            sign = (" - " if said else "-") if entry < 0 else " + " if said else ""
            said += sign + (f"{abs(entry)} " if abs(entry) != 1 else "") + f"z{j}"
    return said or "0"


def less(b):
    """A number taken off, nothing where it is 0."""
    return f" - {b}" if b > 0 else f" + {-b}" if b else ""


class Meaning:
    """What the commands so far have named: the day's length, 0 where it is none of those that a day may have, the windows, the rows, the
    sets of the variables, the operands of the products, the masks of the terms that are ranges, how many terms and splits; and the last
    command. Where the first command is none of part 1, the register is somewhere else, and nothing is said for which it is needed."""

    def __init__(self):
        self.last, self.day, self.is_apart = None, USUAL_DAY, False
        self.windows, self.rows, self.sets, self.products, self.ranges, self.terms, self.splits = [], [], [], {}, {}, 0, 0

    def outside(self, tank, minute):
        """Whether a tank has windows and a minute is in none of them."""
        windows = [(start, end) for of, start, end in self.windows if of == tank]
        return bool(windows) and not any(start <= minute < end for start, end in windows)

    def union(self, *variables):
        """The union of variables' sets, None where one is not there."""
        sets = [self.sets[v] if v < len(self.sets) else None for v in variables]
        return None if None in sets else sets[0] | sets[1]

    def unfit(self, fed):
        """The rows that a plan doesn't fit."""
        return [k for k, (b, entries) in enumerate(self.rows) if sum(x for j, x in enumerate(entries) if fed >> j & 1) != b]

    def at_high(self, fed):
        """The ranges of which a plan feeds all choices."""
        ranges = [str(term) for term, mask in self.ranges.items() if mask & ~fed == 0]
        return f", terms {' '.join(ranges)} at high" if ranges else ""

    def row_form(self, v):
        """The form of `3B`."""
        if v["row"] >= len(self.rows) or v["i"] >= len(self.sets):
            return "names what is not there"
        b, entries = self.rows[v["row"]]
        return f"z{v['i']} ({sum_of(entries)}{less(b)})"

    def form(self, byte, v):
        """The form of a multiplier command `31` to `39`."""
        l, r = self.products.get(v["k"], ("_l", "_r")) if 0x35 <= byte <= 0x37 else (0, 0)
        return {
            0x31: "z{i}^2 - z{i}",
            0x32: "z{i} - z{i} z{j}",
            0x33: "z{i} - z{j} z{k}",
            0x34: "z{i} z{j} - z{k} z{l}",
            0x35: f"z{l} - z{{k}}",
            0x36: f"z{r} - z{{k}}",
            0x37: f"z{{k}} - z{l} - z{r} + 1",
            0x38: "z{i}",
            0x39: "1 - z{i}",
        }[byte].format(**v)

    def after(self, byte, v):
        """What a command means, and what it adds to what is named."""
        before, self.last = self.last, byte
        if before is None:
            self.is_apart = COMMANDS[byte][0] > 1
        if byte == 0x11:
            self.sets.append(1 << len(self.sets))
            time = f", {time_of(v['minute'])}" if v["minute"] < self.day else ""
            outside = ", in no window of its tank" if self.outside(v["tank"], v["minute"]) else ""
            return f"choice {len(self.sets) - 1}{time}{outside}"
        if byte in (0x12, 0x15, 0x16):
            if byte == 0x16:
                self.ranges[self.terms] = v["mask"]
            self.terms += 1
            misordered = ", low above high" if byte == 0x16 and v["low"] > v["high"] else ""
            return f"term {self.terms - 1}: {choices_of(v['mask'])}{misordered}"
        if byte == 0x13:
            self.windows.append((v["tank"], v["from"], v["to"]))
            times = f", {time_of(v['from'])} to {time_of(v['to'])}" if v["from"] < v["to"] <= self.day else ""
            return f"window {len(self.windows) - 1}{times}"
        if byte == 0x14:
            entries = [v[name] for name in ROW]
            self.rows.append((v["b"], entries))
            outside = ", names what is not there" if any(entries[len(self.sets):]) else ""
            return f"row {len(self.rows) - 1}: {sum_of(entries)} = {v['b']}{outside}"
        if byte == 0x18 and before == 0x10:
            self.day = v["length"] if v["length"] in DAYS else 0
            return f"{self.day // 60} hours" if self.day else ""
        if byte == 0x21 and self.is_apart:
            return f"z{v['l']} z{v['r']}"
        if byte == 0x21:
            k = len(self.sets)
            self.products[k] = v["l"], v["r"]
            self.sets.append(self.union(v["l"], v["r"]))
            return f"variable {k} = z{v['l']} z{v['r']}: {choices_of(self.sets[k])}"
        if byte == 0x22:
            self.splits += 1
            said = f"term {self.splits - 1} = {product_of(v['l'], v['r'])}"
            return said if self.is_apart else f"{said}: {choices_of(self.union(v['l'], v['r']))}"
        if byte == 0x23 and (before is None or before == 0x1F):
            return f"all weights times {v['factor']}" if 1 <= v["factor"] <= MOST_FACTOR else ""
        if byte == 0x30:
            return f"bound {-(-v['T'] // v['s'])}" if v["s"] else ""
        if 0x31 <= byte <= 0x39:
            return self.form(byte, v)
        if byte == 0x3B:
            return "" if self.is_apart else self.row_form(v)
        if byte in (0x40, 0x41):
            return choices_of(v["fed"]) + self.at_high(v["fed"]) + "".join(f", does not fit row {k}" for k in self.unfit(v["fed"]))
        return ""


def show(job):
    """The lines of a job."""
    meaning, end, lines = Meaning(), 0, []
    for at, byte in commands(job):
        values, end = operands(job, at), at + size(byte)
        part, name, forms = COMMANDS[byte]
        named = [(f, values[f], width) for f, (width, _) in forms if values[f] or f not in ENTRIES.get(byte, ())]
        shown = [f"{f} 0x{x:0{2 * width}X}" if f in HEXADECIMAL else f"{f} {x}" for f, x, width in named]
        said = meaning.after(byte, values)
        lines.append("  ".join([f"{at:05}", str(part), f"{byte:02X} {name:8}"] + shown + ([f"({said})"] if said else [])).rstrip())
    for start in range(end, len(job), 16):
        lines.append(f"{start:05}  -  raw  " + job[start:start + 16].hex(" ").upper())
    return lines


def range_of(width, signed):
    """The least and the largest number of an operand."""
    values = 1 << 8 * width
    return (-values // 2, values // 2 - 1) if signed else (0, values - 1)


def number_of(operand, word, width, signed):
    if word[0] in NO_MINUS:
        raise Trouble(f"{operand} {word}: write - before a negative number")
    try:
        number = int(word, 0)
    except ValueError:
        raise Trouble(f"{operand} {word} is no number: decimal without zeros before it, 0x and hexadecimal, or 0b and binary") from None
    low, high = range_of(width, signed)
    if not low <= number <= high:
        raise Trouble(f"{operand} {word} is not within {low} and {high}")
    return number


def values_of(byte, name, words):
    """The operands of a command, by name, of words that are names and numbers by turns."""
    forms, values = dict(COMMANDS[byte][2]), {}
    for operand, word in zip(words[::2], words[1::2]):
        if operand not in forms:
            raise Trouble(f"{name} has no operand {operand}")
        if operand in values:
            raise Trouble(f"{operand} is given twice")
        values[operand] = number_of(operand, word, *forms[operand])
    for operand in forms:
        if operand not in values and operand not in ENTRIES.get(byte, ()):
            raise Trouble(f"{operand} is missing")
    return values


def bytes_of(words):
    """The bytes of a line's words."""
    if len(words) < 3:
        raise Trouble(f"no command byte: {ORDER}")
    if words[2] == "raw":
        return raw(words[3:])
    byte = int(words[2], 16) if re.fullmatch("(0x)?[0-9A-Fa-f]{2}", words[2]) else None
    if byte not in COMMANDS:
        raise Trouble(f"{words[2]} is no command byte: {ORDER}")
    _, name, operands = COMMANDS[byte]
    if len(words) > 3 and len(words) % 2:
        missing = f"the name {name} is missing before {words[3]}: {ORDER}"
        raise Trouble(missing if words[3] in dict(operands) else f"{words[-1]} has no number")
    return encode(byte, values_of(byte, name, words[4:]))


def raw(words):
    try:
        return bytes.fromhex("".join(words))
    except ValueError:
        raise Trouble("what stands after raw is no row of bytes, two hexadecimal digits each") from None


def lines_of(data):
    """The lines of a text, None where bytes are none."""
    try:
        text = data.decode("utf-8-sig")
    except UnicodeDecodeError:
        return None
    return None if re.search("[\x00-\x08\x0E-\x1F\x7F]", text) else re.split("\r\n|\r|\n", text)


def is_text(data):
    """Whether bytes are a text for `make` and not a job: its first word is a position, or `-`, or begins with `#`."""
    words = [word for line in lines_of(data) or () for word in line.split()]
    return bool(words) and (words[0] == "-" or words[0].startswith("#") or words[0].isdecimal())


def job_in(file):
    """The bytes of a file that is not to be a text for `make`."""
    data = read(file)
    if is_text(data):
        raise Trouble(f"{file}: {TEXT}")
    return data


def make(lines):
    """The bytes of such lines."""
    job = b""
    for number, line in enumerate(lines, 1):
        words = line.split("(")[0].split()
        if words and not words[0].startswith("#"):
            try:
                job += bytes_of(words)
            except Trouble as trouble:
                raise Trouble(f"line {number}: {trouble}") from None
    return job


def cut(job):
    """The four parts of a job, in its order, the last being all that stands behind the third; fewer where commands of a part don't lead
    to its end."""
    order, parts, start = order_of(job), [], 0
    for at, byte in commands(job):
        part = order[len(parts)]
        if part == order[-1] or COMMANDS[byte][0] != part:
            break
        if byte in ENDS[part]:
            end = at + size(byte)
            parts.append(job[start:end])
            start = end
    return parts + [job[start:]] if len(parts) == len(order) - 1 else parts


def register_of(job):
    """The bytes up to the end of part 1, None where commands of part 1 don't lead to it."""
    return next(iter(cut(job)), None)


def blank(job):
    """The bytes with 0 for each operand that is hidden from the supplier."""
    blanked = b""
    for at, byte in commands(job):
        blanked += encode(byte, {name: 0 if name in HIDDEN else value for name, value in operands(job, at).items()})
    return blanked + job[len(blanked):]


def made(file):
    """The bytes of the lines in a file."""
    lines = lines_of(read(file))
    if lines is None:
        raise Trouble(f"{file}: bytes where text in UTF-8 is due; tools/job_text.py show prints the lines of a job")
    try:
        return make(lines)
    except Trouble as trouble:
        raise Trouble(f"{file}: {trouble}") from None


def first_part(file):
    register = register_of(job_in(file))
    if register is None:
        raise Trouble(f"{file}: part 1 has no end")
    return register


def write_parts(file, name):
    if not name or name.endswith("/"):
        raise Misuse(f"NAME is to be what the names of four files begin with, and {f'ends with /: {name}' if name else 'is empty'}")
    job = job_in(file)
    order, parts = order_of(job), cut(job)
    if len(parts) < len(order):
        raise Trouble(f"{file}: part {order[len(parts)]} has no end")
    for part, run_of_bytes in zip(order, parts):
        write(f"{name}.{PARTS[part]}", run_of_bytes)
    return b""


def fed_by(lines, choices, register):
    """The mask of the choices that lines of a listing name."""
    fed, is_listing = 0, False
    for number, line in enumerate(lines, 1):
        words = line.split()
        if not words:
            continue
        is_listing = True
        if words[0] == "R":
            raise Trouble(f"line {number}: {line} is a refusal and no plan")
        if words[0] not in ("F", "T", "S", "B"):
            raise Trouble(f"line {number}: {line} is no line of cheapest or feedcheck")
        if words[0] == "F":
            if words[1:] not in choices:
                raise Trouble(f"line {number}: {line} names no choice of {register}")
            bit = 1 << choices.index(words[1:])
            if fed & bit:
                raise Trouble(f"line {number}: {line} stands there twice")
            fed |= bit
    if not is_listing:
        raise Trouble("no line of cheapest or feedcheck")
    return fed


def plan_of(register, file):
    """Part 4, by the choices of a register and the lines of a file."""
    part = first_part(register)
    found = [operands(part, at) for at, byte in commands(part) if byte == 0x11]
    if len(found) > MOST_CHOICES:
        raise Trouble(f"{register}: {len(found)} choices, and {MOST_CHOICES} are allowed")
    lines = lines_of(read(file))
    if lines is None:
        raise Trouble(f"{file}: bytes where lines of cheapest or feedcheck are due")
    try:
        return plan_command(fed_by(lines, [[str(v["tank"]), str(v["minute"])] for v in found], register))
    except Trouble as trouble:
        raise Trouble(f"{file}: {trouble}") from None


# what the tool does, by its first word: the names of the words that follow, and what is then written to standard output
CALLS = {
    "show": (("FILE",), lambda file: "".join(line + "\n" for line in show(job_in(file)))),
    "make": (("FILE",), made),
    "register": (("FILE",), first_part),
    "cut": (("FILE", "NAME"), write_parts),
    "blank": (("FILE",), lambda file: blank(job_in(file))),
    "plan": (("REGISTER", "LINES"), plan_of),
}


def main(words):
    if not words or words[0] not in CALLS:
        raise Misuse(f"{words[0]} is none of {', '.join(CALLS)}" if words else f"one of {', '.join(CALLS)} is missing")
    names, call = CALLS[words[0]]
    put(call(*expect(words[1:], *names)))
    return 0


if __name__ == "__main__":
    run(__doc__, main)
