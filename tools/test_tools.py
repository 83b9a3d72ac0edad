#!/usr/bin/env python3
"""Tries the tools as programs, and the scripts in `compare` and here as far as they look at their arguments: the status, what is on
standard output, and what is on standard error, which is nothing or one line and never a traceback.

    tools/test_tools.py
"""
import ast
import errno
import os
import pathlib
import shutil
import subprocess
import sys
import tempfile

sys.dont_write_bytecode = True

from check_job import Job, both, farm, rest, supplier, text
from command_line import expect, run, tally
from job_text import ENDS, PARTS, TEXT, blank, cut, order_of, show, size

ROOT = pathlib.Path(__file__).resolve().parent.parent
EXAMPLES = ROOT / "examples"
JOB_TEXT, CHECK_JOB, CHEAPEST, FINISH, QUBO = (f"tools/{name}.py" for name in (
    "job_text", "check_job", "cheapest", "finish_certificate", "penalty_qubo"))
COSTLIEST, KEPT = "tools/costliest.py", "tools/kept_vectors.py"
PORT, COUNT = "tools/port_names.py", "tools/count_places.py"
TOOLS = (JOB_TEXT, CHECK_JOB, CHEAPEST, FINISH, QUBO, COSTLIEST, KEPT, PORT, COUNT)
SCRIPTS = ("compare/run", "compare/speed", "compare/search_speed", "compare/turns", "tools/programs", "tools/libraries")

HINT = "; --help tells how it is called"
MISSING, FOLDER, CLOSED, FULL = (os.strerror(number) for number in (errno.ENOENT, errno.EISDIR, errno.EPIPE, errno.ENOSPC))

# without what Python takes from it, for example whether to write at once
ENVIRONMENT = {name: value for name, value in os.environ.items() if not name.startswith("PYTHON")}

# a job that is accepted, one that is refused in part 1, one that is refused 9, and one that is refused for its target alone
EXAMPLE, OUTSIDE, SHORT, HIGH = (f"examples/{name}.job" for name in (
    "example", "windows.night.bad-outside", "raceway.four.bad-no-form", "labs05.csdp.bad-t-up"))
REGISTER, NONE_FITS = "examples/example.register", "examples/raceway.none.register"
# a register, two schemes for it, and the form of the first
PAIR, ONCE, TWICE, FORM = (f"examples/weights.pair.{kind}" for kind in ("register", "scheme", "twice.scheme", "qubo"))


def bytes_in(file):
    return (ROOT / file).read_bytes()


def lines(of, file):
    return text(of(Job(bytes_in(file)))).encode()


def usage_of(tool):
    return ast.get_docstring(ast.parse(bytes_in(tool)), clean=False).encode()


def is_plan(register, plan, said):
    """Whether the bytes of a plan feed what the lines of a search say, at the cost that they say."""
    read, fed = Job(register), int.from_bytes(plan[1:], "little")
    read.register()
    cost = read.total(fed, read.lows())
    head = b"\x41" if fed >= 2 ** 32 else b"\x40"
    return plan[:1] == head and len(plan) == size(plan[0]) and read.feedings(fed) == said[:-1] and cost == int(said[-1].split()[1])


class Trials:
    """What was tried, in a folder of its own. A file that is not there, lines for `make`, and lines of which one is wrong."""

    def __init__(self, folder):
        self.all, self.folder = [], folder
        self.none, self.wrong, self.lines = f"{folder}/none.job", f"{folder}/wrong.txt", f"{folder}/lines.txt"
        pathlib.Path(self.lines).write_text("# a register\n-  1  10 base  cost 1\n-  1  11 choice  tank 1  minute 1\n-  1  1F end\n")
        pathlib.Path(self.wrong).write_text("-  1  10 base  cost 10\n\n-  1  11 choice  tank 4  minute 70000\n")

    def expect(self, said, holds):
        self.all.append((said, holds))

    def call(self, words, status, out=b"", said="", stdout=subprocess.PIPE, given=b""):
        """A tool must end with a status, have so much on standard output, and one line on standard error, or nothing."""
        done = subprocess.run(words, cwd=ROOT, input=given, stdout=stdout, stderr=subprocess.PIPE, env=ENVIRONMENT)
        expected = f"{words[0]}: {said}\n".encode() if said else b""
        called = " ".join(words)
        self.expect(f"status {done.returncode} and not {status}: {called}", done.returncode == status)
        self.expect(f"something else on standard output: {called}", stdout != subprocess.PIPE or done.stdout == out)
        self.expect(f"not on standard error: {called}: {expected}, but {done.stderr}", done.stderr == expected)

    def usage(self, tool):
        for word in ("--help", "-h"):
            self.call([tool, word], 0, usage_of(tool))

    def misuse(self, tool, said, *words):
        self.call([tool, *words], 2, said=said + HINT)

    def wrong_file(self, tool, *words, after=()):
        """What is no file that can be read, behind some words and before others."""
        self.call([tool, *words, self.none, *after], 2, said=f"{self.none}: {MISSING}")
        self.call([tool, *words, "examples", *after], 2, said=f"examples: {FOLDER}")
        if os.path.exists("/proc/self/mem"):
            self.call([tool, *words, "/proc/self/mem", *after], 2, said=f"/proc/self/mem: {os.strerror(errno.EIO)}")

    def wrong_output(self, status, *words):
        """A standard output that nobody reads, and one that takes nothing."""
        reading, writing = os.pipe()
        os.close(reading)
        with os.fdopen(writing, "wb") as nobody:
            self.call(words, status, stdout=nobody)
        if os.path.exists("/dev/full"):
            with open("/dev/full", "wb") as full:
                self.call(words, 2, said=f"standard output: {FULL}", stdout=full)

    def job_text(self):
        for word in ("show", "make", "register", "blank"):
            self.wrong_file(JOB_TEXT, word)
            self.misuse(JOB_TEXT, "FILE is missing", word)
            self.misuse(JOB_TEXT, f"{REGISTER} is a word too many", word, EXAMPLE, REGISTER)
            self.misuse(JOB_TEXT, "--both is no option here", word, "--both", EXAMPLE)
            self.misuse(JOB_TEXT, "- is no option here", word, "-")
        self.misuse(JOB_TEXT, "one of show, make, register, cut, blank, plan is missing")
        self.misuse(JOB_TEXT, f"{EXAMPLE} is none of show, make, register, cut, blank, plan", EXAMPLE)
        for word, of in (("show", lambda job: text(show(job)).encode()), ("register", lambda job: cut(job)[0]), ("blank", blank)):
            self.call([JOB_TEXT, word, EXAMPLE], 0, of(bytes_in(EXAMPLE)))
            self.call([JOB_TEXT, word, self.lines], 2, said=f"{self.lines}: {TEXT}")
            self.wrong_output(0, JOB_TEXT, word, EXAMPLE)
        self.call([JOB_TEXT, "register", "README.md"], 2, said=f"README.md: {TEXT}")
        self.call([JOB_TEXT, "register", "examples/example.out"], 2, said="examples/example.out: part 1 has no end")
        self.call([JOB_TEXT, "make", self.lines], 0, bytes.fromhex("10 01000000 11 0100 0100 1F"))
        self.wrong_output(0, JOB_TEXT, "make", self.lines)
        self.call([JOB_TEXT, "make", self.wrong], 2, said=f"{self.wrong}: line 3: minute 70000 is not within 0 and 65535")
        for file in (EXAMPLE, REGISTER, OUTSIDE):
            said = f"{file}: bytes where text in UTF-8 is due; tools/job_text.py show prints the lines of a job"
            self.call([JOB_TEXT, "make", file], 2, said=said)

    def cut(self):
        self.wrong_file(JOB_TEXT, "cut", after=(f"{self.folder}/cut",))
        self.misuse(JOB_TEXT, "FILE is missing", "cut")
        self.misuse(JOB_TEXT, "NAME is missing", "cut", EXAMPLE)
        self.misuse(JOB_TEXT, "c is a word too many", "cut", "a", "b", "c")
        for path in sorted(EXAMPLES.glob("*.job")):
            job = path.read_bytes()
            names = [f"{self.folder}/cut.{PARTS[part]}" for part in order_of(job)]
            if len(cut(job)) == len(PARTS):
                self.call([JOB_TEXT, "cut", str(path), f"{self.folder}/cut"], 0)
                self.expect(f"not the job: {path.name}", b"".join(bytes_in(name) for name in names) == job)
                self.expect(f"not part 1: {path.name}", bytes_in(names[0]) == cut(job)[0])
                plan, certificate = (bytes_in(f"{self.folder}/cut.{part}")[:1] for part in ("plan", "certificate"))
                self.expect(f"not parts 4 and 3: {path.name}", plan[0] in ENDS[4] and certificate == b"\x30")
                for name in names:
                    os.remove(name)
            else:
                said = f"{path}: part {order_of(job)[len(cut(job))]} has no end"
                self.call([JOB_TEXT, "cut", str(path), f"{self.folder}/cut"], 2, said=said)
                self.expect(f"a file was written: {path.name}", not any(map(os.path.exists, names)))
        behind = "examples/prices.quoted.bad-behind.job"
        for file, part in ((REGISTER, 2), ("examples/example.bad-more.register", 2), ("examples/example.out", 1), (behind, 4)):
            self.call([JOB_TEXT, "cut", file, f"{self.folder}/cut"], 2, said=f"{file}: part {part} has no end")
        self.call([JOB_TEXT, "cut", self.lines, f"{self.folder}/cut"], 2, said=f"{self.lines}: {TEXT}")
        self.expect("a file was written", not any(map(os.path.exists, names)))
        self.call([JOB_TEXT, "cut", EXAMPLE, f"{self.folder}/no/cut"], 2, said=f"{self.folder}/no/cut.register: {MISSING}")
        for name, said in (("", "is empty"), (f"{self.folder}/", f"ends with /: {self.folder}/")):
            self.misuse(JOB_TEXT, f"NAME is to be what the names of four files begin with, and {said}", "cut", EXAMPLE, name)
        hidden = [path for folder in (ROOT, pathlib.Path(self.folder)) for path in folder.iterdir() if path.name[1:] in PARTS.values()]
        self.expect(f"files were written: {hidden}", not hidden)

    def plan(self):
        self.misuse(JOB_TEXT, "REGISTER is missing", "plan")
        self.misuse(JOB_TEXT, "LINES is missing", "plan", REGISTER)
        self.misuse(JOB_TEXT, "x is a word too many", "plan", REGISTER, "-", "x")
        self.misuse(JOB_TEXT, "- is no option here", "plan", "-", "-")
        self.misuse(JOB_TEXT, "--in is no option here", "plan", REGISTER, "--in")
        self.wrong_file(JOB_TEXT, "plan", after=("-",))
        self.wrong_file(JOB_TEXT, "plan", REGISTER)
        self.wrong_output(0, JOB_TEXT, "plan", REGISTER, "examples/example.out")
        # what is printed of each accepted job, and the lines of each search that finds a plan, whose cost is then that of its bytes
        for path in sorted(EXAMPLES.glob("*.out")):
            job = path.with_suffix(".job")
            if not path.read_bytes().startswith(b"R"):
                parts = dict(zip(order_of(job.read_bytes()), cut(job.read_bytes())))
                self.call([JOB_TEXT, "plan", str(job), str(path)], 0, parts[4])
        for path in sorted(EXAMPLES.glob("*.cheapest")):
            register, said = path.with_suffix(".register"), path.read_text().splitlines()
            if not said[0].startswith("R"):
                found = subprocess.run([JOB_TEXT, "plan", str(register), "-"], cwd=ROOT, input=path.read_bytes(), capture_output=True)
                self.expect(f"not the plan: {path.name}", is_plan(register.read_bytes(), found.stdout, said))
        self.call([JOB_TEXT, "plan", REGISTER, "-"], 0, bytes.fromhex("40 04000000"), given=b"T x\r\n\r\nF 7 480\r\nS 9 9")
        self.call([JOB_TEXT, "plan", REGISTER, "-"], 0, bytes.fromhex("40 00000000"), given=b"S 10 1\n")
        no_line = "is no line of cheapest or feedcheck"
        for given, said in (
            (b"R 16 0\n", "line 1: R 16 0 is a refusal and no plan"),
            (b"F 4 480\nC 0 1\n", f"line 2: C 0 1 {no_line}"),
            (b"Fed 4 480\n", f"line 1: Fed 4 480 {no_line}"),
            (b"F 4 480\nF 4 481\n", f"line 2: F 4 481 names no choice of {REGISTER}"),
            (b"F 480 4\n", f"line 1: F 480 4 names no choice of {REGISTER}"),
            (b"F 4\n", f"line 1: F 4 names no choice of {REGISTER}"),
            (b"F 4 480 0\n", f"line 1: F 4 480 0 names no choice of {REGISTER}"),
            (b"F 4 480\nF 4 720\nF 4 480\n", "line 3: F 4 480 stands there twice"),
            (b"\n", "no line of cheapest or feedcheck"),
            (b"", "no line of cheapest or feedcheck"),
            (bytes_in(EXAMPLE), "bytes where lines of cheapest or feedcheck are due"),
        ):
            file = pathlib.Path(self.folder, "my.lines")
            file.write_bytes(given)
            self.call([JOB_TEXT, "plan", REGISTER, str(file)], 2, said=f"{file}: {said}")
            self.call([JOB_TEXT, "plan", REGISTER, "-"], 2, said=f"-: {said}", given=given)
        self.call([JOB_TEXT, "plan", self.lines, "-"], 2, said=f"{self.lines}: {TEXT}")
        self.call([JOB_TEXT, "plan", "examples/example.out", "-"], 2, said="examples/example.out: part 1 has no end")
        many = pathlib.Path(self.folder, "many.register")
        many.write_bytes(b"".join(bytes([0x11, tank, 0, 0, 0]) for tank in range(49)) + b"\x1F")
        self.call([JOB_TEXT, "plan", str(many), "-"], 2, said=f"{many}: 49 choices, and 48 are allowed", given=b"F 48 0\n")
        many.write_bytes(many.read_bytes()[5:])
        # choice i is tank i + 1: the last that `40` has room for, the first that it has not, the last of all, and all of them
        everything = "".join(f"F {tank} 0\n" for tank in range(1, 49)).encode()
        for given, plan in (
            (b"F 32 0\n", "40 00000080"),
            (b"F 33 0\n", "41 0000000001000000"),
            (b"F 48 0\nF 1 0\n", "41 0100000000800000"),
            (everything[:everything.index(b"F 33 ")], "40 FFFFFFFF"),
            (everything, "41 FFFFFFFFFFFF0000"),
        ):
            self.call([JOB_TEXT, "plan", str(many), "-"], 0, bytes.fromhex(plan), given=given)

    def check_job(self):
        self.misuse(CHECK_JOB, "FILE is missing")
        self.misuse(CHECK_JOB, "--tank is no option here", "--tank", EXAMPLE)
        self.misuse(CHECK_JOB, f"{OUTSIDE} is a word too many", EXAMPLE, OUTSIDE)
        for words, of in (((), farm), (("--supplier",), supplier), (("--both",), both), (("--rest",), rest)):
            self.wrong_file(CHECK_JOB, *words)
            self.wrong_output(0, CHECK_JOB, *words, EXAMPLE)
            self.wrong_output(1, CHECK_JOB, *words, SHORT)
            self.call([CHECK_JOB, *words, EXAMPLE], 0, lines(of, EXAMPLE))
            self.call([CHECK_JOB, *words, SHORT], 1, lines(of, SHORT))
            if words:
                self.misuse(CHECK_JOB, "FILE is missing", *words)
                self.misuse(CHECK_JOB, f"{words[0]} is no option here", EXAMPLE, words[0])
            if of != rest:
                self.call([CHECK_JOB, *words, OUTSIDE], 1, lines(of, OUTSIDE))
                self.call([CHECK_JOB, *words, self.lines], 1, lines(of, self.lines), said=f"{self.lines}: {TEXT}")
        no_rest = "refused before `3F`, so there is no R to print"
        self.call([CHECK_JOB, "--rest", OUTSIDE], 1, said=f"{OUTSIDE}: {no_rest}: R 13 45")
        self.call([CHECK_JOB, "--rest", self.lines], 1, said=f"{self.lines}: {no_rest}: R 1 0; {TEXT}")
        self.call([CHECK_JOB, "examples/example.out"], 1, b"R 1 0\n")
        self.compare(CHECK_JOB, "example.job", "example.out")

    def compare(self, tool, name, expected):
        """A comparison of a folder with one file: with the lines of the file, with others, without them, and without the file."""
        self.misuse(tool, "DIR is missing", "--compare")
        self.call([tool, "--compare", self.none], 2, said=f"{self.none}: {MISSING}")
        self.call([tool, "--compare", EXAMPLE], 2, said=f"{EXAMPLE}: {os.strerror(errno.ENOTDIR)}")
        with tempfile.TemporaryDirectory() as folder:
            self.call([tool, "--compare", folder], 1, b"0 passed, 0 failed\n")
            shutil.copy(EXAMPLES / name, folder)
            self.call([tool, "--compare", folder], 2, said=f"{folder}/{expected}: {MISSING}")
            shutil.copy(EXAMPLES / expected, folder)
            self.call([tool, "--compare", folder], 0, b"1 passed, 0 failed\n")
            pathlib.Path(folder, expected).write_bytes(b"\xFF")
            said = name if tool == CHEAPEST else expected
            self.call([tool, "--compare", folder], 1, f"not the expected lines: {said}\n0 passed, 1 failed\n".encode())

    def cheapest(self):
        self.wrong_file(CHEAPEST)
        self.wrong_file(CHEAPEST, "--limit", "9")
        self.wrong_output(0, CHEAPEST, REGISTER)
        self.misuse(CHEAPEST, "FILE is missing")
        self.misuse(CHEAPEST, "N is missing", "--limit")
        self.misuse(CHEAPEST, "FILE is missing", "--limit", "9")
        self.misuse(CHEAPEST, "--both is no option here", "--both", REGISTER)
        for number in ("x", "1.5", "4294967296", "9" * 5_000):
            self.misuse(CHEAPEST, f"N is to be a whole number from 0 to 4294967295, and is {number}", "--limit", number, REGISTER)
        self.call([CHEAPEST, REGISTER], 0, b"F 4 480\nF 4 720\nS 0 9\n")
        self.call([CHEAPEST, "--limit", "9", REGISTER], 0, b"F 4 480\nF 4 720\nS 0 9\n")
        self.call([CHEAPEST, "--limit", "8", REGISTER], 1, b"R 14 0\n")
        self.call([CHEAPEST, EXAMPLE], 1, b"R 12 48\n")
        self.call([CHEAPEST, NONE_FITS], 1, b"R 16 0\n")
        large = b"F 1 120\nF 1 1320\nF 6 360\nF 6 600\nF 8 1080\nS 18 327\n"
        self.call([CHEAPEST, "examples/large.register"], 0, large)
        self.call([CHEAPEST, "--limit", "327", "examples/large.register"], 0, large)
        self.call([CHEAPEST, "--limit", "326", "examples/large.register"], 1, b"R 14 0\n")
        ranged = b"F 2 360\nF 2 720\nF 5 360\nF 5 720\nF 9 1080\nS 46 65\n"
        self.call([CHEAPEST, "examples/prices.quoted.register"], 0, ranged)
        self.call([CHEAPEST, self.lines], 1, b"R 1 0\n", said=f"{self.lines}: {TEXT}")
        self.compare(CHEAPEST, "example.register", "example.cheapest")

    def costliest(self):
        self.misuse(COSTLIEST, "M is missing")
        self.misuse(COSTLIEST, "D is missing", "2")
        self.misuse(COSTLIEST, "4 is a word too many", "2", "3", "4")
        self.misuse(COSTLIEST, "-1 is no option here", "-1", "3")
        for number in ("x", "1.5", "", "4294967296", "9" * 5_000):
            said = f"is to be a whole number from 0 to 4294967295, and is {number}"
            self.misuse(COSTLIEST, f"M {said}", number, "3")
            self.misuse(COSTLIEST, f"D {said}", "2", number)
        self.wrong_output(0, COSTLIEST, "2", "3")
        choices = "11 0100 0000 11 0100 0100 11 0100 0200"
        one = bytes.fromhex(f"10 00000000 {choices} 12 07000000 01000000 1F")
        choices += "11 0100 0300 11 0100 0400 11 0100 0500"
        two = bytes.fromhex(f"10 00000000 {choices} 12 07000000 01000000 12 38000000 01000000 1F")
        self.call([COSTLIEST, "1", "3"], 0, one)
        self.call([COSTLIEST, "2", "3"], 0, two)
        # check_job.py reads them to their ends, where it misses part 2
        file = pathlib.Path(self.folder, "my.register")
        for m, d, end, terms in (
            (1, 32, 175, "12 FFFFFFFF 01000000"),
            (2, 16, 184, "12 FFFF0000 01000000 12 0000FFFF 01000000"),
            (8, 4, 238, "12 0F000000 01000000 12 F0000000 01000000 12 000F0000 01000000 12 00F00000 01000000"
                        "12 00000F00 01000000 12 0000F000 01000000 12 0000000F 01000000 12 000000F0 01000000"),
            (10, 3, 246, "12 07000000 01000000 12 38000000 01000000 12 C0010000 01000000 12 000E0000 01000000 12 00700000 01000000"
                         "12 00800300 01000000 12 00001C00 01000000 12 0000E000 01000000 12 00000007 01000000 12 00000038 01000000"),
        ):
            choices = b"".join(bytes([0x11, 1, 0, minute, 0]) for minute in range(m * d))
            register = bytes.fromhex("10 00000000") + choices + bytes.fromhex(terms) + bytes.fromhex("1F")
            self.call([COSTLIEST, str(m), str(d)], 0, register)
            file.write_bytes(register)
            self.call([CHECK_JOB, str(file)], 1, f"R 2 {end}\n".encode())
        # 1,073,741,825 times 4 is 2 to the power 32 and 4
        for m, d in ((0, 3), (1, 2), (1, 33), (11, 3), (1_073_741_825, 4), (4_294_967_295, 4_294_967_295)):
            said = f"M {m} and D {d}: R 18, since M is 0, D is below 3 or above 32, or M times D is above 32"
            self.call([COSTLIEST, str(m), str(d)], 1, said=said)

    def kept(self):
        """Vectors of the costliest register, right ones and ones with a fault each."""
        self.misuse(KEPT, "FOLDER is missing")
        self.misuse(KEPT, "x is a word too many", self.folder, "x")
        self.call([KEPT, self.none], 2, said=f"{self.none}: {MISSING}")
        folder = pathlib.Path(self.folder, "vectors")
        folder.mkdir()
        self.call([KEPT, str(folder)], 1, b"0 passed, 0 failed, 0 not judged\n")
        written = "10000000001101000000110100010011010002001207000000010000001F"
        right = ["a 1 3 30 0 0 0 30 " + written, f"b 1 3 31 0 0 0 30 {written}AA", "c 1 3 29 11 0 0 0 " + "AA" * 29]
        right += ["d 1 3 0 11 0 0 0 -", "e 11 3 0 18 0 0 0 -", "f 1 2 2 18 0 0 0 AAAA", "g 1073741825 4 1 18 0 0 0 AA"]
        wrong = ["h 1 3 30 0 0 0 31 " + written, f"i 1 3 31 0 0 0 30 {written}AB", "j 1 3 29 18 0 0 0 " + "AA" * 29]
        wrong += ["k 11 3 0 11 0 0 0 -", "l 1 2 2 18 1 0 0 AAAA", "m 1 3 30 0 0 0 30 " + written.replace("1207", "1203")]
        (folder / "costliest.txt").write_text("\n".join(["# a comment", *right, ""]))
        self.call([KEPT, str(folder)], 0, b"7 passed, 0 failed, 0 not judged\n")
        (folder / "costliest.txt").write_text("\n".join(right + wrong))
        said = "".join(f"does not hold: costliest.txt {name}\n" for name in "hijklm") + "7 passed, 6 failed, 0 not judged\n"
        self.call([KEPT, str(folder)], 1, said.encode())
        (folder / "costliest.txt").write_text("a 1 3\n")
        self.call([KEPT, str(folder)], 2, said=f"{folder}/costliest.txt: a line that is none of this call's")

    def finish(self):
        out = pathlib.Path(self.folder, "out.job")
        self.wrong_file(FINISH, after=(str(out),))
        self.misuse(FINISH, "IN is missing")
        self.misuse(FINISH, "OUT is missing", EXAMPLE)
        self.misuse(FINISH, "x is a word too many", EXAMPLE, str(out), "x")
        self.call([FINISH, self.lines, str(out)], 2, said=f"{self.lines}: {TEXT}")
        said = "the job is refused, whatever its target and its squares; nothing is written"
        self.call([FINISH, OUTSIDE, str(out)], 1, b"R 13 45\n", said=f"{OUTSIDE}: {said}")
        self.expect("a file was written", not out.exists())
        self.call([FINISH, HIGH, self.folder], 2, said=f"{self.folder}: {FOLDER}")
        self.call([FINISH, HIGH, str(out)], 0, b"B 2 2 0\n")
        finished = out.read_bytes()
        self.expect("not accepted", not farm(Job(finished))[0].startswith("R"))
        out.write_bytes(bytes_in(HIGH))
        self.call([FINISH, str(out), str(out)], 0, b"B 2 2 0\n")
        self.expect("something else where both files are the same", out.read_bytes() == finished)
        said = "its own certificate is accepted with T 0, finished it has T 0; the job is written unchanged"
        self.call([FINISH, EXAMPLE, str(out)], 0, b"B 0 0 0\n", said=f"{EXAMPLE}: {said}")
        self.expect("not unchanged", out.read_bytes() == bytes_in(EXAMPLE))
        out.unlink()
        self.wrong_output(0, FINISH, HIGH, str(out))
        self.expect("no file was written", out.read_bytes() == finished)

    def qubo(self):
        for words in (["qubo"], ["list"], ["sample", FORM, "101"]):
            self.wrong_file(QUBO, *words)
            self.wrong_file(QUBO, *words, PAIR)
            self.wrong_file(QUBO, *words, after=(ONCE,))
            self.misuse(QUBO, "FILE is missing", *words)
            self.misuse(QUBO, f"{TWICE} is a word too many", *words, PAIR, ONCE, TWICE)
            self.misuse(QUBO, "--in is no option here", *words, PAIR, "--in")
            self.misuse(QUBO, "- is no option here", *words, "-")
            self.wrong_output(0, QUBO, *words, PAIR, ONCE)
            # refused in part 1 and in part 2, in one file and in two, also for what stands behind a part by itself
            for files, said in (
                ((OUTSIDE,), f"{OUTSIDE}: R 13 45, in part 1"),
                ((OUTSIDE, ONCE), f"{OUTSIDE}: R 13 45, in part 1"),
                ((PAIR,), f"{PAIR}: R 2 34, in part 2"),
                ((EXAMPLE, ONCE), f"{EXAMPLE}: R 12 48, in part 1"),
                ((PAIR, PAIR), f"{PAIR}: R 1 0, in part 2"),
                ((PAIR, EXAMPLE), f"{EXAMPLE}: R 1 0, in part 2"),
                ((REGISTER, ONCE), f"{ONCE}: R 8 3, in part 2"),
                (("examples/weights.one.bad-zero.job",), "examples/weights.one.bad-zero.job: R 4 48, in part 2"),
            ):
                self.call([QUBO, *words, *files], 1, said=said)
            self.call([QUBO, *words, self.lines, ONCE], 2, said=f"{self.lines}: {TEXT}")
            self.call([QUBO, *words, PAIR, self.lines], 2, said=f"{self.lines}: {TEXT}")
        self.misuse(QUBO, "one of qubo, list, sample is missing")
        self.misuse(QUBO, f"{PAIR} is none of qubo, list, sample", PAIR)
        self.misuse(QUBO, "FORM is missing", "sample")
        self.misuse(QUBO, "BITS is missing", "sample", FORM)
        self.call([QUBO, "qubo", PAIR, ONCE], 0, bytes_in(FORM))
        self.call([QUBO, "qubo", PAIR, TWICE], 0, bytes_in("examples/weights.pair.twice.qubo"))
        listed = b"# vartype=BINARY\n# energy + constant = value of the penalty form\n# constant 10\n"
        listed += b"0 0 -6\n1 1 -4\n2 2 0\n3 3 15\n0 1 5\n0 3 -10\n1 3 -10\n2 3 5\n"
        square = "examples/example.square.job"
        self.call([QUBO, "list", square], 0, listed)
        form = pathlib.Path(self.folder, "my.list")
        form.write_bytes(listed)
        sampled = b"# energy -5\n# value 5\n# product 3, of weight 5, is 0, and z0 z1 is 1\n# cost 0\n"
        sampled += b"-  4  40 plan      fed 0x00000003  (choices 0 1)\n"
        self.call([QUBO, "sample", str(form), "1100", square], 0, sampled)
        self.call([QUBO, "sample", str(form), "-", square], 0, sampled, given=b"1 1\n0 0\n")
        self.call([JOB_TEXT, "make", "/dev/stdin"], 0, bytes.fromhex("40 03000000"), given=sampled)
        self.call([QUBO, "sample", str(form), "-", square], 2, said="-: BITS are to be digits 0 and 1", given=b"\xFF")
        self.call([QUBO, "sample", str(form), "11", square], 2, said="11: 2 digits, and 4 are due, one for each variable")
        self.wrong_file(QUBO, "sample", after=("1100", square))
        self.call([QUBO, "sample", square, "1100", square], 2, said=f"{square}: bytes where the text of a form is due")
        said = f"{FORM}: the constant is 0, and 10 is due"
        self.call([QUBO, "sample", FORM, "1100", square], 2, said=said)
        said = f"{FORM}: not the form of this register and scheme: 0 1 has 1, and 2 is due"
        self.call([QUBO, "sample", FORM, "101", PAIR, TWICE], 2, said=said)

    def past(self):
        """The tools of past landings."""
        kept, page = pathlib.Path(self.folder, "kept"), "`tableValue`\n"
        kept.mkdir()
        (kept / "page.md").write_text(page)
        self.misuse(PORT, "FOLDER is missing")
        self.misuse(PORT, "--all is no option here", str(kept), "--all")
        self.call([PORT, str(kept), self.none], 2, said=f"{self.none} is no folder")
        self.call([PORT, str(kept), "--help"], 0, usage_of(PORT))
        self.expect("a file was changed", (kept / "page.md").read_text() == page)
        self.call([PORT, str(kept)], 0, b"port_names: 1 files changed\n")
        self.expect("no file was changed", (kept / "page.md").read_text() == "`table_value`\n")
        self.misuse(COUNT, "--all is no option here", "--all")
        self.misuse(COUNT, "1a is none of the points 1 2 3", "--second", "1a")
        for word in ("8", "1z", "", "crates"):
            done = subprocess.run([COUNT, word], cwd=ROOT, capture_output=True, env=ENVIRONMENT, text=True)
            said = f"{COUNT}: {word} is none of the points 1 1a "
            self.expect(f"taken for a point: {word}", done.returncode == 2 and not done.stdout and done.stderr.startswith(said))
        for words in ([], ["1"], ["1a", "7"], ["--sum"], ["--second", "--sum", "3"]):
            done = subprocess.run([COUNT, *words], cwd=ROOT, capture_output=True, env=ENVIRONMENT)
            self.expect(f"no count: {words}", done.returncode == 0 and not done.stderr)
        done = subprocess.run([ROOT / COUNT], cwd=self.folder, capture_output=True, env=ENVIRONMENT, text=True)
        said = f"{COUNT}: there is no file crates/*/src/*.rt here; run it at the top of the repository\n"
        self.expect("counted where nothing is", (done.returncode, done.stdout, done.stderr) == (2, "", said))

    def scripts(self):
        """Arguments that the scripts refuse. The programs that build are not found, so that a script which goes on ends soon."""
        folder = pathlib.Path(self.folder, "path")
        folder.mkdir()
        for name in ("bash", "basename", "dirname", "sed"):
            (folder / name).symlink_to(shutil.which(name))
        number = "is to be a whole number from {} up, of at most 18 digits, and is {}"
        for words, said in (
            (["compare/run", "x"], "COUNT " + number.format(0, "x")),
            (["compare/run", "-1"], "COUNT " + number.format(0, "-1")),
            (["compare/run", "5", "1.5"], "SEED " + number.format(0, "1.5")),
            (["compare/run", "1234567890123456789"], "COUNT " + number.format(0, "1234567890123456789")),
            (["compare/run", "5", "1", "x"], "x is a word too many"),
            (["compare/speed", "0"], "RUNS " + number.format(1, "0")),
            (["compare/speed", "5", "5"], "5 is a word too many"),
            (["compare/search_speed", "ten"], "RUNS " + number.format(1, "ten")),
            (["compare/search_speed", "5", "5"], "5 is a word too many"),
            (["compare/turns"], "FOLDER is missing"),
            (["compare/turns", "examples", "0"], "RUNS " + number.format(1, "0")),
            (["compare/turns", "examples", "5", "5"], "5 is a word too many"),
        ):
            self.script(folder, words, 2, said + HINT)
        self.script(folder, ["compare/turns", self.none], 2, f"{self.none} is no folder")
        self.script(folder, ["compare/turns", "examples"], 2, "examples has no libregister.a")
        programs = "feedcheck supplier_view cheapest build_scheme own_certificate"
        libraries = "register scheme builder plan search penalty bound plain job listing costliest"
        for script, what, names in (("tools/programs", "program", programs), ("tools/libraries", "library", libraries)):
            for name in ("x", "", "--all", " ".join(names.split()[:2])):
                for words in ([name], [names.split()[0], name]):
                    self.script(folder, [script, *words], 2, f"there is no {what} {name}; those that there are: {names}")
        for script in SCRIPTS:
            head = [line[2:] for line in bytes_in(script).decode().split("\nset ")[0].split("\n")[1:]]
            self.script(folder, [script, "--help"], 0, out=text(head).encode())
            self.script(folder, [script, "5", "-h"], 0, out=text(head).encode())

    def script(self, path, words, status, said="", out=b""):
        done = subprocess.run(words, cwd=ROOT, capture_output=True, env={**ENVIRONMENT, "PATH": str(path)})
        expected = f"{words[0]}: {said}\n".encode() if said else b""
        found = (done.returncode, done.stdout, done.stderr)
        self.expect(f"not as it should be: {' '.join(words)}: {found}", found == (status, out, expected))


def main(words):
    expect(words)
    with tempfile.TemporaryDirectory() as folder:
        trials = Trials(folder)
        for tool in TOOLS:
            trials.usage(tool)
        trials.job_text()
        trials.cut()
        trials.plan()
        trials.check_job()
        trials.cheapest()
        trials.costliest()
        trials.kept()
        trials.finish()
        trials.qubo()
        trials.past()
        trials.scripts()
    return tally(trials.all)


if __name__ == "__main__":
    run(__doc__, main)
