#!/usr/bin/env python3
"""Makes the vectors of the programs that write a part of a job, build_scheme.txt and own_certificate.txt, from those of the two calls,
build.txt and plain.txt:

    tools/program_vectors.py FOLDER    FOLDER is crates/conformance/data, or another with the two files

A line is a name, what the program reads, 1 where it is refused and else 0, and what it writes. The bytes of an accepted case are those of
the call's vector; a refusal's line is worked out by check_job.py, since the parts stand in one run of bytes here: parts 1 and 2, and the
plan behind them where the register has a `16`. Cases whose buffer is short are left out: a program's is not. The jobs of FOLDER/examples
are tried too; a whole job is more than these programs read.
"""
import itertools
import pathlib
import sys

sys.dont_write_bytecode = True

from check_job import Job, Refused
from command_line import expect, read, run, write

SHORT, FULL = 11, 10


def cases(path):
    for line in read(path).decode().splitlines():
        if line and not line.startswith("#"):
            yield line.split()


def bytes_of(field):
    return b"" if field == "-" else bytes.fromhex(field)


def of_scheme(part):
    """Whether `build_scheme` reads a part."""
    return part == 1


def of_certificate(part):
    """Whether `own_certificate` reads a part. Only with a `16` the plan stands before part 3, where the reading ends."""
    return part != 3


def refusal(given, is_read):
    """The line of the refusal of a job's parts up to the first that is not read, with nothing behind them; None where they are right."""
    job = Job(given)
    try:
        for job.part, reader in itertools.takewhile(lambda numbered: is_read(numbered[0]), job.parts()):
            reader()
        job.ended()
    except Refused as refused:
        number, _, position = refused.args
        return f"R {number} {position}\n".encode()
    return None


def is_ranged(given):
    """Whether a register stands at the front that has a `16`."""
    job = Job(given)
    try:
        job.register()
    except Refused:
        return False
    return job.ranged


def line(name, given, refused, written):
    shown = [x.hex().upper() or "-" for x in (given, written)]
    return f"{name} {shown[0]} {int(refused)} {shown[1]}\n"


def whole_jobs(folder, is_read):
    """A whole job is refused, 12 where its parts at the front are right."""
    for path in sorted((folder / "examples").glob("*.job")):
        yield line(path.stem, path.read_bytes(), True, refusal(path.read_bytes(), is_read))


def schemes(folder):
    for name, register, _, number, _, position, count, buffer in cases(folder / "build.txt"):
        given, number = bytes_of(register), int(number)
        refused = f"R {FULL} {position}\n".encode() if number == FULL else refusal(given, of_scheme)
        if number != SHORT:
            yield line(name, given, refused is not None, refused or bytes_of(buffer)[:int(count)])
    yield from whole_jobs(folder, of_scheme)


def certificates(folder):
    for name, register, scheme, plan, _, number, _, _, count, buffer in cases(folder / "plain.txt"):
        given = bytes_of(register) + bytes_of(scheme)
        if is_ranged(given):
            given += bytes_of(plan)
        refused = refusal(given, of_certificate)
        if refused or int(number) == 0:
            yield line(name, given, refused is not None, refused or bytes_of(buffer)[:int(count)])
    yield from whole_jobs(folder, of_certificate)


def main(words):
    folder = pathlib.Path(*expect(words, "FOLDER"))
    for name, lines in [("build_scheme", schemes(folder)), ("own_certificate", certificates(folder))]:
        head = f"# {name}: name INPUT | REFUSED OUTPUT. Made by tools/program_vectors.py\n"
        write(folder / f"{name}.txt", (head + "".join(lines)).encode())
    return 0


if __name__ == "__main__":
    run(__doc__, main)
