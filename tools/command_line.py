"""What the tools have in common: how they read and write, what they say where something is wrong, and how they end."""
import contextlib
import os
import pathlib
import re
import sys

TROUBLE, INTERRUPTED = 2, 130
# the largest number that a call is given in 32 bits
LARGEST = 4_294_967_295
# the names of words that may be `-`, standard input
FROM_INPUT = ("LINES", "BITS")


class Trouble(Exception):
    """Why a tool can't do what it is asked, in one line."""


class Misuse(Trouble):
    """What is wrong with the words that a tool is called with."""

    def __str__(self):
        return f"{super().__str__()}; --help tells how it is called"


def run(usage, tool):
    """Ends the program with the status that a tool answers for its words."""
    words = sys.argv[1:]
    try:
        if "--help" in words or "-h" in words:
            put(usage)
            status = 0
        else:
            status = tool(words)
    except Trouble as trouble:
        say(trouble)
        status = TROUBLE
    except KeyboardInterrupt:
        status = INTERRUPTED
    sys.exit(status)


def expect(words, *names):
    """The words, where there is one for each name and none of them looks like an option; `-` is one where it can't stand for input."""
    for at, word in enumerate(words):
        if word.startswith("-") and not (word == "-" and at < len(names) and names[at] in FROM_INPUT):
            raise Misuse(f"{word} is no option here")
    if len(words) < len(names):
        raise Misuse(f"{names[len(words)]} is missing")
    if len(words) > len(names):
        raise Misuse(f"{words[len(names)]} is a word too many")
    return words


def number(name, word):
    """The word as a number of 32 bits."""
    if not re.fullmatch("[0-9]{1,10}", word) or int(word) > LARGEST:
        raise Misuse(f"{name} is to be a whole number from 0 to {LARGEST}, and is {word}")
    return int(word)


def say(said):
    """A line on standard error, where there is somebody to read it."""
    with contextlib.suppress(OSError):
        if sys.stderr:
            print(f"tools/{os.path.basename(sys.argv[0])}: {said}", file=sys.stderr)


def read(file):
    """The bytes of a file, of standard input where it is `-`."""
    try:
        with open(0, "rb", closefd=False) if file == "-" else open(file, "rb") as opened:
            return opened.read()
    except OSError as error:
        raise Trouble(f"{file}: {error.strerror}") from None


def write(file, data):
    try:
        with open(file, "wb") as opened:
            opened.write(data)
    except OSError as error:
        raise Trouble(f"{file}: {error.strerror}") from None


def files(folder, ending=""):
    """What a folder has under names with an ending, in order."""
    try:
        return sorted(path for path in pathlib.Path(folder).iterdir() if path.name.endswith(ending))
    except OSError as error:
        raise Trouble(f"{folder}: {error.strerror}") from None


def put(written):
    """Writes text or bytes to standard output. That nobody reads on there is no trouble: the tool ends as it would have ended."""
    if not written:
        return
    if sys.stdout is None:
        raise Trouble("standard output is closed")
    try:
        # not by sys.stdout, which keeps what it could not write, tries once more at the end, and tells of it
        with open(sys.stdout.fileno(), "wb", closefd=False) as output:
            output.write(written.encode(errors="surrogateescape") if isinstance(written, str) else written)
    except BrokenPipeError:
        pass
    except OSError as error:
        raise Trouble(f"standard output: {error.strerror}") from None


def tally(trials):
    """Prints which trials failed, and how many passed; the status. A trial is what is said where it fails, and whether it holds."""
    failed = [said for said, holds in trials if not holds]
    put("".join(f"{said}\n" for said in failed) + f"{len(trials) - len(failed)} passed, {len(failed)} failed\n")
    return 1 if failed or not trials else 0
