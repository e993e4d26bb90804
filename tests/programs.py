#!/usr/bin/env python3
"""The programs on the records of the vectors, refused ones too.

tests/programs.py answers WORD FILE..             the answers due: of each case WORD of FILE.cases the line of FILE.answers
tests/programs.py levels FILE.. -- COMMAND..      what levels prints for each `levels` case, its lines joined by ' / '
tests/programs.py census FILE.. -- COMMAND..      the same of census for each `census_program` case
tests/programs.py convert FILE.. -- COMMAND..     what convert writes for each `convert` case: the bytes as a list, then ' / ' and its error line if there is one
tests/programs.py converted FILE.. -- COMMAND..   for each `levels` case what levels prints for the record that convert writes, or the error line of convert

COMMAND runs the program named last; for `converted` that is convert, and levels stands beside it.
"""
import subprocess
import sys
from pathlib import Path


def cases(word, names):
    """(bytes, answer) of each case of the word: the word, the number of bytes, the bytes."""
    for name in names:
        lines = zip(Path(f"{name}.cases").read_text().split("\n"), Path(f"{name}.answers").read_text().split("\n"))
        for case, answer in lines:
            words = case.split()
            if words[:1] == [word]:
                yield bytes(map(int, words[2 : 2 + int(words[1])])), answer


def run(command, record):
    """What a program writes to its output and to the error stream."""
    done = subprocess.run(command, input=record, capture_output=True, check=True)
    return done.stdout, " / ".join(done.stderr.decode().splitlines())


def joined(*texts):
    return " / ".join(text for text in texts if text)


def printed(command, record):
    out, error = run(command, record)
    return joined(*out.decode().splitlines(), error)


def convert(command, record):
    out, error = run(command, record)
    return joined(" ".join(map(str, [len(out), *out])), error)


def converted(command, record):
    out, error = run(command, record)
    beside = [*command[:-1], str(Path(command[-1]).with_name("levels"))]
    return joined(printed(beside, out) if out else "", error)


PROGRAMS = {
    "levels": ("levels", printed),
    "census": ("census_program", printed),
    "convert": ("convert", convert),
    "converted": ("levels", converted),
}

if __name__ == "__main__":
    if sys.argv[1] == "answers":
        for _, answer in cases(sys.argv[2], sys.argv[3:]):
            print(answer)
    else:
        end = sys.argv.index("--")
        word, program = PROGRAMS[sys.argv[1]]
        for record, _ in cases(word, sys.argv[2:end]):
            print(program(sys.argv[end + 1 :], record))
