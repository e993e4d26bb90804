#!/usr/bin/env python3
"""Runs every command of a page beside the folder samples/, in one shell, and compares what it prints; then the lines of
Python.

tests/office_tutorial.py PAGE            compares
tests/office_tutorial.py PAGE --write    writes what is printed into the page

A command stands behind '    $ ', what it prints below it. Python stands behind '    >>> '."""
import doctest
import os
import shutil
import subprocess
import sys
from pathlib import Path

from office_tools import COMMAND, ROOT, Folder, said

PROMPT, MARGIN, PYTHON = "    $ ", "    ", "    >>> "


def blocks(lines):
    """(place, command, what stands below it) for each command of a page; the place is that of the line behind it."""
    at = 0
    while at < len(lines):
        if lines[at].startswith(PROMPT):
            command, start = lines[at][len(PROMPT) :], at + 1
            at = start
            while at < len(lines) and lines[at].startswith(MARGIN) and not lines[at].startswith((PROMPT, PYTHON)):
                at += 1
            # Blank lines inside what is printed have no margin; the next line with one still belongs to it.
            while at < len(lines) - 1 and not lines[at] and follows(lines, at):
                at += 1
                while at < len(lines) and lines[at].startswith(MARGIN) and not lines[at].startswith((PROMPT, PYTHON)):
                    at += 1
            yield start, at, command
        else:
            at += 1


def follows(lines, at):
    nxt = lines[at + 1]
    return nxt.startswith(MARGIN) and not nxt.startswith((PROMPT, PYTHON))


def play(commands, folder):
    """What each command prints on both streams, all in one shell."""
    outs = [folder / f"out.{at}" for at in range(len(commands))]
    script = "".join(f"{{ {command}\n}} >{out} 2>&1\n" for out, command in zip(outs, commands))
    tool = folder.put("zompelgors", "#!/bin/sh\nexec " + " ".join(f"'{word}'" for word in absolute()) + ' "$@"\n')
    tool.chmod(0o755)
    # The tool isn't one of the files of the tutorial.
    bin_ = folder / "bin"
    bin_.mkdir()
    shutil.move(tool, bin_ / "zompelgors")
    work = folder / "work"
    shutil.copytree(ROOT / "samples", work / "samples")
    environment = {**os.environ, "PATH": f"{bin_}:{os.environ['PATH']}", "LC_ALL": "C.UTF-8"}
    subprocess.run(["bash", "-c", script], cwd=work, env=environment, check=False)
    # The page begins by going into a folder of its own.
    return work / "tutorial", [out.read_text().rstrip("\n") for out in outs]


def absolute():
    """The command, found from any folder."""
    return [str(ROOT / word) if (ROOT / word).is_file() else word for word in COMMAND]


def margin(text):
    return [MARGIN + line if line else "" for line in text.split("\n")] if text else []


def python(page, work):
    """The lines of Python of the page, as doctest runs them."""
    sys.path.insert(0, str(ROOT / "python"))
    os.chdir(work)
    runner = doctest.DocTestRunner(verbose=False, optionflags=doctest.NORMALIZE_WHITESPACE)
    runner.run(doctest.DocTestParser().get_doctest(page, {}, "page", "page", 0))
    return runner.summarize(verbose=False)


if __name__ == "__main__":
    path = Path(sys.argv[1])
    lines = path.read_text().split("\n")
    found = list(blocks(lines))
    folder = Folder()
    work, printed = play([command for _, _, command in found], folder)
    if sys.argv[2:] == ["--write"]:
        for (start, end, _), text in reversed(list(zip(found, printed))):
            tail = [""] * (end > start and not lines[end - 1])
            lines[start:end] = margin(text) + tail
        path.write_text("\n".join(lines))
        sys.exit()
    wrong = []
    for (start, end, command), text in zip(found, printed):
        shown = lines[start:end]
        while shown and not shown[-1]:
            shown.pop()
        if shown != margin(text):
            wrong.append(f"line {start}, {command}: prints {text!r}")
    results = python("\n".join(lines), work) if os.environ.get("ZOMPELGORS_LIBRARY") else doctest.TestResults(0, 0)
    if results.failed:
        wrong.append(f"{results.failed} lines of Python answer something else")
    sys.exit(said("tutorial", f"{len(found)} commands and {results.attempted} lines of Python of {path.name}", wrong))
