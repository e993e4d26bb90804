#!/usr/bin/env python3
"""What is written and what isn't: whole files or none, never in place, a full disk noticed, the status right; the bar on
the error stream of a terminal.    tests/office_writing.py"""
import os
import pty
import resource
import subprocess
import sys

from office_tools import COMMAND, ROOT, Folder, said, taken, zg

STAR = ROOT / "samples" / "star.record"
VOXELS = ROOT / "samples" / "voxels.record"


def statuses(folder):
    """Calls that are wrong, and files that aren't there, can't be read or can't be written."""
    here, x, y = folder.path, folder / "x", folder / "y"
    pipe = ROOT / "samples" / "pipe.record"
    calls = [
        (2, []), (2, ["nothing"]), (2, ["read", STAR]), (2, ["unfold", STAR]),
        (2, ["unfold", STAR, "--level", 1, "--all"]), (2, ["levels", STAR, STAR]),
        (2, ["levels", STAR, "--json", "--csv"]), (2, ["marks", STAR, "--level", 256]),
        (2, ["marks", STAR, "--level", -1]), (2, ["read", STAR, "--level", 1, "--involution", 1, "--dart", 65536]),
        (2, ["add", STAR, "-o", x]), (2, ["add", STAR, "--cells", 0, "--marks", STAR, "-o", x]),
        (2, ["join", STAR, "--level", 0]), (2, ["levels", folder / "none"]), (2, ["levels", here]),
        (2, ["diff", "-", "-"]), (2, ["check", "-", "-"]), (2, ["grid", "0x3", "-o", x]),
        (2, ["grid", "1x1x1x1x1", "-o", x]), (2, ["grid", "23x23", "-o", x]), (2, ["import", STAR, "-o", x]),
        (2, ["build", STAR, "-o", x]), (2, ["add", STAR, "--marks", STAR, "-o", x]),
        (1, ["marks", STAR, "--level", 255]), (1, ["join", STAR, "--level", 255, "-o", x]),
        (1, ["decimation", STAR, "--level", 255]), (1, ["rebase", STAR, "--level", 3, "-o", x]),
        (1, ["regions", pipe, "--level", 0]), (1, ["mark", STAR, "--dimension", 9, "-o", x]),
        (0, ["--help"]), (0, ["--version"]), (0, ["levels", "--help"]), (0, ["grid", "16x32", "-o", y]),
        (0, ["grid", "5x17x1", "-o", y]), (0, ["grid", "5x2x1x1", "-o", y]), (0, ["grid", 7, "-o", y]),
        (3, ["grid", "2x2", "-o", folder / "no" / "folder"]), (3, ["grid", "2x2", "-o", here]),
        (3, ["grid", "2x2", "-o", "/dev/full"]), (3, ["rebase", STAR, "--level", 0, "--old", "/dev/full", "-o", x]),
        (3, ["rebase", STAR, "--level", 0, "--old", folder / "no" / "old", "-o", x]),
    ]  # fmt: skip
    for status, call in calls:
        ran = zg(*call)
        if ran.status != status or (status and not ran.error):
            yield f"{call}: status {ran.status} and not {status}, {ran.error.strip()}"
    if folder.names() != ["y"]:
        yield f"files are left: {folder.names()}"


def full(folder):
    """A disk that is full, for files and for standard output: the old file stays, and nothing else is left."""
    with open("/dev/full", "w") as out:
        for call in (["levels", STAR], ["info", STAR, STAR], ["--help"], ["man"], ["grid", "2x2", "-o", "-"]):
            done = subprocess.run([*COMMAND, *map(str, call)], stdout=out, stderr=subprocess.PIPE)
            if done.returncode != 3 or b"can't be written" not in done.stderr:
                yield f"{call}: status {done.returncode} on a full disk"
        for status, call in ((2, ["levels", folder / "none"]), (2, ["nothing"]), (1, ["marks", STAR, "--level", 3])):
            done = subprocess.run([*COMMAND, *map(str, call)], stdout=subprocess.PIPE, stderr=out)
            if done.returncode != status or done.stdout:
                yield f"{call}: status {done.returncode} and not {status} where the error stream is full"
    out = folder.put("out", "as it was")
    limit = lambda: resource.setrlimit(resource.RLIMIT_FSIZE, (100, 100))
    ran = zg("grid", "9x9", "-o", out, preexec_fn=limit, restore_signals=False)
    if ran.status != 3 or out.read_text() != "as it was" or folder.names() != ["out"]:
        yield f"a file that is too large: status {ran.status}, {folder.names()}"
    with subprocess.Popen([*COMMAND, "unfold", VOXELS, "--all"], stdout=subprocess.PIPE, stderr=subprocess.PIPE) as child:
        child.stdout.read(10)
        child.stdout.close()
        said_so = child.stderr.read()
    if child.returncode != 3 or said_so:
        yield f"a reader that has gone: status {child.returncode}, {said_so}"


def in_place(folder):
    """Nothing is written in place, under any name of the file; a link is followed."""
    file = folder.put("f", STAR.read_bytes())
    os.link(file, folder / "hard")
    os.symlink("f", folder / "soft")
    marks = folder.numbers("m", [255] * 12)
    calls = [
        ["rebase", file, "--level", 1, "-o", out] for out in (file, folder / "hard", folder / "soft", f"{folder.path}/./f")
    ]
    calls += [["rebase", file, "--level", 1, "--old", folder / "a", "-o", folder / "a"]]
    calls += [["add", file, "--marks", marks, "-o", marks], ["marks", file, "--level", 0, "-o", file]]
    calls += [["convert", file, "-o", file], ["export", file, "-o", folder / "hard"]]
    for call in calls:
        ran = zg(*call)
        if ran.status != 2 or file.read_bytes() != STAR.read_bytes() or (folder / "a").exists():
            yield f"{call}: status {ran.status}, {ran.error.strip()}"
    target = folder.put("target", "old")
    os.symlink("target", folder / "link")
    ran = zg("grid", "1x1", "-o", folder / "link")
    if ran.status or not (folder / "link").is_symlink() or taken(target.read_bytes())[2] != 8:
        yield f"a link: {ran.status} {ran.error}"


def streams(folder):
    """Standard input and output: '-' in and out gives the same bytes as files do."""
    star, made = STAR.read_bytes(), folder / "made"
    zg("rebase", STAR, "--level", 1, "-o", made)
    piped = zg("rebase", "-", "--level", 1, "-o", "-", given=star)
    if piped.out != made.read_bytes() or piped.error:
        yield "rebase - -o -: other bytes"
    for call in (["levels", "-"], ["check", "-", STAR], ["diff", "-", STAR], ["diff", STAR, "-"]):
        if zg(*call, given=star).status:
            yield f"{call}: refused"
    refused = zg("join", "-", "--level", 0, "-o", "-", "--json", given=star)
    if refused.status != 1 or refused.out:
        yield f"join -o -: {refused.status} {refused.out}"
    marks = zg("mark", STAR, "--dimension", 0, "--level", 0, "-o", "-")
    if len(marks.text.split()) != 12:
        yield f"mark -o -: {marks.text}"
    endless = subprocess.Popen(["cat", "/dev/zero"], stdout=subprocess.PIPE)
    ran = subprocess.run([*COMMAND, "levels", "-"], stdin=endless.stdout, stdout=subprocess.PIPE, stderr=subprocess.PIPE)
    endless.kill()
    endless.wait()
    if ran.returncode != 1:
        yield f"an endless record: status {ran.returncode}"


def bar():
    """Many files: a bar where somebody looks, and none where nobody does."""
    quiet = zg("check", *[STAR] * 50)
    if quiet.error or quiet.status or len(quiet.text.splitlines()) != 50:
        yield "check of 50 files says something on the error stream"
    ours, theirs = pty.openpty()
    done = subprocess.run([*COMMAND, "check", *[str(STAR)] * 50], stdout=subprocess.PIPE, stderr=theirs)
    os.close(theirs)
    seen = b""
    try:
        while True:
            part = os.read(ours, 4096)
            if not part:
                break
            seen += part
    except OSError:
        pass
    if b"49 of 50" not in seen or b"#" not in seen or done.stdout != quiet.out:
        yield f"no bar at a terminal: {seen[-80:]!r}"


if __name__ == "__main__":
    wrong = []
    for part in (statuses, full, in_place, streams):
        wrong += [f"{part.__name__}: {line}" for line in part(Folder())]
    wrong += bar()
    sys.exit(said("writing", "statuses, a full disk, nothing in place, streams, the bar", wrong))
