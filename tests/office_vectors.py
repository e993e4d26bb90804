#!/usr/bin/env python3
"""Every command against the vectors, and against the station's programs.

tests/office_vectors.py checks            the verdicts that the vectors need, as cases of 'check' for an implementation
tests/office_vectors.py vectors VERDICTS  the command on the cases, with the answers of those checks
tests/office_vectors.py programs FOLDER   levels, census and convert of the folder against the command

A record is checked whenever it is read, so a case whose pyramid isn't accepted must be refused as the check refuses it,
and any other as its own answer says. Cases that no file can hold, as those of a wrong length, are left out and counted.
"""
import itertools
import os
import struct
import subprocess
import sys

from office_tools import ABSENT, ROOT, Folder, Words, record, said, shlex, taken, vectors, zg

FOLDER = Folder()


class Case:
    """A case of a job on a folded pyramid: its record, and what follows in the case."""

    def __init__(self, word, words):
        self.word, self.words = word, words
        self.n = self.h = self.darts = 0
        self.rows = self.lambda_ = self.delta = None
        getattr(self, "of_" + word, self.of_pyramid)()

    def of_pyramid(self):
        self.n, self.darts, self.h = self.words.numbers(3)
        self.rows, self.lambda_, self.delta = self.words.list(), self.words.list(), self.words.list()

    def of_add(self):
        self.of_pyramid()
        self.marks = self.words.list()

    def of_check_base(self):
        self.n, self.darts = self.words.numbers(2)
        self.base(self.words.list())

    def of_export(self):
        self.of_check_base()

    def of_mark(self):
        self.of_check_base()

    def base(self, rows):
        self.rows, self.lambda_, self.delta = rows, [0] * self.darts, [self.n] * self.darts

    def of_marks(self):
        # No rows are lent: with those of loose darts every kernel is whole and fits.
        self.n, self.darts, self.h = self.words.numbers(3)
        self.rows = list(range(self.darts)) * (self.n + 1)
        self.lambda_, self.delta = self.words.list(), self.words.list()

    def of_survivors(self):
        self.n = 1
        self.darts, self.h = self.words.numbers(2)
        self.rows = list(range(self.darts)) * 2
        self.lambda_ = self.words.list()
        self.delta = [1 if kernel == self.h else 0 for kernel in self.lambda_]

    def fits(self):
        """Whether a record can hold it."""
        if not (self.n <= 4 and self.h <= 255 and 0 < self.darts <= 4096):
            return False
        entries = (self.n + 1) * self.darts
        lengths = [len(self.rows), len(self.lambda_), len(self.delta)]
        if lengths != [entries, self.darts, self.darts] or max(self.rows) > ABSENT:
            return False
        # On an explicit level a dart may be absent, in a base it can't be.
        return self.word != "mark" or ABSENT not in self.rows

    def check(self):
        """The same as a case of check."""
        lists = (self.rows, self.lambda_, self.delta, [0] * len(self.rows))
        shown = " ".join(" ".join(map(str, [len(one), *one])) for one in lists)
        return f"check {self.n} {self.darts} {self.h} {shown}"

    def file(self):
        return FOLDER.put("F", record(self.n, self.h, self.darts, self.rows, self.lambda_, self.delta))


PYRAMIDS = (
    "check_base check add marks read bylevels unfold survivors mark write decimation census export regions join rebase"
).split()


def some_vectors():
    """Every STEPth case, so that fewer are run where each takes long."""
    return itertools.islice(vectors(), 0, None, int(os.environ.get("STEP", "1")))


def pyramids():
    """The cases on pyramids that a record can hold, with their answers, and how many it can't."""
    left = 0
    found = []
    for word, words, answer in some_vectors():
        if word in PYRAMIDS:
            case = Case(word, words)
            if case.fits():
                found.append((case, answer))
            else:
                left += 1
    return found, left


def due(answer):
    """The refusal of an answer, and its words behind it."""
    words = Words(answer)
    return tuple(words.numbers(4)), words


# ---------------------------------------------------------------- what each command must answer

# Each takes the case and the words of its answer, and gives (what the command says, what is due), or a refusal as due.


def ask(case, *arguments):
    return zg(*arguments[:1], case.file(), *arguments[1:], "--json")


def make(case, *arguments):
    """A command that makes a record: what it holds, if it made one."""
    out = FOLDER / "OUT"
    out.unlink(missing_ok=True)
    ran = zg(*arguments[:1], case.file(), *arguments[1:], "-o", out, "--json")
    assert out.exists() == (ran.status == 0), "an output file with a refusal, or none without"
    return ran, (out.read_bytes() if ran.status == 0 else b"")


def explicit(case, entries, level):
    """A table as the library lays it out, of what unfold lists."""
    table = [ABSENT] * len(case.rows)
    for line in entries:
        for i in range(case.n + 1):
            table[i * case.darts + line["dart"]] = line[f"a{i}"]
        assert line["level"] == level
    return table


def check(case, words):
    ran = ask(case, "check")
    yield ran, ran.json[0]["h"], case.h
    table = ask(case, "unfold", "--level", case.h)
    yield table, explicit(case, table.json["entries"], case.h), words.list()


def check_base(case, words):
    ran = ask(case, "info")
    yield ran, [ran.json[0]["n"], ran.json[0]["N"], ran.json[0]["survivors"]], [case.n, case.darts, [case.darts]]


def add(case, words):
    marks = FOLDER.numbers("M", case.marks)
    ran, made = make(case, "add", "--marks", marks)
    yield ran, taken(made)[1:2] + taken(made)[4:] if made else None, (words.number(), words.list(), words.list())


def marks(case, words):
    level = case.words.number()
    ran = ask(case, "marks", "--level", level)
    yield ran, ran.json.get("marks"), words.list()


def read(case, words, *more):
    level, involution, dart = case.words.numbers(3)
    ran = ask(case, "read", "--level", level, "--involution", involution, "--dart", dart, *more)
    found = [ran.json.get(name) for name in ("neighbour", "count", "since")]
    if ran.status == 0 and "--trail" in more:
        assert len(ran.json["trail"]) == ran.json["count"] - 1
    yield ran, found, words.numbers(3)


def read_with_trail(case, words):
    yield from read(case, words, "--trail")


def bylevels(case, words):
    level, involution, dart = case.words.numbers(3)
    ran = ask(case, "read", "--level", level, "--involution", involution, "--dart", dart, "--by-levels", "--trail")
    yield ran, [ran.json.get(name) for name in ("neighbour", "count")], words.numbers(2)


def unfold(case, words):
    level = case.words.number()
    ran = ask(case, "unfold", "--level", level)
    total, since, table = words.number(), words.number(), words.list()
    if ran.status:
        yield ran, None, None
        return
    line = ran.json["levels"][0]
    yield ran, [line["reads"], line["since"], explicit(case, ran.json["entries"], level)], [total, since, table]
    involution = case.darts % (case.n + 1)
    one = ask(case, "row", "--level", level, "--involution", involution)
    shown = [ABSENT if entry is None else entry for entry in one.json["row"]]
    yield one, shown, table[involution * case.darts :][: case.darts]


def survivors(case, words):
    level = case.words.number()
    ran = ask(case, "survivors", "--level", level)
    count, bits = words.number(), words.list()
    darts = [dart for dart in range(64 * len(bits)) if bits[dart // 64] >> dart % 64 & 1]
    yield ran, [ran.json.get("count"), ran.json.get("darts")], [count, darts]


def mark(case, words):
    out = FOLDER / "M"
    out.unlink(missing_ok=True)
    ran = ask(case, "mark", "--dimension", case.words.number(), "-o", out)
    yield ran, list(map(int, out.read_text().split())) if out.exists() else None, words.list()


def write(case, words):
    ran, made = make(case, "rebase", "--level", 0)
    length, _, due_bytes = words.number(), words.list(), words.list()
    yield ran, list(made), due_bytes[:length]


def decimation(case, words):
    case.words.list()
    level = case.words.number()
    ran = ask(case, "decimation", "--level", level)
    empty, bits = words.number(), words.word()
    due_factor = None if empty else struct.unpack(">d", bytes.fromhex(bits))[0]
    yield ran, ran.json["decimation"][0]["factor"] if ran.status == 0 else None, due_factor


def census(case, words):
    ran = ask(case, "census")
    words.list()
    cells, sums = words.list(), words.list()
    shown = [list(line.values()) for line in ran.json.get("census", [])]
    levels = range(case.h + 1 if ran.status == 0 else 0)
    yield ran, shown, [[level, *cells[5 * level :][: case.n + 1], sums[level]] for level in levels]


def export(case, words):
    out = FOLDER / "MAP"
    out.unlink(missing_ok=True)
    ran = ask(case, "export", "-o", out)
    yield ran, list(map(int, out.read_text().split())) if out.exists() else None, [case.darts // 2, *words.list(), *words.list()]


def regions(case, words):
    case.words.list()
    ran = ask(case, "regions", "--level", case.words.number())
    words.list()
    names = words.list()
    yield ran, [ran.json.get("count"), ran.json.get("names")], [len(set(names)), names]


def join(case, words):
    case.words.list()
    ran, made = make(case, "join", "--level", case.words.number())
    yield ran, taken(made)[1:2] + taken(made)[4:5] if made else None, (words.number(), words.list())


def rebase(case, words):
    case.words.list()
    level, old = case.words.number(), FOLDER / "O"
    old.unlink(missing_ok=True)
    ran, made = make(case, "rebase", "--level", level, "--old", old)
    darts, h, rows, lambda_, delta, _, numbers = *words.numbers(2), *(words.list() for _ in range(5))
    if not made:
        assert not old.exists()
        yield ran, None, None
        return
    shown = (*taken(made), list(map(int, old.read_text().split())))
    entries = (case.n + 1) * darts
    yield ran, shown, (case.n, h, darts, rows[:entries], lambda_[:darts], delta[:darts], numbers[:darts])


COMMANDS = {name: globals()[{"read": "read_with_trail"}.get(name, name)] for name in PYRAMIDS}


def compared(case, answer, verdict):
    """What is wrong with a case, if anything."""
    refusal, words = due(answer)
    # Of what is lent beside the pyramid a file tells the length of a mark row alone.
    if refusal[0] == 4 and (case.word != "add" or len(case.marks) == case.darts):
        return None
    if verdict[0]:
        refusal = verdict
    for ran, shown, right in COMMANDS[case.word](case, words):
        if ran.status == 2:
            return f"{case.word}: {ran.error.strip()}"
        if ran.refusal != refusal:
            return f"{case.word}: {ran.refusal} and not {refusal}"
        if refusal[0]:
            if f"refused {' '.join(map(str, refusal))}: " not in ran.error and case.word not in ("check", "check_base"):
                return f"{case.word}: the error stream says {ran.error!r}"
            return None
        if shown != right:
            return f"{case.word}: {str(shown)[:80]} and not {str(right)[:80]}"
    return None


def on_pyramids(verdicts):
    found, left = pyramids()
    wrong = []
    for (case, answer), line in zip(found, open(verdicts)):
        problem = compared(case, answer, tuple(map(int, line.split()[:4])))
        if problem:
            wrong.append(problem)
    return len(found), left, wrong


def bytes_of(words):
    return bytes(words.list())


def on_files():
    """The cases of records and maps themselves: take, levels, census_program, import."""
    done, left, wrong = 0, 0, []
    for word, words, answer in some_vectors():
        if word in ("take", "levels", "census_program", "import"):
            problem = {"take": take, "import": bring_in}.get(word, printed)(word, words, answer)
            done += problem != "left"
            left += problem == "left"
            if problem and problem != "left":
                wrong.append(f"{word}: {problem}")
    return done, left, wrong


def take(_, words, answer):
    file = FOLDER.put("F", bytes_of(words))
    refusal, rest = due(answer)
    if refusal[0] == 4:
        return "left"
    ran = zg("check", file, "--json")
    if ran.refusal != refusal:
        return f"{ran.refusal} and not {refusal}"
    shown = [ran.json[0][name] for name in ("n", "h", "N")]
    return None if refusal[0] or shown == rest.numbers(3) else f"{shown}"


def bring_in(_, words, answer):
    m, edges, vertices = words.number(), words.list(), words.list()
    refusal, rest = due(answer)
    if refusal[0] == 4 or (not refusal[0] == 2 and (len(edges), len(vertices)) != (m, m)):
        return "left"
    out = FOLDER / "OUT"
    out.unlink(missing_ok=True)
    ran = zg("import", FOLDER.numbers("MAP", [m, *edges, *vertices]), "-o", out, "--json")
    if ran.refusal != refusal:
        return f"{ran.refusal} and not {refusal}: {ran.error}"
    return None if refusal[0] or taken(out.read_bytes())[3] == rest.list() else "other rows"


def numbers_below(ran, heading):
    """The lines of a table of text, below its heading."""
    lines = ran.text.split("\n")
    start = next(at for at, line in enumerate(lines) if line.split()[:1] == ["level"] and line.startswith("level"))
    assert lines[start].split()[1] == heading, lines[start]
    return [" ".join(line.split()) for line in lines[start + 1 :] if line]


def printed(word, words, answer):
    """What levels and census print, in the command's own text."""
    content = bytes_of(words)
    return same_as_program(word.split("_")[0], content, answer.split(" / "))


def same_as_program(name, content, lines):
    ran = zg(name, "-", given=content)
    if lines[0].startswith("refused"):
        said_so = f"zompelgors: -: {lines[0]}: "
        return None if ran.status == 1 and ran.error.startswith(said_so) else f"{ran.error} and not {lines[0]}"
    if name == "levels":
        header = [ran.text.split("\n")[at].split()[1] for at in (1, 2, 3)]
        shown = [" ".join(header), *numbers_below(ran, "survivors")]
    else:
        shown = numbers_below(ran, "0-cells")
    return None if shown == lines else f"{shown} and not {lines}"


def station(folder, run):
    """The station's programs and the command, on the sample records, on damaged ones and on old records."""
    wrong, done = [], 0
    samples = [path.read_bytes() for path in sorted((ROOT / "samples").glob("*.record"))]
    contents = samples + [one[: len(one) * k // 7] for one in samples for k in range(7)]
    for name in ("levels", "census"):
        for content in contents:
            program = subprocess.run([*run, f"{folder}/{name}"], input=content, stdout=subprocess.PIPE)
            problem = same_as_program(name, content, program.stdout.decode().splitlines())
            done += 1
            if problem:
                wrong.append(f"{name}: {problem}")
    for word, words, answer in some_vectors():
        if word == "convert":
            done += 1
            problem = converted(bytes_of(words), *answer.split(" / "))
            if problem:
                wrong.append(f"convert: {problem}")
    return done, wrong


def converted(content, written, error=None):
    """The command's convert, and what the program is due to write; the program is found by ZOMPELGORS_CONVERT."""
    out = FOLDER / "NEW"
    out.unlink(missing_ok=True)
    ran = zg("convert", FOLDER.put("OLD", content), "-o", out)
    if error:
        right = ran.status == 1 and f": {error}: " in ran.error and not out.exists()
        return None if right else f"{ran.status} {ran.error} and not {error}"
    return None if ran.status == 0 and list(out.read_bytes()) == Words(written).list() else f"{ran.error} other bytes"


if __name__ == "__main__":
    if sys.argv[1] == "checks":
        for case, _ in pyramids()[0]:
            print(case.check())
    elif sys.argv[1] == "vectors":
        done, left, wrong = on_pyramids(sys.argv[2])
        more, left_too, wrong_too = on_files()
        sys.exit(said("vectors", f"{done + more} cases, {left + left_too} that no file can hold", wrong + wrong_too))
    else:
        done, wrong = station(sys.argv[2], shlex.split(sys.argv[3]) if len(sys.argv) > 3 else [])
        sys.exit(said("programs", f"{done} records", wrong))
