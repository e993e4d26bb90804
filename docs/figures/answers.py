"""The small sample records, what the library is asked about them, and what it answered.

asked.cases and asked.answers have the form of tests/vectors: tests/run.sh puts the cases to the library and holds its
answers to the file. The pictures are drawn from these answers."""
from functools import lru_cache
from pathlib import Path

ROOT = Path(__file__).resolve().parent.parent.parent
FIGURES = ROOT / "docs" / "figures"
CONTRACT = 8
RECORDS = ["star", "segment", "square", "refused/open"]
# the walks that are drawn: record, level, involution, dart
WALKS = [("star", 2, 0, 7), ("segment", 1, 0, 0), ("square", 2, 1, 7), ("refused/open", 1, 0, 4), ("refused/open", 1, 0, 5)]


def listed(numbers):
    return " ".join(map(str, [len(numbers), *numbers]))


class Record:
    """What the bytes of a record say."""

    def __init__(self, name):
        self.name, self.bytes = name, (ROOT / "samples" / f"{name}.record").read_bytes()
        fields, at = [], 0
        while at < len(self.bytes):
            length = int.from_bytes(self.bytes[at + 1 : at + 3], "little")
            fields.append(self.bytes[at + 3 : at + 3 + length])
            at += 3 + length
        self.n, self.h, self.darts = fields[0][0], fields[0][1], int.from_bytes(fields[0][2:4], "little")
        self.rows = [[row[2 * d] + 256 * row[2 * d + 1] for d in range(self.darts)] for row in fields[1:-2]]
        self.lam, self.delta = list(fields[-2]), list(fields[-1])

    def lent(self):
        """The pyramid as the case of a job has it."""
        rows = [entry for row in self.rows for entry in row]
        return f"{self.n} {self.darts} {self.h} {listed(rows)} {listed(self.lam)} {listed(self.delta)}"

    def trail(self, level, involution, dart):
        """The walk that is asked, as (row read, dart met) for each read, by the rule of docs/SCOPE.md, 'Direct walk'."""
        row, steps = involution, []
        while True:
            dart = self.rows[row][dart]
            steps.append((row, dart))
            if self.lam[dart] >= level:
                return steps
            mark = self.delta[dart]
            pair = (mark - CONTRACT, mark - CONTRACT - 1) if mark > CONTRACT else (mark, mark + 1)
            row = pair[1] if row == pair[0] else pair[0]


@lru_cache(None)
def record(name):
    return Record(name)


def take_case(r):
    size = (r.n + 1) * r.darts
    empty = [listed([0] * size), listed([0] * r.darts), listed([0] * r.darts), listed([0] * size)]
    return f"take {listed(r.bytes)} {' '.join(empty)}"


def unfold_case(r, level):
    return f"unfold {r.lent()} {level} {listed([0] * ((r.n + 1) * r.darts))}"


def read_case(r, level, involution, dart):
    return f"read {r.lent()} {level} {involution} {dart}"


def cases():
    """All that the library is asked: each record taken, its levels unfolded, the walks."""
    for name in RECORDS:
        r = record(name)
        yield take_case(r)
        yield from (unfold_case(r, level) for level in range(r.h + 1))
    for name, *question in WALKS:
        yield read_case(record(name), *question)


@lru_cache(None)
def answers():
    """{case: the numbers that the library answered}."""
    asked = (FIGURES / "asked.cases").read_text().splitlines()
    answered = (FIGURES / "asked.answers").read_text().splitlines()
    return {case: [int(word) for word in answer.split()] for case, answer in zip(asked, answered, strict=True)}


def refusal(name):
    """Number, level, involution and dart of a record taken: four times 0 if it is accepted."""
    return answers()[take_case(record(name))][:4]


class Level:
    """An unfolded level, as the library answered it."""

    def __init__(self, name, level):
        r = record(name)
        answer = answers()[unfold_case(r, level)]
        self.reads, self.since, table = answer[4], answer[5], answer[7:]
        self.rows = [table[i * r.darts : (i + 1) * r.darts] for i in range(r.n + 1)]
        self.survivors = [d for d in range(r.darts) if self.rows[0][d] != 65535]
        self.gone = [d for d in range(r.darts) if self.rows[0][d] == 65535]


def walk(name, level, involution, dart):
    """The trail of a walk, held to the neighbour, the count and the level since which that the library answered."""
    r = record(name)
    steps = r.trail(level, involution, dart)
    neighbour, count, since = answers()[read_case(r, level, involution, dart)][4:7]
    passed = [met for _, met in steps[:-1]]
    told = steps[-1][1], len(steps), max([r.lam[d] + 1 for d in passed], default=0)
    if told != (neighbour, count, since):
        raise SystemExit(f"{name}: the walk of {dart} is drawn as {told}, the library answers {(neighbour, count, since)}")
    return steps


if __name__ == "__main__":
    print("\n".join(cases()))
