"""What the tests of the office's tool have in common: the command run, records written and taken apart by hand, vectors."""
import csv
import io
import json
import os
import shlex
import struct
import subprocess
import tempfile
from pathlib import Path

ROOT = Path(__file__).resolve().parent.parent
# The command, with an emulator in front of it where one is needed.
COMMAND = shlex.split(os.environ.get("OFFICE", "target/tests/rust_cli/debug/zompelgors"))
ABSENT, STAY, CONTRACT = 65_535, 255, 8
# A panic of a Rust program ends with this status.
PANIC = 101


class Ran:
    """What a call of the command wrote, and its status."""

    def __init__(self, done):
        self.status, self.out, self.error = done.returncode, done.stdout, done.stderr.decode()

    @property
    def text(self):
        return self.out.decode()

    @property
    def json(self):
        return json.loads(self.out)

    @property
    def csv(self):
        return list(csv.reader(io.StringIO(self.text)))

    @property
    def refusal(self):
        """Number, level, involution and dart of a refusal that JSON tells; none where it was accepted."""
        found = self.json
        found = found[0] if isinstance(found, list) else found
        fields = tuple(found.get(name, 0) for name in ("number", "level", "involution", "dart"))
        return fields if self.status == 1 else (0, 0, 0, 0)


def zg(*arguments, given=None, **options):
    """Calls the command."""
    call = [*COMMAND, *map(str, arguments)]
    ran = Ran(subprocess.run(call, input=given, stdout=subprocess.PIPE, stderr=subprocess.PIPE, **options))
    if ran.status == PANIC or ran.status < 0 or "panicked" in ran.error:
        raise AssertionError(f"{call} ended with {ran.status}: {ran.error}")
    return ran


class Folder:
    """A folder for files, which goes when the tests have ended."""

    def __init__(self):
        self._folder = tempfile.TemporaryDirectory(prefix="office")
        self.path = Path(self._folder.name)

    def put(self, name, content):
        to = self.path / name
        to.write_bytes(content if isinstance(content, bytes) else content.encode())
        return to

    def numbers(self, name, numbers):
        return self.put(name, " ".join(map(str, numbers)) + "\n")

    def __truediv__(self, name):
        return self.path / name

    def names(self):
        return sorted(os.listdir(self.path))


def field(tag, body):
    return struct.pack("<BH", tag, len(body)) + body


def record(n, h, darts, rows, lambda_, delta):
    """The bytes of a record, whatever it holds; rows one behind the other."""
    out = field(0x01, struct.pack("<BBH", n, h, darts))
    for i in range(n + 1):
        row = rows[i * darts : (i + 1) * darts]
        out += field(0x10 + i, struct.pack(f"<{len(row)}H", *row))
    return out + field(0x30, bytes(lambda_)) + field(0x31, bytes(delta))


def taken(content):
    """n, h, N, rows, Λ and Δ of a record."""
    n, h, darts = struct.unpack_from("<BBH", content, 3)
    at, rows = 7, []
    for _ in range(n + 1):
        rows += struct.unpack_from(f"<{darts}H", content, at + 3)
        at += 3 + 2 * darts
    lambda_ = list(content[at + 3 : at + 3 + darts])
    delta = list(content[at + 6 + darts : at + 6 + 2 * darts])
    assert len(content) == at + 6 + 2 * darts
    return n, h, darts, rows, lambda_, delta


class Words:
    """The words of a case or an answer, one after the other."""

    def __init__(self, line):
        self.words, self.at = line.split(), 0

    def number(self):
        self.at += 1
        return int(self.words[self.at - 1])

    def numbers(self, count):
        return [self.number() for _ in range(count)]

    def word(self):
        self.at += 1
        return self.words[self.at - 1]

    def list(self):
        return self.numbers(self.number())


def vectors():
    """Every case of tests/vectors with its answer: word, words of the case behind it, answer."""
    folder = ROOT / "tests" / "vectors"
    for file in sorted(folder.glob("*.cases")) + sorted((folder / "old").glob("*.cases")):
        answers = file.with_suffix(".answers").read_text().split("\n")
        for case, answer in zip(file.read_text().split("\n"), answers):
            if case:
                words = Words(case)
                # What stands in old/ is of another age: only convert's own cases are of this one.
                if file.parent == folder or words.words[0] == "convert":
                    yield words.word(), words, answer


def said(name, done, wrong):
    """The last line of a part, and its status."""
    for line in wrong[:20]:
        print(f"{name}: {line}")
    print(f"{done}, {len(wrong)} differences")
    return 1 if wrong else 0
