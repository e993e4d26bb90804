#!/usr/bin/env python3
"""Damaged files through every command: no panic, no output file where anything is refused, and the right status.

tests/office_damaged.py takes COUNT SEED              the damaged records, as cases of 'take' for an implementation
tests/office_damaged.py run COUNT SEED VERDICTS       every command on them, with the answers of those cases

The right status is the implementation's: 1 with its fields where it refuses the record. A damage that makes no
difference, so that the record is accepted, is one too: then the status is the job's own. Images, maps and mark rows are
damaged as well; of these nothing is known but that the status is 0, 1 or 2, and a file is written with 0 alone."""
import random
import sys

from office_tools import ROOT, Folder, said, taken, zg

FOLDER = Folder()
LARGEST = 49_180

# Every command that reads a record; OUT and M stand for files.
ASKING = [
    "levels F", "census F", "decimation F", "decimation F --level 0", "regions F --level 0", "survivors F --level 1",
    "marks F --level 0", "row F --level 1 --involution 0", "unfold F --level 1", "unfold F --all",
    "read F --level 1 --involution 1 --dart 0 --trail", "read F --level 1 --involution 0 --dart 1 --by-levels",
    "info F", "check F", "diff F STAR", "diff STAR F",
]  # fmt: skip
MAKING = [
    "mark F --dimension 0 -o OUT", "add F --cells 0 -o OUT", "add F --marks M -o OUT", "join F --level 0 -o OUT",
    "rebase F --level 1 --old OLD -o OUT", "export F -o OUT", "marks F --level 0 -o OUT",
]  # fmt: skip


def damaged(count, seed):
    """Sample records with something changed: bits, bytes, lengths, parts, numbers at an edge."""
    rng = random.Random(seed)
    samples = [path.read_bytes() for path in sorted((ROOT / "samples").glob("*.record"))]
    small = [one for one in samples if len(one) < 10_000]
    for at in range(count):
        content = bytearray(rng.choice(samples if at % 10 == 0 else small))
        for _ in range(rng.choice((1, 1, 1, 2, 5))):
            damage(rng, content)
        yield bytes(content)


def damage(rng, content):
    place = rng.randrange(len(content)) if content else 0
    how = rng.randrange(6)
    if how == 0 and content:
        content[place] ^= 1 << rng.randrange(8)
    elif how == 1 and content:
        content[place] = rng.choice((0, 1, 2, 9, 32, 33, 127, 128, 254, 255))
    elif how == 2:
        del content[place:]
    elif how == 3:
        content += bytes(rng.randrange(256) for _ in range(rng.choice((1, 2, 60_000))))
    elif how == 4 and content:
        del content[place : place + rng.randrange(1, 9)]
    elif content:
        # The fields of the header, and those of the first row.
        content[rng.randrange(min(len(content), 12))] = rng.randrange(256)


def take_case(content):
    """A case of take, in memory that is enough for every record. More than the largest and a byte is never looked at."""
    shown = content[: LARGEST + 1]
    rooms = " ".join(f"{length} " + "0 " * length for length in (20_480, 4_096, 4_096, 20_480))
    return f"take {len(shown)} {' '.join(map(str, shown))} {rooms}".replace("  ", " ").strip()


def call(line):
    """A command on the files of the folder."""
    for name in ("OUT", "OLD"):
        (FOLDER / name).unlink(missing_ok=True)
    names = {name: FOLDER / name for name in ("F", "M", "OUT", "OLD", "MAP", "LABELS")}
    names["STAR"] = ROOT / "samples" / "star.record"
    return zg(*(names.get(word, word) for word in line.split()))


def left_behind(ran):
    """Whether there are files that shouldn't be there, or none that should."""
    made = (FOLDER / "OUT").exists() or (FOLDER / "OLD").exists()
    beside = [name for name in FOLDER.names() if name.startswith(".")]
    return beside or (made and ran.status != 0)


def on_record(content, refusal):
    """What is wrong with a command on a damaged record."""
    FOLDER.put("F", content)
    darts = 12 if refusal[0] else taken(content)[2]
    FOLDER.numbers("M", [255] * darts)
    for line in ASKING + MAKING:
        ran = call(line)
        if left_behind(ran) or (ran.status == 0) == (not (FOLDER / "OUT").exists()) and "-o" in line:
            yield f"{line}: files {FOLDER.names()} with status {ran.status}"
        fields = "refused " + " ".join(map(str, refusal)) + ": "
        spoken = ran.error + (ran.text if line.split()[0] in ("info", "check") else "")
        if refusal[0] and (ran.status != 1 or fields not in spoken):
            yield f"{line}: status {ran.status}, {spoken.strip()[:100]} and not {fields}"
        if not refusal[0] and ran.status not in (0, 1):
            yield f"{line}: status {ran.status} of an accepted record: {ran.error}"


def on_texts(rng, count):
    """Damaged images, maps and mark rows, and records that are taken for old ones."""
    star = (ROOT / "samples" / "star.record").read_bytes()
    good = {
        "build LABELS -o OUT": ("LABELS", b"P2\n4 3\n5\n1 1 2 2\n1 1 2 2\n3 3 3 3\n"),
        "build LABELS --size 2x2x2 -o OUT": ("LABELS", bytes([1, 1, 2, 2, 1, 1, 2, 2])),
        "import MAP -o OUT": ("MAP", b"6\n1 0 3 2 5 4\n2 1 4 3 0 5\n"),
        "add F --marks M -o OUT": ("M", b"255 " * 6 + b"0 0 " + b"255 " * 4),
        "convert F -o OUT": ("F", star),
    }
    for at in range(count):
        line = rng.choice(list(good))
        FOLDER.put("F", star)
        name, content = good[line]
        content = bytearray(content)
        for _ in range(rng.choice((1, 1, 2, 4))):
            damage(rng, content)
        FOLDER.put(name, bytes(content))
        ran = call(line)
        if ran.status not in (0, 1, 2) or left_behind(ran) or (ran.status == 0) != (FOLDER / "OUT").exists():
            yield f"{line}: status {ran.status}, files {FOLDER.names()}, {ran.error}"


if __name__ == "__main__":
    count, seed = int(sys.argv[2]), int(sys.argv[3])
    if sys.argv[1] == "takes":
        for content in damaged(count, seed):
            print(take_case(content))
        sys.exit()
    wrong, refused = [], 0
    for content, verdict in zip(damaged(count, seed), open(sys.argv[4])):
        refusal = tuple(map(int, verdict.split()[:4]))
        refused += refusal[0] > 0
        wrong += on_record(content, refusal)
    wrong += on_texts(random.Random(seed), count)
    commands = len(ASKING) + len(MAKING)
    sys.exit(said("damaged", f"{count} records through {commands} calls each, {refused} refused, {count} other files", wrong))
