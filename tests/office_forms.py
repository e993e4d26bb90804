#!/usr/bin/env python3
"""The three forms of an answer, text, JSON and CSV, against each other, for every command that answers; and the help, the
man page and the completion against the commands.    tests/office_forms.py"""
import itertools
import os
import re
import subprocess
import sys

from office_tools import ROOT, Folder, record, said, zg

FOLDER = Folder()
SAMPLES = sorted((ROOT / "samples").glob("*.record"))
# Where each call takes long, every so many of the questions.
SOME = max(1, int(os.environ.get("STEP", "1")) // 5)


def questions(file):
    """Calls on a record that is accepted."""
    info = zg("info", file, "--json").json[0]
    levels = range(0, info["h"] + 1, max(1, info["h"] // 3))
    yield from (["levels", file], ["census", file], ["decimation", file], ["unfold", file, "--all"])
    for level in levels:
        dart = zg("survivors", file, "--level", level, "--json").json["darts"][0]
        for name in ("survivors", "marks", "unfold", *([] if any(info["contracted"]) else ["regions"])):
            yield [name, file, "--level", level]
        for involution in range(info["n"] + 1):
            yield ["row", file, "--level", level, "--involution", involution]
            for more in ([], ["--trail"], ["--by-levels"]):
                yield ["read", file, "--level", level, "--involution", involution, "--dart", dart, *more]


def shown(value, nothing="-"):
    """A value as text has it."""
    if isinstance(value, list):
        return " ".join(map(shown, value))
    if isinstance(value, float) and value.is_integer():
        return str(int(value))
    return {"None": nothing, "True": "yes", "False": "no"}.get(str(value), str(value))


def as_text(found):
    """The words of an answer in text, made of its JSON: fields, then tables below their headings."""
    words = []
    for name, value in found.items():
        rows = isinstance(value, list) and name not in ("files", "n", "N", "h", "entries")
        tables = isinstance(value, list) and value and isinstance(value[0], dict)
        if tables or name in ("trail", "census", "levels", "decimation", "kinds", "regions", "entries") and not value:
            # An empty table has its headings, which JSON doesn't tell.
            words += [word for key in (value[0] if value else []) for word in key.split()]
            words += [word for line in value for entry in line.values() for word in shown(entry).split()]
        elif rows:
            words += [name, *map(shown, value)]
        else:
            words += [name, *shown(value).split()]
    return words


def text_words(text):
    """The words of a text, without the dart in front of each line of a row."""
    words = []
    for line in text.split("\n"):
        parts = line.split()
        words += parts[1:] if parts and parts[0].endswith(":") and parts[0][:-1].isdigit() else parts
    return words


HEADINGS = {"trail": "step dart met_by left_by kernel kind dimension", "kinds": "mark kind dimension darts"}


def last_table(found):
    """What CSV must have: the last table of JSON, or the fields."""
    name, value = list(found.items())[-1]
    if not isinstance(value, list):
        return [list(found), [shown(entry, "") for entry in found.values()]]
    if value and isinstance(value[0], dict):
        return [list(value[0]), *([shown(entry, "") for entry in line.values()] for line in value)]
    if name == "trail":
        return [HEADINGS[name].split()]
    if name == "darts":
        return [["dart"], *([shown(entry, "")] for entry in value)]
    heading = {"names": "region", "marks": "mark", "row": "neighbour"}[name]
    return [["dart", heading], *([str(dart), shown(entry, "")] for dart, entry in enumerate(value))]


def answers():
    """What is wrong with the forms of an answer."""
    done, wrong = 0, []
    for file in SAMPLES:
        for call in itertools.islice(questions(file), 0, None, SOME):
            text, json, table = (zg(*call, *form) for form in ([], ["--json"], ["--csv"]))
            done += 1
            due = as_text(json.json)
            for name in ("trail", "kinds"):
                if json.json.get(name) == []:
                    at = due.index("marks") if name == "kinds" else len(due)
                    due[at:at] = HEADINGS[name].split()
            if text_words(text.text) != due:
                wrong.append(f"{call}: text and JSON differ")
            if table.csv != last_table(json.json):
                wrong.append(f"{call}: CSV and JSON differ")
    return done, wrong


def many():
    """info and check on many files: a line for each in every form, and the highest status."""
    cut = FOLDER.put("cut.record", SAMPLES[0].read_bytes()[:50])
    for files, status in ((SAMPLES, 0), ([*SAMPLES, cut], 1), ([*SAMPLES, cut, FOLDER / "none"], 2)):
        for command in ("info", "check"):
            text, json, table = (zg(command, *files, *form) for form in ([], ["--json"], ["--csv"]))
            if {text.status, json.status, table.status} != {status}:
                yield f"{command}: status {text.status} and not {status}"
            lines = [line for line in text.text.split("\n") if line]
            if len(lines) != len(files) + (command == "info"):
                yield f"{command}: {len(lines)} lines for {len(files)} files"
            due = [[shown(entry, "") for entry in line.values()] for line in json.json]
            if table.csv != [list(json.json[0]), *due]:
                yield f"{command}: CSV and JSON differ"
            for line, entry in zip(sorted(lines[command == "info" :]), sorted(json.json, key=lambda e: str(e["file"]))):
                numbers = [entry[name] for name in ("n", "N", "h")]
                words = line.replace(",", " ").split()
                if entry["number"] == 0 and not all(str(number) in words for number in numbers):
                    yield f"{command}: {line}"
                if entry["number"] and f"refused {entry['number']} " not in line:
                    yield f"{command}: {line}"


def one_record():
    """info of one record, whose sums must be those of its line among many."""
    for file in SAMPLES:
        entry = zg("info", file, "--json").json[0]
        lines = [line.split() for line in zg("info", file).text.split("\n\n")[1].split("\n") if line]
        survivors = [int(line[1]) for line in lines[1:]]
        factors = [None if line[2] == "-" else line[2] for line in lines[1:]]
        rounded = [None if factor is None else shown(round(factor, 3)) for factor in entry["factors"]]
        marked = sum(int(word) for line in lines[1:] for word in line[3:])
        if (survivors, factors[:-1]) != (entry["survivors"], rounded):
            yield f"info {file.name}: {survivors} {factors}"
        if marked != sum(entry["removed"]) + sum(entry["contracted"]) or marked != survivors[0] - survivors[-1]:
            yield f"info {file.name}: {marked} marked"


def differences():
    """diff: the first place at which two records differ, known by hand."""
    star, pipe = (ROOT / "samples" / f"{name}.record" for name in ("star", "pipe"))
    loose = list(range(12)) * 3
    other = FOLDER.put("other", record(2, 0, 12, loose, [0] * 12, [2] * 12))
    swapped = loose[:]
    swapped[12 + 4], swapped[12 + 5] = 5, 4
    third = FOLDER.put("third", record(2, 0, 12, swapped, [0] * 12, [2] * 12))
    by_hand = [
        (star, star, 0, {"same": True, "level": None, "lambda": 0}),
        (other, third, 1, {"same": False, "level": 0, "row": 1, "dart": 4, "entries": [4, 5], "lambda": 0, "delta": 0}),
        (pipe, star, 1, {"same": False, "n": [3, 2], "N": [576, 12]}),
        (other, star, 1, {"level": 0, "row": 0, "dart": 0, "entries": [0, 6], "lambda": 8, "h": [0, 2]}),
    ]
    for one, two, status, due in by_hand:
        ran = zg("diff", one, two, "--json")
        wrong = {name: ran.json.get(name) for name in due if ran.json.get(name) != due[name]}
        if ran.status != status or wrong:
            yield f"diff {one.name} {two.name}: {ran.status} {wrong}"
    levels = zg("diff", other, third, "--json").json["levels"]
    if levels != [{"level": 0, "entries": 2, "darts": 2}]:
        yield f"diff: {levels}"


def pages():
    """Help for each command; every command and option stands in the man page, which troff takes, and is completed."""
    main = zg("--help")
    names = [line.split()[0] for line in main.text.split("Commands:")[1].split("Options:")[0].split("\n") if line.strip()]
    man, completion = zg("man").text, zg("completion").text
    plain = man.replace("\\-", "-")
    if main.status or len(names) != 21:
        yield f"--help has {len(names)} commands"
    for name in names:
        helped = zg(name, "--help")
        listed = helped.text.split("Options:")[1]
        options = set(re.findall(r"^ +(?:-\w, )?(--[\w-]+)", listed, re.M)) - {"--help"}
        section = re.search(rf"^\.SS {name} .*?(?=^\.S[SH])", plain, re.M | re.S)
        if helped.status or "Usage:" not in helped.text or not section:
            yield f"{name}: no help, or none in the man page"
            continue
        # The output is -o there, and what all commands have stands apart.
        for option in options - {"--output", "--json", "--csv"}:
            if option not in section.group():
                yield f"{name} {option}: not in the man page"
        offered = completed(completion, ["zompelgors", name, "--"])
        if not options <= set(offered):
            yield f"{name}: {options - set(offered)} not completed"
    if set(completed(completion, ["zompelgors", ""])) - {"--help", "--version"} != set(names):
        yield "commands aren't completed"
    if subprocess.run(["which", "groff"], stdout=subprocess.PIPE).returncode == 0:
        call = ["groff", "-man", "-Tutf8", "-ww"]
        done = subprocess.run(call, input=man.encode(), stdout=subprocess.PIPE, stderr=subprocess.PIPE)
        if done.returncode or done.stderr:
            yield f"groff: {done.stderr.decode()[:200]}"


def completed(script, words):
    """What bash offers for the last of the words."""
    call = f"{script}\nCOMP_WORDS=({' '.join(repr(word) for word in words)}); COMP_CWORD={len(words) - 1}\n"
    call += "_zompelgors; printf '%s\\n' \"${COMPREPLY[@]}\"\n"
    return subprocess.run(["bash", "-c", call], stdout=subprocess.PIPE, check=True).stdout.decode().split()


if __name__ == "__main__":
    done, wrong = answers()
    wrong += [*many(), *one_record(), *differences(), *pages()]
    sys.exit(said("forms", f"{done} answers in three forms, 21 helps, the man page, the completion", wrong))
