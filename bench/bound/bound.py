#!/usr/bin/env python3
"""Bounds on the instructions of every exported function, from the machine code of the archives and loops.table.

    bound.py [--archives A.a B.a] [--table FILE] [--weights FILE] COMMAND

    check           the bounds, from the weights that were found before; fails, by name, where a function's code isn't
                    that of the table, where a loop has no line, where the weights bound nothing
    find [NAME..]   finds weights for these functions, default all, and writes them (needs python3-scipy)
    show NAME       the blocks of a function by their names, to write lines by
    moved           what has changed since the table was written: lines that stand, moved or gone, loops that are new
    move            writes the new names of lines that have moved into the table, and ties functions all of whose lines
                    were found again to their new code
    lock NAME..     ties functions to this code: their lines were looked at and hold of it
    plan PROGRAM BLOCKS PLAN   writes what the search is given
    facts           flow facts: what bounds the loops, with addresses, for a tool that knows a processor
    page FOUND STACKS HOW TREE prints docs/BUDGETS.md, from what the search found and tests/stack.py printed; how it was
                               counted, and the tree of git that the archives are of
    agrees PAGE FOUND          whether the page has these bounds, and the search a call of each function

How it works, and what is trusted: the heads of machine.py (the code), table.py and loops.table (the lines), graph.py (the
graph of a call), duality.py (the bound, checked in fractions); solve.py finds weights and is not trusted.

The status is 0, 1 if something is wrong, 2 if something is missing."""
import argparse
import sys
from pathlib import Path

sys.path.insert(0, str(Path(__file__).parent))
from bounds import Tool, worst
from loops import listing
from machine import Fail
from page import written
import moved
import page

HERE = Path(__file__).parent
ROOT = HERE.parent.parent


def check(tool):
    """Prints the bounds; False if something is wrong."""
    changes = list(moved.told(tool))
    for line in changes:
        print(line)
    if changes:
        print("the code isn't that of the table: look at its loops again (bound.py moved, show, lock)")
        return False
    lost = list(tool.lost_conditions())
    print("\n".join(lost), end="\n" if lost else "")
    right = not lost
    for top in tool.exported:
        try:
            tool.all_bounded(top)
            accepted, any_ = tool.instructions(top, "accepted"), tool.instructions(top, "any")
            most = worst(accepted, top, "accepted"), worst(any_, top, "any")
            print(f"{top}: {written(accepted)}; at most {float(most[0]):,.0f}; any input {written(any_)}; {float(most[1]):,.0f};"
                  f" calls {written(tool.calls(top))}; bytes {written(tool.bytes(top))}")
        except Fail as e:
            print(e)
            right = False
    return right


def run(tool, command, words):
    if command == "check":
        return check(tool)
    if command == "find":
        right = True
        for top in words or tool.exported:
            try:
                tool.find(top)
                print(f"{top}: {written(tool.instructions(top, 'any'))}", flush=True)
            except Fail as e:
                print(e)
                right = False
        tool.save()
        return right
    if command == "show":
        print("\n".join(listing(tool.functions[words[0]])))
    elif command == "moved":
        print("\n".join(moved.told(tool)) or "nothing has changed")
    elif command in ("move", "lock"):
        text = moved.rewritten(tool, set(words))
        Path(tool.table.name).write_text(text, encoding="utf-8")
    elif command == "plan":
        import plan

        Path(words[1]).write_text("\n".join(plan.block_lines(tool, words[0])) + "\n")
        Path(words[2]).write_text("\n".join(plan.plan_lines(tool)) + "\n")
    elif command == "facts":
        import facts

        print("\n".join(facts.lines(tool)))
    elif command == "page":
        print(page.page(tool, *words), end="")
    elif command == "agrees":
        differences = list(page.disagreements(tool, *words))
        print("\n".join(differences), end="\n" if differences else "")
        return not differences
    else:
        raise Fail(f"no such command: {command}")
    return True


def main():
    libraries = ROOT / "target" / "staticlib"
    words = argparse.ArgumentParser(description=__doc__, formatter_class=argparse.RawDescriptionHelpFormatter)
    words.add_argument("--archives", nargs=2, default=[libraries / "libzompelgors.a", libraries / "libzompelgors_regions.a"])
    words.add_argument("--table", default=HERE / "loops.table")
    words.add_argument("--weights", default=HERE / "weights.json")
    words.add_argument("command")
    words.add_argument("words", nargs="*")
    asked = words.parse_args()
    try:
        return 0 if run(Tool(list(map(str, asked.archives)), asked.table, asked.weights), asked.command, asked.words) else 1
    except Fail as e:
        print(f"bound: {e}", file=sys.stderr)
        return 1


if __name__ == "__main__":
    sys.exit(main())
