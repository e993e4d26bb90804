#!/usr/bin/env python3
"""Prints the stack that each function of the C library takes, in bytes: its return address, registers saved, locals
and what it passes on, then those of its callees; read out of the code.   python3 tests/stack.py [LIBRARY]

It needs an objdump for x86-64: OBJDUMP names one, else the cross one is taken, or on x86-64 the machine's own."""
import os, platform, re, shutil, subprocess, sys

# How deep functions call themselves or each other: a reading by levels once for each level, 0 to 32.
LEVELS = 33


def objdump():
    """The command that disassembles x86-64 code on this machine."""
    own = platform.machine() == "x86_64"
    names = [os.environ.get("OBJDUMP"), "x86_64-linux-gnu-objdump", "objdump" if own else None]
    found = next((name for name in names if name and shutil.which(name)), None)
    package = "binutils" if own else "binutils-x86-64-linux-gnu"
    return found or sys.exit(f"no objdump for x86-64: apt-get install {package}, or set OBJDUMP")


def disassembled(library):
    """For each function its instructions; a call's target is in the relocation below it, or in the call itself."""
    command = [objdump(), "-dr", "-M", "intel", "--no-show-raw-insn", library]
    functions = {}
    for line in subprocess.run(command, check=True, capture_output=True, text=True).stdout.splitlines():
        head = re.match(r"[0-9a-f]+ <(.*)>:$", line)
        if head:
            lines = functions.setdefault(head[1], [])
        elif "\t" in line and functions:
            lines.append(line.split("\t", 1)[1].strip())
    return functions


def taken(line):
    """Bytes by which an instruction lowers the stack pointer."""
    if line.startswith("push"):
        return 8
    lowered = re.match(r"sub +rsp,(0x[0-9a-f]+)", line)
    return int(lowered[1], 16) if lowered else 0


# a frame of many pages is taken one page after the other, down to r11
PAGES = re.compile(r"mov +r11,rsp|sub +r11,(0x[0-9a-f]+)|cmp +rsp,r11|jne ")


def frame(lines):
    """Return address and what the prologue takes; then the most that is pushed on for one call."""
    at = pages = 0
    while taken(lines[at]) or "[rsp],0x0" in lines[at] or PAGES.match(lines[at]):
        down = PAGES.match(lines[at])
        pages += int(down[1], 16) - 4096 if down and down[1] else 0
        at += 1
    most = passed = 0
    for line in lines[at:]:
        passed = 0 if line.startswith("call") else passed + taken(line)
        most = max(most, passed)
    return 8 + sum(map(taken, lines[:at])) + pages + most


def callees(lines, functions):
    """The library's functions among those called; memset and its like are the C library's."""
    names = re.findall(r"(?:R_X86_64_PLT32\s+(?:\.text\.)?|call .*<)(.*?)(?:-0x4|>)(?:\n|$)", "\n".join(lines))
    return {name for name in names if name in functions}


def reached(names, functions):
    """What these functions call, and what that calls."""
    found, new = set(), set(names)
    while new:
        new = set().union(*(callees(functions[f], functions) for f in new)) - found
        found |= new
    return found


def stack(name, functions):
    """Functions that call each other take, each time, at most all their frames together."""
    below = reached({name}, functions)
    cycle = {f for f in below if name in reached({f}, functions)} if name in below else set()
    own = LEVELS * sum(frame(functions[f]) for f in cycle) or frame(functions[name])
    calls = set().union(*(callees(functions[f], functions) for f in cycle | {name})) - cycle - {name}
    return own + max((stack(f, functions) for f in calls), default=0)


library = sys.argv[1] if len(sys.argv) > 1 else "target/staticlib/libzompelgors.a"
if not os.path.isfile(library):
    sys.exit(f"there is no {library}: './build.sh zompelgors' makes target/staticlib/libzompelgors.a")
functions = disassembled(library)
for name in sorted(functions):
    if name.startswith("zg_"):
        print(f"{stack(name, functions):6} {name}")
